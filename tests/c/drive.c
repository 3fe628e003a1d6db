/*
 * A driver over the calls of include/handset.h: it reads a script of calls, from a file or from standard input, and prints what each
 * call handed back.
 * usage: drive [FILE]
 *
 * It keeps one record, at first the power-on record. A script has one call a line: a letter alone, or a letter, one blank and
 * bytes as pairs of hexadecimal digits, of either case, with nothing between them; a blank with no bytes behind it does no harm.
 * A number is two bytes, its high byte first, unless it is said to be one byte. A line that breaks this, lacks bytes that its
 * call needs, has bytes too many or breaks a limit gets the line "what" and changes nothing; an empty line is passed
 * over without a line. The last line needs no line feed.
 *
 *   P                           the power-on record
 *   O                           the power-on record of the former defaults, whose Time2 is 12
 *   Z                           the power-on record of the sister
 *   S FIELD PLACE VALUE         sets a place of a field to any value, in range or not; FIELD is one byte
 *   R                           whether the record is in range
 *   F ROOM BYTES                the stream call, with no bytes or more
 *   N BYTES                     the room that a stream call on these bytes can need
 *   D PLACE BYTES               the parts of a stream from a place on, one after the other; PLACE may be any
 *   J MODE BYTES                the verdict of a frame of the first edition; MODE is one byte, any, and the frame has any bytes at all
 *   I BYTES                     the verdict of a frame if it came now, on the record, by its edition
 *   E BYTES                     the choice check of a stream, with no bytes or more
 *   K ROOM COUNT TICKS EDGES    the key log call; COUNT says how many ticks, a number each, and the rest are edges, a byte each.
 *                               There may be more of one than of the other
 *   C                           a second passes, on the record
 *   H ON                        the hook call; ON is one byte: 0 off-hook, any other on-hook
 *   B                           a second passes in place, on a copy of the record's backlight; the record stays
 *   Q ROW PHASE                 the row question; ROW is one byte, PHASE one too: 0 lit, 1 the pause
 *   U ROW COLUMN PHASE          the column question; each is one byte
 *   M PHASE                     the SMS panel
 *   V                           the volume panel
 *   W ROOM COMMAND A B          the command writer; COMMAND is one byte, A and B are the command's numbers, 0 where it has none
 *   Y ROOM COMMAND A B          the sister's command writer; COMMAND may be any byte
 *   T ROOM SIDE CODES           the label writer; SIDE is one byte, 0 left, 1 right
 *   G ROOM ROW COLUMNS          the picture row writer; ROW is one byte
 *
 * "Q 0500" asks for row 5, lit, and "F 00021B51" hands the stream 1B 51 over with room for two answer bytes. ROOM is at most 300: just
 * so many places are lent to the call, and place i holds (i * 7 + 3) mod 256 before it. A line has at most 4,096 stream bytes,
 * 1,024 ticks and 1,024 edges, 300 codes or 300 columns.
 *
 * What it prints. A line is a word and bytes, in upper case; one with no bytes is the word alone. NUMBER is document 01's, a byte; a flag
 * is 0 or 1. USED and WRITTEN are two bytes, and so is a TICK; all else is one, but for arrays.
 *
 *   P, O, Z and S    the letter and 00
 *   R                R 01 in range, R 00 not
 *   C and H          the letter and NUMBER
 *   N                N NUMBER BOUND, two bytes
 *   D                D alone; then for each part a line "part KIND END BODY BODY_END": KIND 1 text, 2 skipped, 3 closed, 4
 *                    abandoned, 5 the tail; the others are places, two bytes each. The last has KIND 0: there is none
 *   J                J VERDICT NUMBER_OUT: 0 bad, 1 passed over, 2 obeyed; NUMBER_OUT, two bytes, is the first out of range, else 0
 *   I                I NUMBER VERDICT NUMBER_OUT: the same, and 3 refused by the record's state; 0 and 0 unless NUMBER is 0
 *   E                E RULE OFFSET: 0 for a stream that keeps the rules of choice screens, else the rule that is broken, 1 to 4;
 *                    OFFSET, two bytes, is where, and 0 for RULE 0
 *   F, K, W, Y, T, G the letter NUMBER USED WRITTEN, USED 0 for the writers; then "buffer" and all that was lent, as it stands
 *                    after the call
 *   B                B NUMBER; then a line "backlight" as in the record
 *   M                M NUMBER SMS: 0 nothing, 1 Read, 2 Unread
 *   V                V NUMBER VOLUME LEVEL: 0 nothing, 1 Mute, 2 private, 3 handsfree; LEVEL 0 for the first two
 *   Q                Q NUMBER; then what the owner of the row shows, no line if there is nothing:
 *                      icon bar F P R SMS VOLUME LEVEL
 *                      row OWNER ROW MARK OWNER 2 is a text row, 3 a picture row, 4 the small codes of the large line, ROW 0, 5 a
 *                                         half of its big ones, ROW 0 the upper, 1 the lower, 6 a picture row with the rocker; then
 *                                         "cells": 16 codes, 8 big ones or 96 columns, and for OWNER 6 "rocker W". MARK is 1 for a
 *                                         text row that is seen inverse, else 0
 *                      soft keys W        then the lines of the labels as in the record
 *   U                U NUMBER; then the line "icon bar" as above, or what stands at the place, no line if there is nothing:
 *                      cell OWNER WHERE VALUE MARK    OWNER, WHERE and MARK 2 to 5 as OWNER, ROW and MARK above; 6 the left label, 8 the
 *                                                right one, WHERE a cell of it, VALUE 0 past its length; 7 the rocker, WHERE 0
 *
 * After the lines of P, O, Z, S, F, K, C and H the whole record follows:
 *
 *   screen DISPLAY MODE OVERLAY SHOWN ROW COLUMN           OVERLAY 0 is none; SHOWN, ROW and COLUMN are the cursor's
 *   labels LEFT RIGHT                                      their lengths
 *   left CODES                                             all seven places
 *   right CODES
 *   icons S U F R P W WHICH LEVEL MUTE HIDDEN BUZZER       WHICH volume: 0 none, 1 private, 2 handsfree
 *   backlight MODE DURATION LEFT KEYPAD                    MODE 0 off, 1 on, 2 auto
 *   switches CONTRAST HOOK MARKS                           HOOK 1 is on-hook; MARKS are five flags, of text rows 0 to 4
 *   keys DOWN KEY TICK STAGE TIME1 TIME2                   STAGE 0 short, 1 long
 *   edition SISTER BRIGHTNESS SPEAKER PWM PTT STAGE KEY TICK DOWN    what only the sister has. STAGE 0 none, 1 short, 2 long, 3 false;
 *                                                          DOWN is four bytes: keys 0 to 7 in the first, key 0 the lowest bit
 *   frame STATE LENGTH                                     STATE 0 none, 1 open, 2 overlong
 *   bytes FRAME                                            all 250 places
 *   text CODES                                             80 places
 *   line CODES                                             the large line, 24 places
 *   picture COLUMNS                                        672 places
 *
 * Fields of S, with the places of an array in brackets; any other field has only place 0. Of a value the low eight bits are
 * taken, all sixteen for a tick; a flag is set by any value but 0. The numbers are decimal here.
 *
 *    0 display (flag)    1 text mode         2 overlay            3 cursor shown (flag)  4 row              5 column
 *    6 text [80]         7 left length       8 left codes [7]     9 right length        10 right codes [7] 11 picture [672]
 *   12 icon S           13 icon U           14 icon F            15 icon R              16 icon P          17 icon W
 *   18 volume which     19 level            20 mute (flag)       21 hidden (flag)       22 Time1           23 Time2
 *   24 buzzer           25 backlight mode   26 duration          27 seconds left        28 keypad (flag)   29 key held (flag)
 *   30 held key         31 held tick        32 stage long (flag) 33 frame state         34 frame length    35 frame bytes [250]
 *   36 large line [24]  37 contrast         38 on-hook (flag)    39 inverse mark [5] (flags)
 *   40 sister (flag)    41 brightness       42 speaker volume    43 PWM (flag)          44 PTT (flag)      45 stage of her keys
 *   46 her key          47 her tick         48 her keys that are down [4]
 *
 * Commands of W, in decimal: 0 display off, 1 display on, 2 text mode or overlay A, 3 cursor shown, 4 cursor not shown, 5 clear,
 * 6 cursor to row A, column B, 7 both labels empty, 8 to 13 icon S, U, F, R, P, W to A, 14 private volume A, 15 handsfree volume
 * A, 16 the same as the note spells it, 17 mute A, 18 key times A and B, 19 buzzer A, 20 backlight IEn with A, then without
 * numbers 21 IEE, 22 IEA, 23 IES, 24 IER, 25 IEe, 26 IEr, 27 contrast A, 28 IA, 29 IH, 30 &V, 31 [K, 32 inverse A.
 *
 * Commands of Y: of those what both editions have, in her spelling, and her own, in decimal: 64 cursor A, 65 restart, 66 text mode or
 * overlay A, 67 backlight IEn with A, without numbers 68 IEE, 69 IEA, 70 IES, 71 IEP, 72 IEQ, 73 IER, 74 IEe, 75 IEc, 76 IEs, then
 * 77 icon U to A, 78 brightness A, 79 key times A and B, 80 speaker volume A, the questions 81 &H?, 82 &V?, 83 KH?, 84 KP?, 85 IA?,
 * 86 IDM?, 87 IE?, 88 IN?, 89 IT?, 90 IV?, and the steps 91 IA+, 92 IA-, 93 IN+, 94 IN-, 95 IV+, 96 IV-.
 */
#include "handset.h"

#include <stddef.h>
#include <stdio.h>
#include <string.h>

enum {
    MOST_STREAM = 4096,
    MOST_ENTRIES = 1024,                             /* ticks, or edges, of a key log */
    MOST_CELLS = 300,                                /* codes or columns for a writer */
    MOST_ROOM = 300,
    MOST_LINE = 2 + 2 * (2 + MOST_STREAM),           /* a letter, a blank, a room and the most of a stream */
    GUARD = 64,                                      /* places before and behind a room, which nobody may write to */
    LINE = HANDSET_TEXT_ROWS * HANDSET_TEXT_ROW_SIZE /* where the large line begins in the text */
};

static struct handset record;

/* The bytes of the line that is being taken, behind ROOM where its call has one. */
static const uint8_t *bytes;
static uint64_t count;

static uint16_t number_at(const uint8_t *pair)
{
    return (uint16_t)(pair[0] << 8 | pair[1]);
}

/* ---- Printing ---- */

static void say(const char *word, const uint8_t *said, size_t length)
{
    static const char digits[] = "0123456789ABCDEF";
    printf(length > 0 ? "%s " : "%s", word);
    for (size_t i = 0; i < length; i++) {
        putchar(digits[said[i] >> 4]);
        putchar(digits[said[i] & 15]);
    }
    putchar('\n');
}

static void say_alone(const char *word)
{
    say(word, NULL, 0);
}

/* The line of a word and the bytes behind it; TWO is a number's two. */
#define SAY(word, ...) say(word, (const uint8_t[]){__VA_ARGS__}, sizeof((const uint8_t[]){__VA_ARGS__}))
#define TWO(number) (uint8_t)((number) >> 8), (uint8_t)(number)

/* ---- The record by its fields ---- */

enum kind { BYTE, FLAG, TICK };

#define AT(field) offsetof(struct handset, field)
#define SETTING(field) AT(small.settings.field)
#define EDITION(field) AT(small.edition.field)

/* By the numbers of S. A set of keys is set byte by byte, as it lies in memory: the driver runs where the lowest comes first. */
static const struct field {
    size_t at;
    uint16_t places;
    enum kind kind;
} fields[] = {
    [0] = {SETTING(screen.display), 1, FLAG},
    [1] = {SETTING(screen.mode), 1, BYTE},
    [2] = {SETTING(screen.overlay), 1, BYTE},
    [3] = {SETTING(shown), 1, FLAG},
    [4] = {SETTING(screen.row), 1, BYTE},
    [5] = {SETTING(screen.column), 1, BYTE},
    [6] = {AT(text), LINE, BYTE},
    [7] = {SETTING(left.len), 1, BYTE},
    [8] = {SETTING(left.codes), HANDSET_LABEL_SIZE, BYTE},
    [9] = {SETTING(right.len), 1, BYTE},
    [10] = {SETTING(right.codes), HANDSET_LABEL_SIZE, BYTE},
    [11] = {AT(picture), HANDSET_PICTURE_SIZE, BYTE},
    [12] = {SETTING(icons.s), 1, BYTE},
    [13] = {SETTING(icons.u), 1, BYTE},
    [14] = {SETTING(icons.f), 1, BYTE},
    [15] = {SETTING(icons.r), 1, BYTE},
    [16] = {SETTING(icons.p), 1, BYTE},
    [17] = {SETTING(icons.w), 1, BYTE},
    [18] = {SETTING(volume.which), 1, BYTE},
    [19] = {SETTING(volume.level), 1, BYTE},
    [20] = {SETTING(volume.mute), 1, FLAG},
    [21] = {SETTING(volume.hidden), 1, FLAG},
    [22] = {SETTING(times.time1), 1, BYTE},
    [23] = {SETTING(times.time2), 1, BYTE},
    [24] = {SETTING(buzzer), 1, BYTE},
    [25] = {SETTING(backlight.mode), 1, BYTE},
    [26] = {SETTING(backlight.duration), 1, BYTE},
    [27] = {SETTING(backlight.left), 1, BYTE},
    [28] = {SETTING(backlight.keypad), 1, FLAG},
    [29] = {AT(small.held.down), 1, FLAG},
    [30] = {AT(small.held.key), 1, BYTE},
    [31] = {AT(small.held.tick), 1, TICK},
    [32] = {AT(small.held.long_stage), 1, FLAG},
    [33] = {AT(small.state), 1, BYTE},
    [34] = {AT(small.len), 1, BYTE},
    [35] = {AT(frame), HANDSET_FRAME_SIZE, BYTE},
    [36] = {AT(text) + LINE, HANDSET_LARGE_LINE_SIZE, BYTE},
    [37] = {SETTING(contrast), 1, BYTE},
    [38] = {SETTING(hook), 1, FLAG},
    [39] = {SETTING(inverse), HANDSET_TEXT_ROWS, FLAG},
    [40] = {EDITION(sister), 1, FLAG},
    [41] = {EDITION(brightness), 1, BYTE},
    [42] = {EDITION(speaker), 1, BYTE},
    [43] = {EDITION(pwm), 1, FLAG},
    [44] = {EDITION(ptt), 1, FLAG},
    [45] = {EDITION(keys.stage), 1, BYTE},
    [46] = {EDITION(keys.key), 1, BYTE},
    [47] = {EDITION(keys.tick), 1, TICK},
    [48] = {EDITION(keys.down), 4, BYTE},
};

enum { FIELD_COUNT = sizeof fields / sizeof fields[0] };

/* The lines of the record, and the fields that stand in each. */
static const struct line {
    const char *word;
    uint8_t count;
    uint8_t fields[11];
} lines[] = {
    {"screen", 6, {0, 1, 2, 3, 4, 5}},
    {"labels", 2, {7, 9}},
    {"left", 1, {8}},
    {"right", 1, {10}},
    {"icons", 11, {12, 13, 14, 15, 16, 17, 18, 19, 20, 21, 24}},
    {"backlight", 4, {25, 26, 27, 28}},
    {"switches", 3, {37, 38, 39}},
    {"keys", 6, {29, 30, 31, 32, 22, 23}},
    {"edition", 9, {40, 41, 42, 43, 44, 45, 46, 47, 48}},
    {"frame", 2, {33, 34}},
    {"bytes", 1, {35}},
    {"text", 1, {6}},
    {"line", 1, {36}},
    {"picture", 1, {11}},
};

enum { BACKLIGHT_LINE = 5, LINE_COUNT = sizeof lines / sizeof lines[0] };

static void say_line(const struct line *line, const struct handset *h)
{
    uint8_t said[HANDSET_PICTURE_SIZE];
    size_t length = 0;
    for (size_t i = 0; i < line->count; i++) {
        const struct field *field = &fields[line->fields[i]];
        if (field->kind == TICK) {
            uint16_t tick;
            memcpy(&tick, (const uint8_t *)h + field->at, sizeof tick);
            said[length++] = (uint8_t)(tick >> 8);
            said[length++] = (uint8_t)tick;
        } else {
            memcpy(said + length, (const uint8_t *)h + field->at, field->places);
            length += field->places;
        }
    }
    say(line->word, said, length);
}

static void say_record(void)
{
    for (size_t i = 0; i < LINE_COUNT; i++) say_line(&lines[i], &record);
}

/* ---- The room ---- */

/* It stands between two guards, so that a place which is written to and was not lent is seen, whoever wrote. */
static uint8_t guarded[GUARD + MOST_ROOM + GUARD];
static uint8_t *const room = guarded + GUARD;
static uint64_t size;

static uint8_t paint_at(size_t i)
{
    return (uint8_t)((i - GUARD) * 7 + 3);
}

static void paint_room(void)
{
    for (size_t i = 0; i < sizeof guarded; i++) guarded[i] = paint_at(i);
}

static void say_lent(const char *letter, uint8_t number, uint64_t used, uint64_t written)
{
    SAY(letter, number, TWO(used), TWO(written));
    say("buffer", room, size);
    for (size_t i = 0; i < sizeof guarded; i++)
        if ((i < GUARD || i >= GUARD + size) && guarded[i] != paint_at(i)) say_alone("written beside the room");
}

/* ---- Calls that may change the record ---- */

/* What a call is to store has this value before it, or this byte all over, so that what it fails to store is seen. */
enum { UNSTORED = 0xAAAA, UNSTORED_BYTE = 0xAA };

static void power_on(void)
{
    handset_power_on(&record);
    SAY("P", 0);
    say_record();
}

static void power_on_former(void)
{
    handset_power_on_former(&record);
    SAY("O", 0);
    say_record();
}

static void power_on_sister(void)
{
    handset_sister_power_on(&record);
    SAY("Z", 0);
    say_record();
}

static void set(void)
{
    const struct field *field = &fields[bytes[0]];
    uint16_t place = number_at(bytes + 1), value = number_at(bytes + 3);
    if (place >= field->places) {
        say_alone("what");
        return;
    }
    if (field->kind == TICK)
        memcpy((uint8_t *)&record + field->at, &value, sizeof value);
    else
        ((uint8_t *)&record)[field->at + place] = (uint8_t)(field->kind == FLAG ? value != 0 : value);
    SAY("S", 0);
    say_record();
}

static void feed(void)
{
    uint64_t used = UNSTORED, written = UNSTORED;
    uint8_t number = handset_feed(&record, bytes, count, room, size, &used, &written);
    say_lent("F", number, used, written);
    say_record();
}

static void take_log(void)
{
    static uint16_t ticks[MOST_ENTRIES];
    uint64_t used = UNSTORED, written = UNSTORED, tick_count = number_at(bytes), edges_at = 2 + 2 * tick_count;
    uint8_t number;
    if (tick_count > MOST_ENTRIES || edges_at > count || count - edges_at > MOST_ENTRIES) {
        say_alone("what");
        return;
    }
    for (size_t i = 0; i < tick_count; i++) ticks[i] = number_at(bytes + 2 + 2 * i);
    number = handset_take_log(&record, ticks, tick_count, bytes + edges_at, count - edges_at, room, size, &used, &written);
    say_lent("K", number, used, written);
    say_record();
}

static void second(void)
{
    SAY("C", handset_second(&record));
    say_record();
}

static void hook(void)
{
    SAY("H", handset_hook(&record, bytes[0]));
    say_record();
}

/* ---- Questions about the record ---- */

static void in_range(void)
{
    SAY("R", handset_in_range(&record));
}

static void room_needed(void)
{
    uint64_t needed = UNSTORED;
    uint8_t number = handset_room_needed(&record, bytes, count, &needed);
    SAY("N", number, TWO(needed));
}

static void judge_in(void)
{
    struct handset_verdict judged;
    uint8_t number;
    memset(&judged, UNSTORED_BYTE, sizeof judged);
    number = handset_judge_in(&record, bytes, count, &judged);
    SAY("I", number, judged.verdict, TWO(judged.number_out));
}

static void light_second(void)
{
    struct handset copy = record;
    SAY("B", handset_light_second(&copy.small.settings.backlight));
    say_line(&lines[BACKLIGHT_LINE], &copy);
}

static void sms_seen(void)
{
    struct handset_panel seen = {UNSTORED_BYTE, UNSTORED_BYTE};
    uint8_t number = handset_sms_seen(&record, bytes[0], &seen);
    SAY("M", number, seen.panel);
}

static void volume_seen(void)
{
    struct handset_panel seen = {UNSTORED_BYTE, UNSTORED_BYTE};
    uint8_t number = handset_volume_seen(&record, &seen);
    SAY("V", number, seen.panel, seen.level);
}

static void say_bar(const struct handset_bar *bar)
{
    SAY("icon bar", bar->f, bar->p, bar->r, bar->sms, bar->volume, bar->level);
}

static void say_cells(const struct handset_row *seen, const uint8_t *cells, size_t length)
{
    SAY("row", seen->owner, seen->place, seen->inverse);
    say("cells", cells, length);
}

static void row_seen(void)
{
    struct handset_row seen;
    memset(&seen, UNSTORED_BYTE, sizeof seen);
    SAY("Q", handset_row_seen(&record, bytes[0], bytes[1], &seen));
    switch (seen.owner) {
    case HANDSET_OWNER_NOTHING: break;
    case HANDSET_OWNER_ICON_BAR: say_bar(&seen.bar); break;
    case HANDSET_OWNER_TEXT_ROW:
    case HANDSET_OWNER_SMALL_LINE: say_cells(&seen, seen.codes, HANDSET_TEXT_ROW_SIZE); break;
    case HANDSET_OWNER_BIG_LINE: say_cells(&seen, seen.codes, HANDSET_BIG_CODES); break;
    case HANDSET_OWNER_PICTURE_ROW: say_cells(&seen, seen.columns, HANDSET_DISPLAY_COLUMNS); break;
    case HANDSET_OWNER_PICTURE_WITH_ROCKER:
        say_cells(&seen, seen.columns, HANDSET_DISPLAY_COLUMNS);
        SAY("rocker", seen.w);
        break;
    case HANDSET_OWNER_SOFT_KEYS:
        SAY("soft keys", seen.w);
        SAY("labels", seen.left.len, seen.right.len);
        say("left", seen.left.codes, HANDSET_LABEL_SIZE);
        say("right", seen.right.codes, HANDSET_LABEL_SIZE);
        break;
    default: say_alone("what");
    }
}

/* A cell of something that shows codes, or columns, alone. */
static void say_cell(const struct handset_column *seen, uint8_t shown)
{
    if (seen->shown == shown)
        SAY("cell", seen->owner, seen->place, seen->value, seen->inverse);
    else
        say_alone("what");
}

/* A cell of a label is 6 columns wide; the right label begins in column 54. */
static void say_soft_key(const struct handset_column *seen, uint8_t column)
{
    switch (seen->shown) {
    case HANDSET_SHOWN_LEFT_LABEL: SAY("cell", 6, column / 6, seen->value, seen->inverse); break;
    case HANDSET_SHOWN_ROCKER: SAY("cell", 7, 0, seen->value, seen->inverse); break;
    case HANDSET_SHOWN_RIGHT_LABEL: SAY("cell", 8, (column - 54) / 6, seen->value, seen->inverse); break;
    default: say_alone("what");
    }
}

static void column_seen(void)
{
    struct handset_column seen;
    memset(&seen, UNSTORED_BYTE, sizeof seen);
    SAY("U", handset_column_seen(&record, bytes[0], bytes[1], bytes[2], &seen));
    switch (seen.owner) {
    case HANDSET_OWNER_NOTHING: break;
    case HANDSET_OWNER_ICON_BAR: say_bar(&seen.bar); break;
    case HANDSET_OWNER_TEXT_ROW:
    case HANDSET_OWNER_SMALL_LINE:
    case HANDSET_OWNER_BIG_LINE: say_cell(&seen, HANDSET_SHOWN_CODE); break;
    case HANDSET_OWNER_PICTURE_ROW: say_cell(&seen, HANDSET_SHOWN_COLUMN); break;
    case HANDSET_OWNER_SOFT_KEYS: say_soft_key(&seen, bytes[1]); break;
    default: say_alone("what");
    }
}

/* ---- Writers, and questions about a stream ---- */

static void write_command(void)
{
    uint64_t written = UNSTORED;
    uint8_t number = handset_write_command(bytes[0], number_at(bytes + 1), number_at(bytes + 3), room, size, &written);
    say_lent("W", number, 0, written);
}

static void write_sister_command(void)
{
    uint64_t written = UNSTORED;
    uint8_t number = handset_write_sister_command(bytes[0], number_at(bytes + 1), number_at(bytes + 3), room, size, &written);
    say_lent("Y", number, 0, written);
}

static void write_label(void)
{
    uint64_t written = UNSTORED;
    uint8_t number = handset_write_label(bytes[0], bytes + 1, count - 1, room, size, &written);
    say_lent("T", number, 0, written);
}

static void write_picture_row(void)
{
    uint64_t written = UNSTORED;
    uint8_t number = handset_write_picture_row(bytes[0], bytes + 1, count - 1, room, size, &written);
    say_lent("G", number, 0, written);
}

/* There are no more parts than bytes. */
static void parts(void)
{
    struct handset_part part = {UNSTORED_BYTE, number_at(bytes), 0, 0};
    say_alone("D");
    for (size_t i = 0; i <= MOST_STREAM && part.kind != HANDSET_PART_NONE; i++) {
        uint8_t kind = handset_part_at(bytes + 2, count - 2, part.end, &part);
        SAY("part", kind, TWO(part.end), TWO(part.body), TWO(part.body_end));
    }
}

static void judge(void)
{
    uint16_t number_out = UNSTORED;
    uint8_t verdict = handset_judge(bytes[0], bytes + 1, count - 1, &number_out);
    SAY("J", verdict, TWO(number_out));
}

static void check_choice(void)
{
    uint64_t offset = UNSTORED;
    uint8_t rule = handset_check_choice(bytes, count, &offset);
    SAY("E", rule, TWO(offset));
}

/* ---- Lines ---- */

static const struct call {
    char letter;
    bool lends;           /* whether its bytes begin with ROOM */
    uint16_t least, most; /* how many more there are */
    uint8_t place, limit; /* the one of them that has a limit, if there is one */
    void (*make)(void);
} calls[] = {
    {'P', false, 0, 0, 0, 255, power_on},
    {'O', false, 0, 0, 0, 255, power_on_former},
    {'Z', false, 0, 0, 0, 255, power_on_sister},
    {'S', false, 5, 5, 0, FIELD_COUNT - 1, set},
    {'R', false, 0, 0, 0, 255, in_range},
    {'F', true, 0, MOST_STREAM, 0, 255, feed},
    {'N', false, 0, MOST_STREAM, 0, 255, room_needed},
    {'D', false, 2, 2 + MOST_STREAM, 0, 255, parts},
    {'J', false, 1, 1 + MOST_STREAM, 0, 255, judge},
    {'I', false, 0, MOST_STREAM, 0, 255, judge_in},
    {'E', false, 0, MOST_STREAM, 0, 255, check_choice},
    {'K', true, 2, 2 + 3 * MOST_ENTRIES, 0, 255, take_log},
    {'C', false, 0, 0, 0, 255, second},
    {'H', false, 1, 1, 0, 255, hook},
    {'B', false, 0, 0, 0, 255, light_second},
    {'Q', false, 2, 2, 1, 1, row_seen},
    {'U', false, 3, 3, 2, 1, column_seen},
    {'M', false, 1, 1, 0, 1, sms_seen},
    {'V', false, 0, 0, 0, 255, volume_seen},
    {'W', true, 5, 5, 0, HANDSET_COMMAND_INVERSE, write_command},
    {'Y', true, 5, 5, 0, 255, write_sister_command},
    {'T', true, 1, 1 + MOST_CELLS, 0, 1, write_label},
    {'G', true, 1, 1 + MOST_CELLS, 0, 255, write_picture_row},
};

enum { CALL_COUNT = sizeof calls / sizeof calls[0] };

/* Of a line that is too long to be a call the rest is only counted. */
static char script_line[MOST_LINE];
static size_t script_length;

/* A line that an input which fails has begun is not taken. */
static bool read_line(void)
{
    int sign;
    for (script_length = 0; (sign = getchar()) != EOF && sign != '\n'; script_length++)
        if (script_length < MOST_LINE) script_line[script_length] = (char)sign;
    return sign != EOF || (script_length > 0 && !ferror(stdin));
}

static int digit(char sign)
{
    if (sign >= '0' && sign <= '9') return sign - '0';
    if (sign >= 'A' && sign <= 'F') return sign - 'A' + 10;
    if (sign >= 'a' && sign <= 'f') return sign - 'a' + 10;
    return -1;
}

static bool read_bytes(void)
{
    static uint8_t read[MOST_LINE / 2];
    bytes = read;
    count = 0;
    if (script_length > MOST_LINE || (script_length > 1 && (script_line[1] != ' ' || script_length % 2 != 0))) return false;
    for (size_t at = 2; at < script_length; at += 2) {
        int high = digit(script_line[at]), low = digit(script_line[at + 1]);
        if (high < 0 || low < 0) return false;
        read[count++] = (uint8_t)(high << 4 | low);
    }
    return true;
}

static bool read_room(void)
{
    if (count < 2 || number_at(bytes) > MOST_ROOM) return false;
    size = number_at(bytes);
    bytes += 2;
    count -= 2;
    paint_room();
    return true;
}

static bool make_call(void)
{
    for (const struct call *call = calls; call < calls + CALL_COUNT; call++) {
        if (call->letter != script_line[0]) continue;
        if (!read_bytes() || (call->lends && !read_room())) return false;
        if (count < call->least || count > call->most || bytes[call->place] > call->limit) return false;
        call->make();
        return true;
    }
    return false;
}

int main(int word_count, char **words)
{
    if (word_count > 2) return 2;
    if (handset_interface() != HANDSET_INTERFACE) {
        printf("header and archive are of two interfaces\n");
        return 2;
    }
    if (word_count == 2 && freopen(words[1], "r", stdin) == NULL) {
        perror(words[1]);
        return 1;
    }
    handset_power_on(&record);
    while (read_line())
        if (script_length > 0 && !make_call()) say_alone("what");
    if (ferror(stdin) || fflush(NULL) != 0) {
        perror("drive");
        return 1;
    }
    return 0;
}
