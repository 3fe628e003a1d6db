/*
 * Reads a stream from standard input and hands it to the stream call in pieces, with room of any size, both by chance; then prints the
 * listing of the program list_screen. Where a stream is cut and how much room there is must make no difference to it.
 * usage: feed [--sister] SEED
 */
#include "handset.h"

#include <stdio.h>
#include <stdlib.h>
#include <string.h>

enum { WAITING = 600, MOST_PIECE = 40, MOST_ROOM = 60, ESC = 0x1B };

static struct handset phone;

static uint32_t chance;

/* a number below limit, by chance */
static size_t below(size_t limit)
{
    chance = chance * 1664525u + 1013904223u;
    return (chance >> 16) % limit;
}

/* bytes that came and were not used yet */
static uint8_t waiting[WAITING];
static size_t waits;

/* An answer is a question mark, or a frame; LF behind a frame is none of its own. */
static bool in_frame;
static unsigned long replies;

static void count_answer_byte(uint8_t byte)
{
    if (!in_frame && (byte == '?' || byte == ESC)) replies++;
    if (byte == ESC) in_frame = true;
    if (byte == '\r') in_frame = false;
}

/* What is lent and not written must stay: the room is painted, and the paint looked at. */
static bool paint_is_whole(const uint8_t *room, size_t from, size_t to)
{
    for (size_t i = from; i < to; i++)
        if (room[i] != (uint8_t)(i * 7 + 3)) return false;
    return true;
}

static void paint(uint8_t *room, size_t count)
{
    for (size_t i = 0; i < count; i++) room[i] = (uint8_t)(i * 7 + 3);
}

/* One call on at most so many of the waiting bytes. False if it ended as no call should. */
static bool feed(size_t most, size_t room_size)
{
    uint8_t room[MOST_ROOM];
    uint64_t offered = waits < most ? waits : most, used, written;
    paint(room, sizeof room);
    if (handset_feed(&phone, waiting, offered, room, room_size, &used, &written) != HANDSET_DONE) return false;
    if (used > offered || written > room_size || !paint_is_whole(room, written, sizeof room)) return false;
    for (size_t i = 0; i < written; i++) count_answer_byte(room[i]);
    memmove(waiting, waiting + used, waits - used);
    waits -= used;
    return true;
}

static bool feed_by_chance(void)
{
    return feed(below(MOST_PIECE), below(MOST_ROOM + 1));
}

/* With room for the longest answer each call gets on. */
static bool feed_the_rest(void)
{
    while (waits > 0)
        if (!feed(waits, HANDSET_LONGEST_ANSWER)) return false;
    return true;
}

static bool hear(void)
{
    int byte;
    while ((byte = getchar()) != EOF) {
        waiting[waits++] = (uint8_t)byte;
        if (waits == sizeof waiting && !feed_the_rest()) return false;
        if (below(8) == 0 && !feed_by_chance()) return false;
    }
    return feed_the_rest();
}

static void say_codes(const uint8_t *codes, size_t count)
{
    putchar('[');
    for (size_t i = 0; i < count; i++) putchar(codes[i] < 0x20 || codes[i] > 0x7E ? '.' : codes[i]);
    printf("]\n");
}

static void list(void)
{
    const struct handset_settings *p = &phone.small.settings;
    printf("REPLIES %lu\n", replies);
    printf("MODE %d OVER %d DISPLAY %d\n", p->screen.mode, p->screen.overlay, p->screen.display);
    printf("CURSOR %d %d %d\n", p->shown, p->screen.row, p->screen.column);
    for (int row = 0; row < HANDSET_TEXT_ROWS; row++) {
        printf("TEXT %d ", row);
        say_codes(phone.text + row * HANDSET_TEXT_ROW_SIZE, HANDSET_TEXT_ROW_SIZE);
    }
    printf("LEFT ");
    say_codes(p->left.codes, p->left.len);
    printf("RIGHT ");
    say_codes(p->right.codes, p->right.len);
    printf("ICONS %d %d %d %d %d %d\n", p->icons.s, p->icons.u, p->icons.f, p->icons.r, p->icons.p, p->icons.w);
    printf("VOLUME %d %d %d %d\n", p->volume.which, p->volume.level, p->volume.mute, p->volume.hidden);
}

int main(int count, char **words)
{
    bool sister = count > 1 && words[1][0] == '-';
    if (count != (sister ? 3 : 2)) return 2;
    chance = (uint32_t)strtoul(words[count - 1], NULL, 10);
    if (sister) handset_sister_power_on(&phone);
    else handset_power_on(&phone);
    if (!hear()) {
        printf("a call ended as none should\n");
        return 1;
    }
    list();
    return 0;
}
