/*
 * A collector that asks the reader for a choice. It writes the screen with the writers, so that no frame is spelt by hand; holds it
 * against the shop's rules for such screens before anything goes out; and sends it. The handset is in this process too: what it
 * answers and shows is printed. The screen is made a second time with a label forgotten, and that one is not sent.
 *
 * Then it has the sister, the handset of AN1900, at the other end. Her frames are spelt otherwise, so they have a writer of their own, but
 * for labels and pictures; and some are refused by what stands in her record, so a frame is judged on that before it is sent.
 */
#include "handset.h"

#include <stddef.h>
#include <stdio.h>
#include <string.h>

enum {
    STREAM = 512,
    PIECE = 16,                /* the cord takes so many bytes at a time */
    OVERLAY_BELOW = 17,        /* text in rows 1 and 2, the picture in rows 3 and 4 */
    SISTER_MODE_5 = 2,         /* the sister's number of text mode 5 */
    SISTER_OVERLAY_BELOW = 11, /* and of that overlay */
    LINE = 0x01                /* the top dot of a column */
};

/* What is to be sent. Once something did not go in, `whole` is false. */
struct stream {
    uint8_t bytes[STREAM];
    size_t count;
    bool whole;
};

static void begin(struct stream *stream)
{
    stream->count = 0;
    stream->whole = true;
}

static uint8_t *room(struct stream *stream)
{
    return stream->bytes + stream->count;
}

static size_t room_left(const struct stream *stream)
{
    return sizeof stream->bytes - stream->count;
}

/* A writer wrote its frame whole, or ended with another number than 0 and wrote nothing. */
static void add(struct stream *stream, uint8_t number, uint64_t written)
{
    stream->count += (size_t)written;
    stream->whole = stream->whole && number == HANDSET_DONE;
}

static void command(struct stream *stream, uint8_t kind, uint16_t a, uint16_t b)
{
    uint64_t written;
    uint8_t number = handset_write_command(kind, a, b, room(stream), room_left(stream), &written);
    add(stream, number, written);
}

static void sister_command(struct stream *stream, uint8_t kind, uint16_t a, uint16_t b)
{
    uint64_t written;
    uint8_t number = handset_write_sister_command(kind, a, b, room(stream), room_left(stream), &written);
    add(stream, number, written);
}

static void label(struct stream *stream, uint8_t side, const char *codes)
{
    uint64_t written;
    uint8_t number = handset_write_label(side, (const uint8_t *)codes, strlen(codes), room(stream), room_left(stream), &written);
    add(stream, number, written);
}

static void picture_row(struct stream *stream, uint8_t row, const uint8_t *columns, size_t count)
{
    uint64_t written;
    uint8_t number = handset_write_picture_row(row, columns, count, room(stream), room_left(stream), &written);
    add(stream, number, written);
}

/* Text is no frame: its codes go out as they are. */
static void text(struct stream *stream, const char *codes)
{
    size_t count = strlen(codes);
    stream->whole = stream->whole && count <= room_left(stream);
    if (!stream->whole) return;
    memcpy(room(stream), codes, count);
    stream->count += count;
}

/* First a screen that only says which meter it is; then the one that asks, with a line below the text. */
static void write_screen(struct stream *stream, bool with_right_label)
{
    uint8_t line[HANDSET_DISPLAY_COLUMNS];
    memset(line, LINE, sizeof line);
    begin(stream);
    command(stream, HANDSET_COMMAND_MODE, HANDSET_MODE_0, 0);
    command(stream, HANDSET_COMMAND_CLEAR, 0, 0);
    text(stream, "Meter 4711");
    command(stream, HANDSET_COMMAND_MODE, HANDSET_MODE_5, 0);
    command(stream, HANDSET_COMMAND_CLEAR, 0, 0);
    label(stream, HANDSET_LEFT, "Keep");
    if (with_right_label) label(stream, HANDSET_RIGHT, "Older");
    command(stream, HANDSET_COMMAND_POSITION, 1, 0);
    text(stream, "Two readings:");
    command(stream, HANDSET_COMMAND_POSITION, 2, 1);
    text(stream, "004711");
    picture_row(stream, 3, line, sizeof line);
    command(stream, HANDSET_COMMAND_MODE, OVERLAY_BELOW, 0);
    command(stream, HANDSET_COMMAND_CONTRAST_ASKED, 0, 0);
}

/* The second of them for the sister. What both handsets have is of one kind for both writers. */
static void write_sister_screen(struct stream *stream)
{
    uint8_t line[HANDSET_DISPLAY_COLUMNS];
    memset(line, LINE, sizeof line);
    begin(stream);
    sister_command(stream, HANDSET_SISTER_MODE, SISTER_MODE_5, 0);
    sister_command(stream, HANDSET_COMMAND_CLEAR, 0, 0);
    label(stream, HANDSET_LEFT, "Keep");
    label(stream, HANDSET_RIGHT, "Older");
    sister_command(stream, HANDSET_COMMAND_POSITION, 1, 0);
    text(stream, "Two readings:");
    sister_command(stream, HANDSET_COMMAND_POSITION, 2, 1);
    text(stream, "004711");
    picture_row(stream, 3, line, sizeof line);
    sister_command(stream, HANDSET_SISTER_MODE, SISTER_OVERLAY_BELOW, 0);
    sister_command(stream, HANDSET_SISTER_CONTRAST_ASKED, 0, 0);
}

static bool keeps_the_rules(const struct stream *stream)
{
    static const char *const rules[] = {"yes", "no screen first", "a label is missing", "a question mark", "a frame is open"};
    uint64_t offset;
    uint8_t rule = handset_check_choice(stream->bytes, stream->count, &offset);
    printf("checked %d bytes: %s", (int)stream->count, rules[rule]);
    if (rule != HANDSET_RULE_NONE) printf(", rule %d at %d", rule, (int)offset);
    putchar('\n');
    return rule == HANDSET_RULE_NONE;
}

static struct handset phone;

static void show_answers(const uint8_t *bytes, size_t count)
{
    if (count == 0) return;
    printf("answered ");
    for (size_t i = 0; i < count; i++)
        if (bytes[i] < 0x20 || bytes[i] > 0x7E) printf("<%02X>", bytes[i]);
        else putchar(bytes[i]);
    putchar('\n');
}

/* How many bytes the handset used; the others are to be sent again. With room for the longest answer it uses one at least, so none means
 * that it refused the call. */
static size_t send_piece(const uint8_t *bytes, size_t count)
{
    uint8_t answers[HANDSET_LONGEST_ANSWER];
    uint64_t used, written;
    uint8_t number = handset_feed(&phone, bytes, count, answers, sizeof answers, &used, &written);
    if (number != HANDSET_DONE) printf("refused with %d\n", number);
    show_answers(answers, (size_t)written);
    return (size_t)used;
}

static void send(const struct stream *stream)
{
    size_t sent = 0;
    while (sent < stream->count) {
        size_t left = stream->count - sent;
        size_t used = send_piece(stream->bytes + sent, left < PIECE ? left : PIECE);
        if (used == 0) return;
        sent += used;
    }
    printf("sent\n");
}

static void show_row(uint8_t display_row)
{
    struct handset_row row;
    if (handset_row_seen(&phone, display_row, HANDSET_LIT, &row) != HANDSET_DONE) return;
    if (row.owner == HANDSET_OWNER_TEXT_ROW) printf("row %d text [%.16s]\n", display_row, (const char *)row.codes);
    if (row.owner == HANDSET_OWNER_PICTURE_ROW) printf("row %d picture, columns from %02X on\n", display_row, row.columns[0]);
    if (row.owner == HANDSET_OWNER_SOFT_KEYS)
        printf("row %d keys [%.7s] [%.7s]\n", display_row, (const char *)row.left.codes, (const char *)row.right.codes);
}

static void send_and_show(const struct stream *stream)
{
    send(stream);
    for (uint8_t row = 0; row < HANDSET_DISPLAY_ROWS; row++) show_row(row);
}

static void ask(bool with_right_label)
{
    struct stream stream;
    write_screen(&stream, with_right_label);
    if (stream.whole && keeps_the_rules(&stream)) send_and_show(&stream);
    else printf("not sent\n");
}

/* ---- The sister ---- */

/* A frame is what stands between ESC and CR LF. A question about it changes nothing. */
static bool would_be_obeyed(const struct stream *stream)
{
    static const char *const verdicts[] = {"bad", "passed over", "obeyed", "refused"};
    const uint8_t *frame = stream->bytes + 1;
    size_t count = stream->count - 3;
    struct handset_verdict judged;
    if (handset_judge_in(&phone, frame, count, &judged) != HANDSET_DONE) return false;
    printf("%.*s would be %s", (int)count, (const char *)frame, verdicts[judged.verdict]);
    if (judged.verdict == HANDSET_VERDICT_PASSED_OVER) printf(", for its %d", judged.number_out);
    putchar('\n');
    return judged.verdict == HANDSET_VERDICT_OBEYED;
}

static const struct {
    void (*write)(struct stream *stream, uint8_t kind, uint16_t a, uint16_t b);
    uint8_t kind;
    uint16_t a, b;
} frames[] = {
    {command, HANDSET_COMMAND_MODE, HANDSET_MODE_5, 0}, /* by the wrong writer: she has no such frame */
    {sister_command, HANDSET_COMMAND_POSITION, 4, 0},   /* the writer knows no text mode; hers has rows 0 to 3 */
    {sister_command, HANDSET_SISTER_KEYPAD_SET, 0, 0},  /* not while her light goes by PWM, as it does at power-on */
    {sister_command, HANDSET_SISTER_LIGHT_AUTO, 0, 0},  /* this takes PWM away */
    {sister_command, HANDSET_SISTER_KEYPAD_SET, 0, 0},  /* so now she takes it */
};

static void send_what_is_obeyed(void)
{
    struct stream stream;
    for (size_t i = 0; i < sizeof frames / sizeof *frames; i++) {
        begin(&stream);
        frames[i].write(&stream, frames[i].kind, frames[i].a, frames[i].b);
        if (stream.whole && would_be_obeyed(&stream)) send(&stream);
    }
}

static void ask_sister(void)
{
    struct stream stream;
    write_sister_screen(&stream);
    if (stream.whole) send_and_show(&stream);
}

int main(void)
{
    if (handset_interface() != HANDSET_INTERFACE) {
        printf("header and archive have different interfaces\n");
        return 1;
    }
    handset_power_on(&phone);
    ask(false);
    ask(true);
    printf("---- the sister\n");
    handset_sister_power_on(&phone);
    send_what_is_obeyed();
    ask_sister();
    return 0;
}
