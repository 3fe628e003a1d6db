/*
 * What is lent may lie at any place that its type allows: a record at every multiple of four, bytes at every address. A processor that
 * loads several words at once wants more than that, and then no call may take it for granted. So all calls are made on a record at a
 * multiple of four that is none of eight, and on bytes at odd places, and must do what they do at the best places. A line for each test.
 */
#include "handset.h"

#include <stddef.h>
#include <stdio.h>
#include <string.h>

#define LENGTH(text) (sizeof(text) - 1)

/* All that is lent to calls, but counts and places, which are numbers of 64 bits and lie where such numbers do. */
struct bytes {
    uint8_t stream[64];
    uint8_t room[HANDSET_LONGEST_WRITTEN];
    uint8_t edges[4];
    struct handset_row row;
    struct handset_column column;
    struct handset_panel panel;
};
struct lent {
    struct handset *phone;
    struct handset_backlight *light;
    struct bytes *bytes;
};

static struct {
    uint64_t eight;
    struct handset phone;
    uint64_t again;
    struct handset_backlight light;
    uint64_t once_more;
    struct bytes bytes;
} best;

static struct {
    uint64_t eight;
    uint32_t four;
    struct handset phone;
    uint64_t again;
    uint8_t one;
    struct handset_backlight light;
    uint64_t once_more;
    uint8_t another;
    struct bytes bytes;
} worst;

/* What came of all calls so far, in one number. */
static uint32_t told;

static void tell(uint64_t number)
{
    told = told * 31 + (uint32_t)number + 1;
}

static void tell_bytes(const void *bytes, size_t count)
{
    for (size_t i = 0; i < count; i++) tell(((const uint8_t *)bytes)[i]);
}

static void feed(const struct lent *lent, const char *stream, size_t count)
{
    uint64_t used, written;
    memcpy(lent->bytes->stream, stream, count);
    tell(handset_feed(lent->phone, lent->bytes->stream, count, lent->bytes->room, HANDSET_LONGEST_ANSWER, &used, &written));
    tell(used);
    tell_bytes(lent->bytes->room, (size_t)written);
}

static void press(const struct lent *lent)
{
    static const uint16_t ticks[] = {10, 200, 400, 410};
    static const uint8_t edges[] = {HANDSET_KEY_DOWN, HANDSET_POLL, HANDSET_POLL, HANDSET_RELEASE + HANDSET_KEY_DOWN};
    uint64_t used, written;
    memcpy(lent->bytes->edges, edges, sizeof edges);
    tell(handset_take_log(lent->phone, ticks, 4, lent->bytes->edges, 4, lent->bytes->room, 4, &used, &written));
    tell_bytes(lent->bytes->room, (size_t)written);
}

static void pass_time(const struct lent *lent)
{
    tell(handset_second(lent->phone));
    tell(handset_hook(lent->phone, 0));
    *lent->light = lent->phone->small.settings.backlight;
    tell(handset_light_second(lent->light));
    tell(lent->light->left.seconds);
}

static void look(const struct lent *lent)
{
    uint64_t needed;
    for (uint8_t row = 0; row < HANDSET_DISPLAY_ROWS; row++) {
        tell(handset_row_seen(lent->phone, row, HANDSET_LIT, &lent->bytes->row));
        tell_bytes(&lent->bytes->row, sizeof lent->bytes->row);
        tell(handset_column_seen(lent->phone, row, 50, HANDSET_LIT, &lent->bytes->column));
        tell_bytes(&lent->bytes->column, sizeof lent->bytes->column);
    }
    tell(handset_sms_seen(lent->phone, HANDSET_LIT, &lent->bytes->panel));
    tell(lent->bytes->panel.panel);
    tell(handset_volume_seen(lent->phone, &lent->bytes->panel));
    tell(lent->bytes->panel.level);
    tell(handset_room_needed(lent->phone, lent->bytes->stream, sizeof lent->bytes->stream, &needed));
    tell(needed);
    tell(handset_in_range(lent->phone));
}

static void write_frames(const struct lent *lent)
{
    uint64_t written;
    memset(lent->bytes->stream, 31, sizeof lent->bytes->stream);
    tell(handset_write_picture_row(6, lent->bytes->stream, sizeof lent->bytes->stream, lent->bytes->room, 200, &written));
    tell_bytes(lent->bytes->room, (size_t)written);
    memset(lent->bytes->stream, 'x', HANDSET_LABEL_SIZE);
    tell(handset_write_label(HANDSET_RIGHT, lent->bytes->stream, HANDSET_LABEL_SIZE, lent->bytes->room, 200, &written));
    tell_bytes(lent->bytes->room, (size_t)written);
    tell(handset_write_command(HANDSET_COMMAND_KEY_TIMES, 12, 50, lent->bytes->room, 200, &written));
    tell_bytes(lent->bytes->room, (size_t)written);
}

static void ask_of_streams(const struct lent *lent)
{
    static const char stream[] = "\033ID0\r\033ID5\r\033IK1a\r\033IP20\r";
    uint64_t offset;
    uint16_t number_out;
    struct handset_part part;
    memcpy(lent->bytes->stream, stream, LENGTH(stream));
    tell(handset_check_choice(lent->bytes->stream, LENGTH(stream), &offset));
    tell(offset);
    tell(handset_judge(HANDSET_MODE_0, lent->bytes->stream + 17, 4, &number_out));
    tell(number_out);
    tell(handset_part_at(lent->bytes->stream, LENGTH(stream), 5, &part));
    tell(part.end);
}

static const char screen[] = "\033ID0\r\033[1;2H\rMeter\033IK1Keep\r\033Gr3,yFF0011z\r\033ID17\r\033IEA\r\033IU1\r\033IL7\r";
static const char questions[] = "\033IK2Ski\033IA\r\033&V\r\033IP0001\r";

static uint32_t all_calls(const struct lent *lent)
{
    told = 0;
    handset_power_on_former(lent->phone);
    tell(lent->phone->small.settings.times.time2.tenths);
    handset_power_on(lent->phone);
    feed(lent, screen, LENGTH(screen));
    feed(lent, questions, LENGTH(questions));
    press(lent);
    pass_time(lent);
    look(lent);
    write_frames(lent);
    ask_of_streams(lent);
    tell_bytes(lent->phone->text, sizeof lent->phone->text);
    tell_bytes(lent->phone->picture, sizeof lent->phone->picture);
    tell_bytes(lent->phone->frame, sizeof lent->phone->frame);
    return told;
}

static void verdict(bool ok, const char *test)
{
    printf("%-6s %s\n", ok ? "ok" : "FAILED", test);
}

int main(void)
{
    const struct lent at_best = {&best.phone, &best.light, &best.bytes};
    const struct lent phone_moved = {&worst.phone, &best.light, &best.bytes};
    const struct lent all_moved = {&worst.phone, &worst.light, &worst.bytes};
    uint32_t wanted = all_calls(&at_best);
    verdict(wanted == all_calls(&at_best), "twice at the best places");
    verdict(wanted == all_calls(&phone_moved), "a record at a place that is no multiple of eight");
    verdict(wanted == all_calls(&all_moved), "and all else at odd places");
    return 0;
}
