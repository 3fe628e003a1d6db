/*
 * The door between include/handset.h and the proved calls of crates/handset: what a program lends by address is handed on, and what
 * comes back is stored. It is the one layer of the library that is not proved, so it does nothing else but for one test, which nobody
 * behind it could make: a flag of the record that is neither 0 nor 1 is out of range, since it is no value of a flag at all.
 *
 * The proved calls take structs by value, in x86-64's way of passing them. So for another processor this file is compiled together with
 * them and not by that processor's rules (./c-build), and what crosses to a program are addresses and numbers alone.
 */
#include "handset.h"

#include <stddef.h>

/* ---- The proved calls ---- */

/* How a stream call or a key log ended. */
struct proved_fed {
    uint8_t number;
    struct handset_small small;
    uint64_t used;
    uint64_t written;
};

/* How a second or the hook call ended. */
struct proved_after {
    uint8_t number;
    struct handset_small small;
};

/* How a second on a backlight alone ended. */
struct proved_light {
    uint8_t number;
    struct handset_backlight light;
};

/* How a writer or the count of room ended. */
struct proved_count {
    uint64_t number;
    uint64_t count;
};

struct proved_verdict {
    uint8_t verdict;
    uint16_t value;
};

struct proved_judged {
    uint8_t number;
    struct handset_verdict judged;
};

struct proved_choice {
    uint64_t rule;
    uint64_t offset;
};

struct proved_panel {
    uint8_t number;
    struct handset_panel seen;
};

struct proved_row {
    uint8_t number;
    struct handset_row seen;
};

struct proved_column {
    uint8_t number;
    struct handset_column seen;
};

struct handset_small proved_power_on(uint8_t text[104], uint8_t picture[672], uint8_t frame[250]);
struct handset_small proved_power_on_former(uint8_t text[104], uint8_t picture[672], uint8_t frame[250]);
struct handset_small proved_sister_power_on(uint8_t text[104], uint8_t picture[672], uint8_t frame[250]);
bool proved_in_range(struct handset_small small, const uint8_t text[104], const uint8_t picture[672], const uint8_t frame[250]);
struct proved_fed proved_feed(struct handset_small small, uint8_t text[104], uint8_t picture[672], uint8_t frame[250],
                              const uint8_t *bytes, uint64_t bytes_len, uint8_t *answers, uint64_t answers_len);
struct proved_fed proved_take_log(struct handset_small small, const uint8_t text[104], const uint8_t picture[672],
                                  const uint8_t frame[250], const uint16_t *ticks, uint64_t ticks_len, const uint8_t *edges,
                                  uint64_t edges_len, uint8_t *codes, uint64_t codes_len);
struct proved_after proved_second(struct handset_small small, const uint8_t text[104], const uint8_t picture[672],
                                  const uint8_t frame[250]);
struct proved_light proved_light_second(struct handset_backlight light);
struct proved_after proved_hook(struct handset_small small, const uint8_t text[104], const uint8_t picture[672],
                                const uint8_t frame[250], bool on);
struct proved_count proved_room_needed(struct handset_small small, const uint8_t text[104], const uint8_t picture[672],
                                       const uint8_t frame[250], const uint8_t *bytes, uint64_t bytes_len);
struct proved_judged proved_judge_in(struct handset_small small, const uint8_t text[104], const uint8_t picture[672],
                                     const uint8_t frame[250], const uint8_t *bytes, uint64_t bytes_len);
struct proved_panel proved_sms_seen(struct handset_small small, const uint8_t text[104], const uint8_t picture[672],
                                    const uint8_t frame[250], uint8_t phase);
struct proved_panel proved_volume_seen(struct handset_small small, const uint8_t text[104], const uint8_t picture[672],
                                       const uint8_t frame[250]);
struct proved_row proved_row_seen(struct handset_small small, const uint8_t text[104], const uint8_t picture[672],
                                  const uint8_t frame[250], uint8_t row, uint8_t phase);
struct proved_column proved_column_seen(struct handset_small small, const uint8_t text[104], const uint8_t picture[672],
                                        const uint8_t frame[250], uint8_t row, uint8_t column, uint8_t phase);
struct proved_count proved_write_command(uint8_t kind, uint16_t a, uint16_t b, uint8_t *room, uint64_t room_len);
struct proved_count proved_write_sister_command(uint8_t kind, uint16_t a, uint16_t b, uint8_t *room, uint64_t room_len);
struct proved_count proved_write_label(uint8_t side, const uint8_t *codes, uint64_t codes_len, uint8_t *room, uint64_t room_len);
struct proved_count proved_write_picture_row(uint8_t row, const uint8_t *columns, uint64_t columns_len, uint8_t *room,
                                             uint64_t room_len);
struct proved_verdict proved_judge(uint8_t mode, const uint8_t *frame, uint64_t frame_len);
struct proved_choice proved_check_choice(const uint8_t *bytes, uint64_t bytes_len);
struct handset_part proved_part_at(const uint8_t *bytes, uint64_t bytes_len, uint64_t place);

/* ---- The flags of a record ---- */

/* Looked at as a byte: a bool must not be read before it is known to be one. */
static uint8_t byte_of(const bool *flag)
{
    return *(const uint8_t *)flag;
}

static bool light_has_flags(const struct handset_backlight *light)
{
    return byte_of(&light->keypad) <= 1;
}

/* All flags at once, since every call asks: a bit above the lowest stays, whichever of them has it. */
static bool has_flags(const struct handset *h)
{
    const struct handset_settings *s = &h->small.settings;
    const struct handset_held *k = &h->small.held;
    const struct handset_edition *e = &h->small.edition;
    unsigned all = byte_of(&s->screen.display) | byte_of(&s->shown) | byte_of(&s->volume.mute) | byte_of(&s->volume.hidden) |
                   byte_of(&s->backlight.keypad) | byte_of(&s->hook) | byte_of(&k->down) | byte_of(&k->long_stage) |
                   byte_of(&e->sister) | byte_of(&e->pwm) | byte_of(&e->ptt);
    for (size_t row = 0; row < HANDSET_TEXT_ROWS; row++) all |= byte_of(&s->inverse[row]);
    return all <= 1;
}

/* ---- The calls ---- */

uint32_t handset_interface(void)
{
    return HANDSET_INTERFACE;
}

void handset_power_on(struct handset *h)
{
    h->small = proved_power_on(h->text, h->picture, h->frame);
}

void handset_power_on_former(struct handset *h)
{
    h->small = proved_power_on_former(h->text, h->picture, h->frame);
}

void handset_sister_power_on(struct handset *h)
{
    h->small = proved_sister_power_on(h->text, h->picture, h->frame);
}

bool handset_in_range(const struct handset *h)
{
    return has_flags(h) && proved_in_range(h->small, h->text, h->picture, h->frame);
}

uint8_t handset_feed(struct handset *h, const uint8_t *bytes, uint64_t count, uint8_t *room, uint64_t size, uint64_t *used,
                     uint64_t *written)
{
    *used = *written = 0;
    if (!has_flags(h)) return HANDSET_FIELD_OUT_OF_RANGE;
    struct proved_fed fed = proved_feed(h->small, h->text, h->picture, h->frame, bytes, count, room, size);
    h->small = fed.small;
    *used = fed.used;
    *written = fed.written;
    return fed.number;
}

uint8_t handset_take_log(struct handset *h, const uint16_t *ticks, uint64_t tick_count, const uint8_t *edges, uint64_t edge_count,
                         uint8_t *room, uint64_t size, uint64_t *used, uint64_t *written)
{
    *used = *written = 0;
    if (!has_flags(h)) return HANDSET_FIELD_OUT_OF_RANGE;
    struct proved_fed fed =
        proved_take_log(h->small, h->text, h->picture, h->frame, ticks, tick_count, edges, edge_count, room, size);
    h->small = fed.small;
    *used = fed.used;
    *written = fed.written;
    return fed.number;
}

uint8_t handset_second(struct handset *h)
{
    if (!has_flags(h)) return HANDSET_FIELD_OUT_OF_RANGE;
    struct proved_after after = proved_second(h->small, h->text, h->picture, h->frame);
    h->small = after.small;
    return after.number;
}

uint8_t handset_light_second(struct handset_backlight *light)
{
    if (!light_has_flags(light)) return HANDSET_FIELD_OUT_OF_RANGE;
    struct proved_light after = proved_light_second(*light);
    *light = after.light;
    return after.number;
}

uint8_t handset_hook(struct handset *h, uint8_t on)
{
    if (!has_flags(h)) return HANDSET_FIELD_OUT_OF_RANGE;
    struct proved_after after = proved_hook(h->small, h->text, h->picture, h->frame, on != 0);
    h->small = after.small;
    return after.number;
}

uint8_t handset_room_needed(const struct handset *h, const uint8_t *bytes, uint64_t count, uint64_t *needed)
{
    *needed = 0;
    if (!has_flags(h)) return HANDSET_FIELD_OUT_OF_RANGE;
    struct proved_count counted = proved_room_needed(h->small, h->text, h->picture, h->frame, bytes, count);
    *needed = counted.count;
    return (uint8_t)counted.number;
}

uint8_t handset_judge_in(const struct handset *h, const uint8_t *bytes, uint64_t count, struct handset_verdict *judged)
{
    *judged = (struct handset_verdict){0};
    if (!has_flags(h)) return HANDSET_FIELD_OUT_OF_RANGE;
    struct proved_judged told = proved_judge_in(h->small, h->text, h->picture, h->frame, bytes, count);
    *judged = told.judged;
    return told.number;
}

uint8_t handset_sms_seen(const struct handset *h, uint8_t phase, struct handset_panel *seen)
{
    *seen = (struct handset_panel){0};
    if (!has_flags(h)) return HANDSET_FIELD_OUT_OF_RANGE;
    struct proved_panel panel = proved_sms_seen(h->small, h->text, h->picture, h->frame, phase);
    *seen = panel.seen;
    return panel.number;
}

uint8_t handset_volume_seen(const struct handset *h, struct handset_panel *seen)
{
    *seen = (struct handset_panel){0};
    if (!has_flags(h)) return HANDSET_FIELD_OUT_OF_RANGE;
    struct proved_panel panel = proved_volume_seen(h->small, h->text, h->picture, h->frame);
    *seen = panel.seen;
    return panel.number;
}

uint8_t handset_row_seen(const struct handset *h, uint8_t row, uint8_t phase, struct handset_row *seen)
{
    *seen = (struct handset_row){0};
    if (!has_flags(h)) return HANDSET_FIELD_OUT_OF_RANGE;
    struct proved_row shown = proved_row_seen(h->small, h->text, h->picture, h->frame, row, phase);
    *seen = shown.seen;
    return shown.number;
}

uint8_t handset_column_seen(const struct handset *h, uint8_t row, uint8_t column, uint8_t phase, struct handset_column *seen)
{
    *seen = (struct handset_column){0};
    if (!has_flags(h)) return HANDSET_FIELD_OUT_OF_RANGE;
    struct proved_column shown = proved_column_seen(h->small, h->text, h->picture, h->frame, row, column, phase);
    *seen = shown.seen;
    return shown.number;
}

uint8_t handset_write_command(uint8_t kind, uint16_t a, uint16_t b, uint8_t *room, uint64_t size, uint64_t *written)
{
    struct proved_count count = proved_write_command(kind, a, b, room, size);
    *written = count.count;
    return (uint8_t)count.number;
}

uint8_t handset_write_sister_command(uint8_t kind, uint16_t a, uint16_t b, uint8_t *room, uint64_t size, uint64_t *written)
{
    struct proved_count count = proved_write_sister_command(kind, a, b, room, size);
    *written = count.count;
    return (uint8_t)count.number;
}

uint8_t handset_write_label(uint8_t side, const uint8_t *codes, uint64_t count, uint8_t *room, uint64_t size, uint64_t *written)
{
    struct proved_count label = proved_write_label(side, codes, count, room, size);
    *written = label.count;
    return (uint8_t)label.number;
}

uint8_t handset_write_picture_row(uint8_t row, const uint8_t *columns, uint64_t count, uint8_t *room, uint64_t size, uint64_t *written)
{
    struct proved_count drawn = proved_write_picture_row(row, columns, count, room, size);
    *written = drawn.count;
    return (uint8_t)drawn.number;
}

uint8_t handset_judge(uint8_t mode, const uint8_t *frame, uint64_t count, uint16_t *number_out)
{
    struct proved_verdict judged = proved_judge(mode, frame, count);
    *number_out = judged.value;
    return judged.verdict;
}

uint8_t handset_check_choice(const uint8_t *bytes, uint64_t count, uint64_t *offset)
{
    struct proved_choice choice = proved_check_choice(bytes, count);
    *offset = choice.offset;
    return (uint8_t)choice.rule;
}

uint8_t handset_part_at(const uint8_t *bytes, uint64_t count, uint64_t place, struct handset_part *part)
{
    struct handset_part told = proved_part_at(bytes, count, place);
    part->kind = told.kind;
    part->end = told.end;
    part->body = told.body;
    part->body_end = told.body_end;
    return told.kind;
}
