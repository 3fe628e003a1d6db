/*
 * The device's loop. Bytes from the cord wait in a ring, which an interrupt fills; each step hands over what is there, and sends the
 * answers whole. Keys go in by polls, one entry a tick. Seconds and hook are looked at with each tick. What changed on the display is
 * drawn row by row.
 *
 * The number that a call ends with is always read. No number ends the loop, and none can make it turn on the spot: bytes that were refused
 * or found no room wait in the ring for the next step.
 */
#include "loop.h"

enum {
    RING = 64, /* a power of two, so that the two counts may run over */
    ROOM = 32, /* no less than HANDSET_LONGEST_ANSWER: with less, &V would stay in the ring for ever */
    TICKS_A_SECOND = 100,
    TICKS_A_PHASE = 50 /* a flashing icon is lit for half a second, and dark for as long */
};

/* All that is kept between two calls. It is the loop's alone: no interrupt touches it. */
static struct handset *phone;

/* ---- When a call is refused ---- */

/* whether the glass may show something else than the record */
static bool stale;

/* The hook as the record was told it. Asked of the record itself it might be spoilt, and then not even a bool. */
static bool on_hook;

void loop_power_on(void)
{
    handset_power_on(phone);
    on_hook = true;
    stale = true;
}

/*
 * Whether a call did its work. A record that is out of range, as a dip of the power can leave memory, is refused by every call from
 * then on: the handset would be dead. So it is powered on anew, and the collector finds a handset as after any other power-on.
 */
static bool done(uint8_t number)
{
    if (number == HANDSET_DONE) return true;
    if (number == HANDSET_FIELD_OUT_OF_RANGE) loop_power_on();
    port_complain(number);
    return false;
}

/* ---- The cord ---- */

/*
 * An interrupt only writes `came` and the loop only `taken`, so neither must wait for the other. A device with several processors
 * wants a barrier between the byte and its count.
 */
static struct {
    uint8_t bytes[RING];
    volatile uint32_t came;
    volatile uint32_t taken;
} cord;

bool loop_has_room(void)
{
    return cord.came - cord.taken < RING;
}

void loop_byte_came(uint8_t byte)
{
    if (!loop_has_room()) return;
    cord.bytes[cord.came % RING] = byte;
    cord.came++;
}

uint32_t loop_bytes_used(void)
{
    return cord.taken;
}

/* How many bytes stand behind each other from the first that waits, up to a count or to the ring's end. */
static size_t piece(uint32_t up_to)
{
    size_t waiting = up_to - cord.taken;
    size_t to_the_end = RING - cord.taken % RING;
    return waiting < to_the_end ? waiting : to_the_end;
}

/* One stream call; whether it got on. What it did not use stays in the ring and is offered again, before what comes later. */
static bool take_piece(size_t count)
{
    uint8_t answers[ROOM];
    uint64_t used, written;
    if (!done(handset_feed(phone, cord.bytes + cord.taken % RING, count, answers, sizeof answers, &used, &written))) return false;
    cord.taken += (uint32_t)used;
    stale = true;
    if (written > 0) port_send(answers, (size_t)written);
    return used > 0;
}

/* What comes meanwhile waits for the next step: else a fast line would keep keys and seconds waiting. */
static void take_cord(void)
{
    uint32_t came = cord.came;
    while (cord.taken != came && take_piece(piece(came))) {
    }
}

/* ---- Keys, seconds, hook ---- */

/* With a poll the handset is asked how long a key is held by now. An entry that is refused is lost, as a key held before it is. */
static void take_key(uint16_t tick)
{
    uint8_t edge = port_next_edge();
    uint8_t code;
    uint64_t used, written;
    if (!done(handset_take_log(phone, &tick, 1, &edge, 1, &code, 1, &used, &written))) return;
    if (written > 0) port_send_key(code);
}

static uint16_t second_began;

/* By the clock and not by a count of steps: if one took long, no second is lost. */
static void take_seconds(uint16_t tick)
{
    while ((uint16_t)(tick - second_began) >= TICKS_A_SECOND) {
        second_began = (uint16_t)(second_began + TICKS_A_SECOND);
        if (!done(handset_second(phone))) return;
    }
}

/* A handset that was powered on anew takes itself to be on-hook, so it is told again. */
static void take_hook(void)
{
    bool on = port_is_on_hook();
    if (on != on_hook && done(handset_hook(phone, on))) on_hook = on;
}

/* ---- Display and light ---- */

static bool same_codes(const uint8_t *one, const uint8_t *other, size_t count)
{
    while (count > 0 && one[count - 1] == other[count - 1]) count--;
    return count == 0;
}

static bool same_label(const struct handset_label *one, const struct handset_label *other)
{
    return one->len == other->len && same_codes(one->codes, other->codes, sizeof one->codes);
}

static bool same_bar(const struct handset_bar *one, const struct handset_bar *other)
{
    return one->f == other->f && one->p == other->p && one->r == other->r && one->sms == other->sms && one->volume == other->volume &&
           one->level == other->level;
}

static bool same_row(const struct handset_row *one, const struct handset_row *other)
{
    return one->owner == other->owner && one->place == other->place && one->inverse == other->inverse && one->w == other->w &&
           same_codes(one->codes, other->codes, sizeof one->codes) && same_codes(one->columns, other->columns, sizeof one->columns) &&
           same_bar(&one->bar, &other->bar) && same_label(&one->left, &other->left) && same_label(&one->right, &other->right);
}

/* what stands on the glass */
static struct handset_row drawn[HANDSET_DISPLAY_ROWS];

static void draw_row(uint8_t number, const struct handset_row *row)
{
    if (same_row(row, &drawn[number])) return;
    port_draw(number, row);
    drawn[number] = *row;
}

/* Each question looks at the whole record, so they are asked only when something may have changed. */
static void draw(enum handset_phase phase)
{
    struct handset_row row;
    stale = false;
    for (uint8_t number = 0; number < HANDSET_DISPLAY_ROWS; number++) {
        if (!done(handset_row_seen(phone, number, (uint8_t)phase, &row))) return;
        draw_row(number, &row);
    }
}

/* Where the lamp stands. At the start it is out. */
static uint8_t light_mode;
static uint8_t light_left;

static void follow_light(void)
{
    const struct handset_backlight *light = &phone->small.settings.backlight;
    if (light->mode == light_mode && light->left.seconds == light_left) return;
    light_mode = light->mode;
    light_left = light->left.seconds;
    port_light(light->mode, light->left);
}

/* ---- The loop ---- */

static uint16_t last_tick;
static enum handset_phase last_phase;

static void take_tick(uint16_t tick)
{
    enum handset_phase phase = tick / TICKS_A_PHASE % 2 == 0 ? HANDSET_LIT : HANDSET_PAUSE;
    take_key(tick);
    take_seconds(tick);
    take_hook();
    if (stale || phase != last_phase) draw(phase);
    last_phase = phase;
    follow_light();
}

bool loop_start(struct handset *record, uint16_t tick)
{
    if (handset_interface() != HANDSET_INTERFACE) return false;
    phone = record;
    last_tick = second_began = tick;
    loop_power_on();
    return true;
}

void loop_step(uint16_t tick)
{
    take_cord();
    if (tick == last_tick) return;
    last_tick = tick;
    take_tick(tick);
}
