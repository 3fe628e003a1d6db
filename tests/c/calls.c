/*
 * Tries through include/handset.h what the archive does, so that a field or a number that stands elsewhere in header, door or crate is
 * found. All that a call can be lent is one struct, and there are two of it: `now` is lent, and in `wanted` a test says what is to become
 * of it. Then both are compared byte by byte, so that a call is also held to what it must leave alone.
 *   - Each frame or call that sets a field of a record is tried on its own, in each edition what that one has, and at the end no place of
 *     the record may be left that nothing has set.
 *   - Each field of an answer, and each number that crosses, is tried by a value of its own.
 *   - Each call that takes a record is to refuse one that is out of range, and leave it.
 * FLAGS names a table of every flag of a record, which awk made from the header. A line for each test; tests/c.sh counts them.
 */
#include "handset.h"

#include <stddef.h>
#include <stdio.h>
#include <string.h>

#define COUNT(table) (sizeof(table) / sizeof *(table))
#define FRAME(body) "\033" body "\r"
#define TOLD(answer) FRAME(answer) "\n"
#define MESSAGE(signs) TOLD("K" signs)

enum {
    ROOM = HANDSET_LONGEST_WRITTEN + 1,
    PAINT = 0x5A,
    ESC = 0x1B,
    VERSION_ANSWER = 29 /* that of the first edition: the longest answer is the sister's */
};

struct lent {
    struct handset h;
    struct handset_backlight light;
    uint8_t room[ROOM];
    struct {
        uint64_t used, written;
    } fed;
    uint64_t needed, offset;
    uint16_t number_out;
    struct handset_part part;
    struct handset_panel panel;
    struct handset_row row;
    struct handset_column column;
    struct handset_verdict judged;
    uint8_t number; /* what the call handed back */
};

#define AT(field) offsetof(struct lent, field)

static struct lent before, now, wanted;

/* which places of the record some test has set */
static bool reached[sizeof(struct handset)];

static void verdict(bool ok, const char *group, const char *test)
{
    printf("%-6s %s: %s\n", ok ? "ok" : "FAILED", group, test);
}

/* From here on it counts what changes. */
static void begin(void)
{
    memcpy(&before, &now, sizeof now);
    memcpy(&wanted, &now, sizeof now);
}

/* the places inside that belong to no field */
static bool padding(size_t at)
{
    return (at > AT(h.small.held.long_stage) && at < AT(h.small.state)) || (at > AT(h.small.len) && at < AT(h.small.edition)) ||
           (at > AT(h.small.edition.ptt) && at < AT(h.small.edition.keys)) ||
           (at >= AT(h.frame) + HANDSET_FRAME_SIZE && at < AT(h) + sizeof now.h) || (at > AT(part.kind) && at < AT(part.end)) ||
           (at > AT(judged.verdict) && at < AT(judged.number_out));
}

/* the places that nothing sets: no call changes the edition, and the highest byte of a set of keys has no key */
static bool fixed(size_t at)
{
    return at == AT(h.small.edition.sister) || at == AT(h.small.edition.keys.down) + 3;
}

static bool as_wanted(void)
{
    const uint8_t *was = (const uint8_t *)&before, *is = (const uint8_t *)&now, *to_be = (const uint8_t *)&wanted;
    bool ok = true;
    for (size_t at = 0; at < sizeof now; at++) {
        if (padding(at)) continue;
        if (ok && is[at] != to_be[at]) {
            printf("  place %d is %d and not %d\n", (int)at, is[at], to_be[at]);
            ok = false;
        }
        if (at < sizeof reached && was[at] != to_be[at]) reached[at] = true;
    }
    begin();
    return ok;
}

static void check(const char *group, const char *test)
{
    verdict(as_wanted(), group, test);
}

/* A call, and what it is to hand back. */
#define MAKE(call, with) (now.number = (call), wanted.number = (with))

/* A call that is refused leaves all as it was, but that it stores zero where it would answer: at this place of struct lent, so long. */
#define REFUSED(group, test, call, with, answer) (MAKE(call, with), cleared(answer), check(group, test))
#define ANSWER(field) AT(field), sizeof now.field
#define NO_ANSWER 0, 0

static void cleared(size_t answer, size_t size)
{
    memset((uint8_t *)&wanted + answer, 0, size);
}

/* The counts, and what the room is to begin with. */
static void counted(uint64_t used, const void *written, size_t count)
{
    wanted.fed.used = used;
    wanted.fed.written = count;
    memcpy(wanted.room, written, count);
}

/* where a call stores its counts */
#define FED &now.fed.used, &now.fed.written

/* A stream that is taken whole and not answered, if the test does not say otherwise. */
static void feed(const void *bytes, size_t count)
{
    MAKE(handset_feed(&now.h, bytes, count, now.room, ROOM, FED), HANDSET_DONE);
    counted(count, "", 0);
}

/* ESC, a frame and CR */
static void send(const char *frame)
{
    uint8_t bytes[64];
    size_t count = strlen(frame);
    bytes[0] = ESC;
    memcpy(bytes + 1, frame, count);
    bytes[count + 1] = '\r';
    feed(bytes, count + 2);
}

/* A key log of one entry, which is taken and sends nothing, if the test does not say otherwise. */
static void log_entry(uint16_t tick, uint8_t edge)
{
    MAKE(handset_take_log(&now.h, &tick, 1, &edge, 1, now.room, ROOM, FED), HANDSET_DONE);
    counted(1, "", 0);
}

/* Whose records are tried. */
static void (*power_on)(struct handset *) = handset_power_on;

static bool hers(void)
{
    return power_on == handset_sister_power_on;
}

/* A handset after power-on and this stream. All else is painted, so that whatever a call stores there is seen. */
static void prepare(const char *stream)
{
    struct handset h;
    memset(&now, PAINT, sizeof now);
    power_on(&now.h);
    feed(stream, strlen(stream));
    if (now.number != HANDSET_DONE || now.fed.used != strlen(stream)) verdict(false, "prepare", "the next test's stream");
    memcpy(&h, &now.h, sizeof h);
    memset(&now, PAINT, sizeof now);
    memcpy(&now.h, &h, sizeof h);
    begin();
}

/* ---- Fields of the record ---- */

struct place {
    bool set;
    size_t at;
    uint8_t value;
};

#define SET(field, value) {true, AT(h.small.settings.field), value}
#define SET_HERS(field, value) {true, AT(h.small.edition.field), value}
#define SET_TEXT(place, code) {true, AT(h.text) + (place), code}
#define NOTHING {false, 0, 0}
#define SET_LABEL(side, code)                                                                                                          \
    SET(side.len, 7), SET(side.codes[0], code), SET(side.codes[1], code + 1), SET(side.codes[2], code + 2),                            \
        SET(side.codes[3], code + 3), SET(side.codes[4], code + 4), SET(side.codes[5], code + 5), SET(side.codes[6], code + 6)

struct step {
    const char *first; /* what prepares */
    const char *frame;
    struct place places[8];
};

static const struct step steps[] = {
    {"", "IDD", {SET(screen.display, 0)}},
    {FRAME("IDD"), "IDE", {SET(screen.display, 1)}},
    {"", "ID1", {SET(screen.mode, HANDSET_MODE_1)}},
    {"", "ID5", {SET(screen.mode, HANDSET_MODE_5)}},
    {"", "ID6", {SET(screen.mode, HANDSET_MODE_6)}},
    {"", "ID10", {SET(screen.mode, HANDSET_MODE_LARGE)}},
    {FRAME("ID5"), "ID0", {SET(screen.mode, HANDSET_MODE_0)}},
    {"", "ID11", {SET(screen.overlay, HANDSET_OVERLAY_FIRST)}},
    {"", "ID18", {SET(screen.overlay, HANDSET_OVERLAY_LAST)}},
    {FRAME("ID13"), "ID0", {SET(screen.overlay, HANDSET_OVERLAY_NONE)}},
    {"", "[2;7H", {SET(screen.row, 2), SET(screen.column, 7)}},
    {"", "&C", {SET(shown, 1)}},
    {"", "IK1ABCDEFG", {SET_LABEL(left, 'A')}},
    {"", "IK2abcdefg", {SET_LABEL(right, 'a')}},
    {"", "IS1", {SET(icons.s, 1)}},
    {"", "IU255", {SET(icons.u, 255)}},
    {"", "IF6", {SET(icons.f, 6)}},
    {"", "IR1", {SET(icons.r, 1)}},
    {"", "IP19", {SET(icons.p, 19)}},
    {"", "IW3", {SET(icons.w, 3)}},
    {"", "IL7", {SET(volume.which, HANDSET_WHICH_PRIVATE), SET(volume.level, 7)}},
    {"", "IJ9", {SET(volume.which, HANDSET_WHICH_HANDSFREE), SET(volume.level, 9)}},
    {FRAME("IJ9"), "IL0", {SET(volume.which, HANDSET_WHICH_NONE), SET(volume.level, 0), SET(volume.hidden, 1)}},
    {"", "IM1", {SET(volume.mute, 1)}},
    {"", "IT4;50", {SET(times.time1.tenths, 4), SET(times.time2.tenths, 50)}},
    {"", "IB200", {SET(buzzer.hundredths, 200)}},
    {"", "IEE", {SET(backlight.mode, HANDSET_LIGHT_ON)}},
    {"", "IES", {SET(backlight.mode, HANDSET_LIGHT_AUTO)}},
    {FRAME("IEE"), "IE0", {SET(backlight.mode, HANDSET_LIGHT_OFF)}},
    {"", "IE77", {SET(backlight.duration.seconds, 77)}},
    {FRAME("IES"), "IEA", {SET(backlight.left.seconds, 30)}},
    {"", "IEe", {SET(backlight.keypad, 1)}},
    {"", "IA20", {SET(contrast, 20)}},
    {"", "IZ1", {SET(inverse[0], 1)}},
    {"", "IZ2", {SET(inverse[1], 1)}},
    {"", "IZ3", {SET(inverse[2], 1)}},
    {"", "IZ4", {SET(inverse[3], 1)}},
    {FRAME("ID5"), "IZ5", {SET(inverse[4], 1)}},
};

/* The sister's, whose light is in auto by PWM at power-on. */
static const struct step her_steps[] = {
    {"", "IDMD", {SET(screen.display, 0)}},
    {FRAME("IDMD"), "IDME", {SET(screen.display, 1)}},
    {"", "IDM1", {SET(screen.mode, HANDSET_MODE_1)}},
    {"", "IDM2", {SET(screen.mode, HANDSET_MODE_5)}},
    {"", "IDM3", {SET(screen.mode, HANDSET_MODE_6)}},
    {"", "IDM4", {SET(screen.mode, HANDSET_MODE_LARGE)}},
    {"", "IDM5", {SET(screen.overlay, HANDSET_OVERLAY_FIRST)}},
    {"", "IDM12", {SET(screen.overlay, HANDSET_OVERLAY_LAST)}},
    {FRAME("IDM7"), "IDM0", {SET(screen.overlay, HANDSET_OVERLAY_NONE)}},
    {"", "&H2;7", {SET(screen.row, 2), SET(screen.column, 7)}},
    {FRAME("&H2;7"), "&D", {SET(screen.row, 0), SET(screen.column, 0)}},
    {"", "&C1", {SET(shown, 1)}},
    {FRAME("&C1"), "&C0", {SET(shown, 0)}},
    {"", "IK1ABCDEFG", {SET_LABEL(left, 'A')}},
    {"", "IU2", {SET(icons.u, 255)}},
    {"", "IJ9", {SET(volume.which, HANDSET_WHICH_HANDSFREE), SET(volume.level, 9)}},
    {"", "IT0;0", {SET(times.time1.tenths, 0), SET(times.time2.tenths, 0)}},
    {"", "IE250", {SET(backlight.duration.seconds, 250)}},
    {"", "IE0", {SET(backlight.mode, HANDSET_LIGHT_OFF), SET_HERS(pwm, 0)}},
    {"", "IEE", {SET(backlight.mode, HANDSET_LIGHT_ON), SET_HERS(pwm, 0)}},
    {"", "IES", {SET_HERS(pwm, 0)}},
    {"", "IEA", {SET_HERS(pwm, 0), SET(backlight.left.seconds, 30)}},
    {"", "IEP", {SET(backlight.mode, HANDSET_LIGHT_ON)}},
    {FRAME("IE0"), "IEQ", {SET(backlight.mode, HANDSET_LIGHT_AUTO), SET_HERS(pwm, 1)}},
    {"", "IER", {SET(backlight.left.seconds, 30)}},
    {FRAME("IES"), "IEe", {SET(backlight.keypad, 1)}},
    {FRAME("IES") FRAME("IEe"), "IEs", {SET(backlight.keypad, 0)}},
    {FRAME("IES") FRAME("IEe"), "IEc", {SET(backlight.keypad, 0), SET(backlight.left.seconds, 30)}},
    {"", "IA20", {SET(contrast, 20)}},
    {"", "IA+", {SET(contrast, 11)}},
    {FRAME("IA1"), "IA-", {SET(contrast, 0)}},
    {"", "IN100", {SET_HERS(brightness, 100)}},
    {"", "IN+", {SET_HERS(brightness, 51)}},
    {"", "IN-", {SET_HERS(brightness, 49)}},
    {"", "IV7", {SET_HERS(speaker, 7)}},
    {"", "IV+", {SET_HERS(speaker, 4)}},
    {"", "IV-", {SET_HERS(speaker, 2)}},
    {FRAME("IP3") FRAME("IN7") FRAME("IE0"), "&00", {SET(icons.p, 0), SET(backlight.mode, HANDSET_LIGHT_AUTO), SET_HERS(pwm, 1)}},
    {"", "IN99", {SET_HERS(brightness, 99)}},
    {"", "IV6", {SET_HERS(speaker, 6)}},
};

static void set_places(const struct step *step)
{
    for (const struct place *place = step->places; place < step->places + COUNT(step->places) && place->set; place++)
        ((uint8_t *)&wanted)[place->at] = place->value;
}

static void try_step(const struct step *step)
{
    prepare(step->first);
    send(step->frame);
    set_places(step);
    check("field", step->frame);
}

static void try_hook(void)
{
    static const uint8_t on[] = {1, 2, 128, 255};
    for (size_t i = 0; i < COUNT(on); i++) {
        prepare("");
        MAKE(handset_hook(&now.h, 0), HANDSET_DONE);
        wanted.h.small.settings.hook = false;
        check("field", "it is lifted");
        MAKE(handset_hook(&now.h, on[i]), HANDSET_DONE);
        wanted.h.small.settings.hook = true;
        check("field", "it is hung up");
    }
}

static void try_second(void)
{
    prepare(FRAME("IEA"));
    MAKE(handset_second(&now.h), HANDSET_DONE);
    wanted.h.small.settings.backlight.left.seconds = 29;
    check("field", "a second");
}

static void try_held(void)
{
    struct handset_held *held = &wanted.h.small.held;
    prepare("");
    log_entry(0xABCD, HANDSET_PRESS + HANDSET_KEY_HASH);
    held->down = true;
    held->key = HANDSET_KEY_HASH;
    held->tick.tick = 0xABCD;
    check("field", "a press");
    log_entry(0xABCD + 120, HANDSET_POLL);
    held->tick.tick = 0xABCD + 120;
    held->long_stage = true;
    counted(1, "\xA3", 1);
    check("field", "a long key");
    log_entry(0xABCD + 121, HANDSET_RELEASE + HANDSET_KEY_HASH);
    memset(held, 0, sizeof *held);
    check("field", "its release");
}

/* An entry of the sister's log, and the message that it sends. */
static void her_entry(uint16_t tick, uint8_t edge, const char *message)
{
    log_entry(tick, edge);
    counted(1, message, strlen(message));
}

static void try_her_keys(void)
{
    struct handset_keys *keys = &wanted.h.small.edition.keys;
    prepare("");
    her_entry(0xABCD, HANDSET_PRESS + HANDSET_KEY_REC_SOS, MESSAGE("Ns"));
    keys->stage = HANDSET_STAGE_SHORT;
    keys->key = HANDSET_KEY_REC_SOS;
    keys->tick.tick = 0xABCD;
    wanted.h.small.settings.backlight.left.seconds = 30;
    check("field", "her press");
    her_entry(0xABCD + 120, HANDSET_POLL, MESSAGE("Nl"));
    keys->stage = HANDSET_STAGE_LONG;
    keys->tick.tick = 0xABCD + 120;
    check("field", "her long key");
    her_entry(0xABCD + 240, HANDSET_POLL, MESSAGE("Nr"));
    keys->tick.tick = 0xABCD + 240;
    check("field", "her key repeats");
    her_entry(0xABCD + 241, HANDSET_PRESS + HANDSET_KEY_3, MESSAGE("Fx"));
    memset(keys, 0, sizeof *keys);
    keys->stage = HANDSET_STAGE_FALSE;
    keys->down = 1u << HANDSET_KEY_REC_SOS | 1u << HANDSET_KEY_3;
    check("field", "her second key");
    her_entry(0xABCD + 242, HANDSET_PRESS + HANDSET_KEY_LEFT_SOFT, "");
    keys->down |= 1;
    check("field", "her third key");
    her_entry(0xABCD + 243, HANDSET_RELEASE + HANDSET_KEY_REC_SOS, "");
    her_entry(0xABCD + 244, HANDSET_RELEASE + HANDSET_KEY_LEFT_SOFT, "");
    keys->down = 1u << HANDSET_KEY_3;
    check("field", "two of her keys are released");
    her_entry(0xABCD + 245, HANDSET_RELEASE + HANDSET_KEY_3, "");
    memset(keys, 0, sizeof *keys);
    check("field", "her last key is released");
    her_entry(1, HANDSET_PRESS + HANDSET_KEY_PTT, MESSAGE("Ps"));
    wanted.h.small.edition.ptt = true;
    check("field", "PTT is pressed");
    her_entry(2, HANDSET_PRESS + HANDSET_KEY_HOOK, MESSAGE("Hs"));
    wanted.h.small.settings.hook = false;
    check("field", "HOOK is lifted");
    her_entry(3, HANDSET_RELEASE + HANDSET_KEY_PTT, MESSAGE("Pe"));
    wanted.h.small.edition.ptt = false;
    check("field", "PTT is released");
    her_entry(4, HANDSET_RELEASE + HANDSET_KEY_HOOK, MESSAGE("He"));
    wanted.h.small.settings.hook = true;
    check("field", "HOOK is put back");
}

/* Codes that are neither 0, blank, ESC nor CR. */
static void try_arrays(void)
{
    uint8_t codes[HANDSET_FRAME_SIZE];
    for (size_t i = 0; i < sizeof codes; i++) codes[i] = (uint8_t)('!' + i % 200);

    prepare(FRAME("ID5"));
    for (int row = 0; row < HANDSET_TEXT_ROWS; row++) {
        char position[] = "[0;0H";
        position[1] = (char)('0' + row);
        send(position);
        feed(codes + row * HANDSET_TEXT_ROW_SIZE, HANDSET_TEXT_ROW_SIZE);
    }
    memcpy(wanted.h.text, codes, HANDSET_TEXT_ROWS * HANDSET_TEXT_ROW_SIZE);
    wanted.h.small.settings.screen.row = 4;
    wanted.h.small.settings.screen.column = HANDSET_TEXT_ROW_SIZE;
    check("field", "the text rows");

    prepare(FRAME("ID10"));
    feed(codes, HANDSET_LARGE_LINE_SIZE);
    memcpy(wanted.h.text + 80, codes, HANDSET_LARGE_LINE_SIZE);
    wanted.h.small.settings.screen.column = HANDSET_LARGE_LINE_SIZE;
    check("field", "the large line");

    prepare("\033");
    feed(codes, HANDSET_FRAME_SIZE);
    memcpy(wanted.h.frame, codes, HANDSET_FRAME_SIZE);
    wanted.h.small.len = HANDSET_FRAME_SIZE;
    check("field", "the bytes of a frame");
    feed("x", 1);
    memset(wanted.h.frame, 0, HANDSET_FRAME_SIZE);
    wanted.h.small.state = HANDSET_FRAME_OVERLONG;
    wanted.h.small.len = 0;
    check("field", "an overlong frame");
    feed("\r\033", 2);
    counted(2, "?", 1);
    wanted.h.small.state = HANDSET_FRAME_OPEN;
    check("field", "an open frame");
    feed("&C\r", 3);
    wanted.h.small.settings.shown = true;
    wanted.h.small.state = HANDSET_FRAME_NONE;
    check("field", "no frame");
}

/* Through the writer, whose answer is the stream. */
static void try_picture(void)
{
    prepare("");
    for (uint8_t row = 0; row < HANDSET_DISPLAY_ROWS; row++) {
        uint8_t columns[HANDSET_DISPLAY_COLUMNS], bytes[HANDSET_LONGEST_WRITTEN];
        uint64_t count;
        for (size_t i = 0; i < sizeof columns; i++) columns[i] = (uint8_t)(1 + (i + row) % 31);
        if (handset_write_picture_row(row, columns, sizeof columns, bytes, sizeof bytes, &count) == HANDSET_DONE) feed(bytes, count);
        memcpy(wanted.h.picture + row * HANDSET_DISPLAY_COLUMNS, columns, sizeof columns);
    }
    check("field", "the picture rows");
}

static void try_fields(void)
{
    bool ok = true;
    for (size_t i = 0; i < COUNT(steps); i++) try_step(&steps[i]);
    try_hook();
    try_second();
    try_held();
    try_arrays();
    try_picture();
    power_on = handset_sister_power_on;
    for (size_t i = 0; i < COUNT(her_steps); i++) try_step(&her_steps[i]);
    try_hook();
    try_her_keys();
    try_picture();
    power_on = handset_power_on;
    for (size_t at = 0; at < sizeof reached; at++) {
        if (reached[at] != fixed(at) || padding(at)) continue;
        printf("  %s has set the place %d of struct handset\n", fixed(at) ? "something" : "nothing", (int)at);
        ok = false;
    }
    verdict(ok, "field", "every place of the record was set by something, but whose it is by nothing");
}

static void try_sizes(void)
{
    static const size_t sizes[][2] = {
        {sizeof now.h.text, HANDSET_TEXT_SIZE},
        {sizeof now.h.text, HANDSET_TEXT_ROWS * HANDSET_TEXT_ROW_SIZE + HANDSET_LARGE_LINE_SIZE},
        {sizeof now.h.picture, HANDSET_PICTURE_SIZE},
        {sizeof now.h.picture, HANDSET_DISPLAY_ROWS * HANDSET_DISPLAY_COLUMNS},
        {sizeof now.h.frame, HANDSET_FRAME_SIZE},
        {sizeof now.h.small.settings.left.codes, HANDSET_LABEL_SIZE},
        {sizeof now.h.small.settings.inverse, HANDSET_TEXT_ROWS},
        {sizeof now.row.codes, HANDSET_TEXT_ROW_SIZE},
        {sizeof now.row.columns, HANDSET_DISPLAY_COLUMNS},
        {sizeof MESSAGE("Ls") - 1, HANDSET_MESSAGE_SIZE},
    };
    bool ok = true;
    for (size_t i = 0; i < COUNT(sizes); i++) ok = ok && sizes[i][0] == sizes[i][1];
    verdict(ok, "sizes", "those of the arrays, and of a message");
}

static void try_power_on(void (*on)(struct handset *), uint8_t time2, const char *test)
{
    struct handset_settings *settings = &wanted.h.small.settings;
    struct handset_edition *edition = &wanted.h.small.edition;
    memset(&now, PAINT, sizeof now);
    begin();
    on(&now.h);
    memset(&wanted.h, 0, sizeof wanted.h);
    memset(wanted.h.text, ' ', sizeof wanted.h.text);
    settings->screen.display = true;
    settings->times.time1.tenths = 12;
    settings->times.time2.tenths = time2;
    settings->backlight.duration.seconds = 30;
    settings->contrast = 10;
    settings->hook = true;
    if (on == handset_sister_power_on) {
        settings->backlight.mode = HANDSET_LIGHT_AUTO;
        edition->sister = edition->pwm = true;
        edition->brightness = 50;
        edition->speaker = 3;
    }
    check("power-on", test);
    MAKE(handset_in_range(&now.h), true);
    check("power-on", "it is in range");
}

/* ---- How calls end, counts and room ---- */

static void try_fed(void)
{
    const uint8_t *version = (const uint8_t *)FRAME("&V");
    prepare("");
    feed("a\033Q\rb\033IH\rc", 10);
    counted(10, "?\033IHH\r", 6);
    memcpy(wanted.h.text, "abc", 3);
    wanted.h.small.settings.screen.column = 3;
    check("fed", "all bytes, two answers");

    prepare("");
    MAKE(handset_feed(&now.h, version, 4, now.room, VERSION_ANSWER - 1, FED), HANDSET_DONE);
    counted(3, "", 0);
    wanted.h.small.state = HANDSET_FRAME_OPEN;
    wanted.h.small.len = 2;
    memcpy(wanted.h.frame, "&V", 2);
    check("fed", "a byte less than the version's answer");
    MAKE(handset_feed(&now.h, version + 3, 1, now.room, VERSION_ANSWER, FED), HANDSET_DONE);
    counted(1, FRAME("&VHA209 V.01.01 11.07.2006") "\n", VERSION_ANSWER);
    wanted.h.small.state = HANDSET_FRAME_NONE;
    wanted.h.small.len = 0;
    memset(wanted.h.frame, 0, 2);
    check("fed", "the version's answer");

    prepare("");
    MAKE(handset_room_needed(&now.h, (const uint8_t *)"\033\033\033\r", 4, &now.needed), HANDSET_DONE);
    wanted.needed = 3;
    check("needed", "room for three question marks");
}

/* The sister's answers, each ended by CR LF. */
static void try_her_fed(void)
{
    static const struct {
        const char *first, *frame, *answer;
    } told[] = {
        {"", "&H?", TOLD("&H: 0;0")},
        {"", "KH?", TOLD("KH: H")},
        {"", "KP?", TOLD("KP: p")},
        {"", "IA?", TOLD("IA: 10")},
        {"", "IDM?", TOLD("IDM: 0")},
        {FRAME("IDM10"), "IDM?", TOLD("IDM: 10")},
        {"", "IE?", TOLD("IE: 2;30")},
        {FRAME("IE0"), "IE?", TOLD("IE: 4;30")},
        {"", "IN?", TOLD("IN: 50")},
        {FRAME("IN100"), "IN?", TOLD("IN: 100")},
        {"", "IT?", TOLD("IT: 12;12")},
        {"", "IV?", TOLD("IV: 3")},
    };
    static const char *const refused[] = {"Q", "IA", "[K", "IEe", "IEc", "IEs", "II5", "ID0", "&#"};
    const uint8_t *version = (const uint8_t *)FRAME("&V?");
    for (size_t i = 0; i < COUNT(told); i++) {
        prepare(told[i].first);
        send(told[i].frame);
        counted(strlen(told[i].frame) + 2, told[i].answer, strlen(told[i].answer));
        check("her answer", told[i].frame);
    }
    for (size_t i = 0; i < COUNT(refused); i++) {
        prepare("");
        send(refused[i]);
        counted(strlen(refused[i]) + 2, "?\r\n", 3);
        check("her mark", refused[i]);
    }

    prepare("");
    MAKE(handset_feed(&now.h, version, 5, now.room, HANDSET_LONGEST_ANSWER - 1, FED), HANDSET_DONE);
    counted(4, "", 0);
    wanted.h.small.state = HANDSET_FRAME_OPEN;
    wanted.h.small.len = 3;
    memcpy(wanted.h.frame, "&V?", 3);
    check("fed", "a byte less than the longest answer");
    MAKE(handset_feed(&now.h, version + 4, 1, now.room, HANDSET_LONGEST_ANSWER, FED), HANDSET_DONE);
    counted(1, TOLD("&V: HA400 V.01.00 25.09.2006"), HANDSET_LONGEST_ANSWER);
    wanted.h.small.state = HANDSET_FRAME_NONE;
    wanted.h.small.len = 0;
    memset(wanted.h.frame, 0, 3);
    check("fed", "the longest answer");

    prepare("");
    MAKE(handset_room_needed(&now.h, (const uint8_t *)"\033\033\033\r", 4, &now.needed), HANDSET_DONE);
    wanted.needed = 9;
    check("needed", "room for three of her marks");
}

static void try_her_log(void)
{
    static const uint16_t ticks[] = {1, 2, 3};
    static const uint8_t edges[] = {HANDSET_PRESS, HANDSET_RELEASE, HANDSET_KEY_PTT + 1};
    prepare(FRAME("IEE"));
    MAKE(handset_take_log(&now.h, ticks, 2, edges, 2, now.room, 2 * HANDSET_MESSAGE_SIZE, FED), HANDSET_DONE);
    counted(2, MESSAGE("Ls") MESSAGE("Le"), 2 * HANDSET_MESSAGE_SIZE);
    check("log", "her press and release");
    MAKE(handset_take_log(&now.h, ticks, 2, edges, 2, now.room, 2 * HANDSET_MESSAGE_SIZE - 1, FED), HANDSET_DONE);
    counted(1, MESSAGE("Ls"), HANDSET_MESSAGE_SIZE);
    wanted.h.small.edition.keys.stage = HANDSET_STAGE_SHORT;
    wanted.h.small.edition.keys.tick.tick = 1;
    check("log", "no room for her second message");
    REFUSED("log", "an edge that is not listed for her", handset_take_log(&now.h, ticks, 3, edges, 3, now.room, ROOM, FED),
            HANDSET_NOT_LISTED, ANSWER(fed));
}

static void try_log(void)
{
    static const uint16_t ticks[] = {1, 2, 3};
    static const uint8_t edges[] = {HANDSET_PRESS, HANDSET_RELEASE, HANDSET_KEY_ON_OFF + 1};
    prepare("");
    MAKE(handset_take_log(&now.h, ticks, 2, edges, 2, now.room, 1, FED), HANDSET_DONE);
    counted(2, "L", 1);
    check("log", "a press and a release");
    MAKE(handset_take_log(&now.h, ticks, 2, edges, 2, now.room, 0, FED), HANDSET_DONE);
    counted(1, "", 0);
    wanted.h.small.held.down = true;
    wanted.h.small.held.tick.tick = 1;
    check("log", "no room for the code");
    REFUSED("log", "unequal lengths", handset_take_log(&now.h, ticks, 1, edges, 2, now.room, ROOM, FED), HANDSET_UNEQUAL_LENGTHS,
            ANSWER(fed));
    REFUSED("log", "an edge that is not listed", handset_take_log(&now.h, ticks, 3, edges, 3, now.room, ROOM, FED), HANDSET_NOT_LISTED,
            ANSWER(fed));
}

static void try_lights(void)
{
    static const struct {
        uint8_t mode, duration, left, keypad, number, left_after;
        const char *test;
    } lights[] = {
        {HANDSET_LIGHT_AUTO, 30, 5, 1, HANDSET_DONE, 4, "a second is taken off"},
        {HANDSET_LIGHT_AUTO, 30, 0, 0, HANDSET_DONE, 0, "none is left"},
        {HANDSET_LIGHT_ON, 30, 5, 1, HANDSET_FIELD_OUT_OF_RANGE, 5, "seconds in on"},
        {HANDSET_LIGHT_AUTO, 0, 5, 1, HANDSET_FIELD_OUT_OF_RANGE, 5, "duration 0"},
        {HANDSET_LIGHT_AUTO, 30, 5, 2, HANDSET_FIELD_OUT_OF_RANGE, 5, "flag 2"},
        {HANDSET_LIGHT_AUTO, 30, 5, 3, HANDSET_FIELD_OUT_OF_RANGE, 5, "flag 3"},
        {HANDSET_LIGHT_AUTO, 30, 5, 128, HANDSET_FIELD_OUT_OF_RANGE, 5, "flag 128"},
        {HANDSET_LIGHT_AUTO, 30, 5, 255, HANDSET_FIELD_OUT_OF_RANGE, 5, "flag 255"},
    };
    for (size_t i = 0; i < COUNT(lights); i++) {
        prepare("");
        now.light.mode = lights[i].mode;
        now.light.duration.seconds = lights[i].duration;
        now.light.left.seconds = lights[i].left;
        memset(&now.light.keypad, lights[i].keypad, 1);
        begin();
        MAKE(handset_light_second(&now.light), lights[i].number);
        wanted.light.left.seconds = lights[i].left_after;
        check("light", lights[i].test);
    }
}

/* ---- Records out of range ---- */

struct spoilt {
    const char *field;
    size_t at;
    uint8_t values[4];
};

#define FLAG(field) {#field, AT(h.field), {2, 3, 128, 255}},

static const struct spoilt flags[] = {
#include FLAGS
};

static const struct spoilt fields[] = {
    {"the contrast", AT(h.small.settings.contrast), {0, 21, 128, 255}},
    {"the last code of the text", AT(h.text[103]), {0, 1, 2, 31}},
    {"the last column of the picture", AT(h.picture[671]), {32, 33, 128, 255}},
    {"the last byte of the frame", AT(h.frame[249]), {1, 2, 128, 255}},
    {"the brightness", AT(h.small.edition.brightness), {1, 50, 100, 255}},
    {"the speaker's volume", AT(h.small.edition.speaker), {1, 3, 7, 255}},
    {"the stage of the sister's keys", AT(h.small.edition.keys.stage), {1, 2, 3, 255}},
    {"the sister's key", AT(h.small.edition.keys.key), {1, 20, 128, 255}},
    {"the low byte of her tick", AT(h.small.edition.keys.tick), {1, 2, 128, 255}},
    {"the high byte of her tick", AT(h.small.edition.keys.tick) + 1, {1, 2, 128, 255}},
    {"the first byte of her keys that are down", AT(h.small.edition.keys.down), {1, 2, 128, 255}},
    {"the last byte of her keys that are down", AT(h.small.edition.keys.down) + 3, {1, 2, 128, 255}},
};

/* Of the sister's record, with no key down. */
static const struct spoilt her_fields[] = {
    {"her contrast", AT(h.small.settings.contrast), {21, 22, 128, 255}},
    {"her brightness", AT(h.small.edition.brightness), {101, 102, 128, 255}},
    {"her speaker's volume", AT(h.small.edition.speaker), {8, 9, 128, 255}},
    {"her Time1", AT(h.small.settings.times.time1), {0, 3, 51, 255}},
    {"her Time2", AT(h.small.settings.times.time2), {1, 3, 51, 255}},
    {"her duration", AT(h.small.settings.backlight.duration), {0, 251, 252, 255}},
    {"her seconds", AT(h.small.settings.backlight.left), {251, 252, 254, 255}},
    {"the held key of her record", AT(h.small.held.key), {1, 2, 18, 255}},
    {"the stage of her keys", AT(h.small.edition.keys.stage), {3, 4, 128, 255}},
    {"her key", AT(h.small.edition.keys.key), {1, 20, 128, 255}},
    {"the low byte of her tick", AT(h.small.edition.keys.tick), {1, 2, 128, 255}},
    {"the high byte of her tick", AT(h.small.edition.keys.tick) + 1, {1, 2, 128, 255}},
    {"the first byte of her set of keys", AT(h.small.edition.keys.down), {1, 2, 128, 255}},
    {"the last byte of her set of keys", AT(h.small.edition.keys.down) + 3, {1, 2, 128, 255}},
};

/* In text mode 5 and with a key held since tick 0 every flag may be 0 or 1, but for those of the edition. So a number that was taken for
 * one of these is not refused for something else. The sister's record has no such key. */
static void spoil(const struct spoilt *field, uint8_t value)
{
    prepare(hers() ? FRAME("IDM2") FRAME("IEA") : FRAME("ID5") FRAME("IEA"));
    now.h.small.held.down = !hers();
    ((uint8_t *)&now)[field->at] = value;
    begin();
}

/* Whether a flag may have this value, 0 or 1. */
static bool may_be(size_t at, uint8_t value)
{
    bool of_edition = at >= AT(h.small.edition) && at < AT(h.small.edition) + sizeof now.h.small.edition;
    bool of_held = at == AT(h.small.held.down) || at == AT(h.small.held.long_stage);
    if (hers() && at == AT(h.small.edition.sister)) return value == 1;
    return value == 0 || !(hers() ? of_held : of_edition);
}

static bool holds(bool ok, const char *call, uint8_t value)
{
    if (!ok) printf("  with %d: %s\n", value, call);
    return ok;
}

#define REFUSES(call, answer)                                                                                                          \
    (spoil(field, value), MAKE(call, HANDSET_FIELD_OUT_OF_RANGE), cleared(answer), holds(as_wanted(), #call, value))

/* Every call that takes a record, such that it would store something if the record were in range. */
static bool all_refuse(const struct spoilt *field, uint8_t value)
{
    static const uint8_t bytes[] = {'a', ESC, ESC}, frame[] = {'I', 'P', '9', '9'}, edges[] = {HANDSET_PRESS, HANDSET_RELEASE};
    static const uint16_t ticks[] = {0, 1};
    bool ok = REFUSES(!handset_in_range(&now.h), NO_ANSWER);
    ok = REFUSES(handset_feed(&now.h, bytes, 3, now.room, ROOM, FED), ANSWER(fed)) && ok;
    ok = REFUSES(handset_take_log(&now.h, ticks, 2, edges, 2, now.room, ROOM, FED), ANSWER(fed)) && ok;
    ok = REFUSES(handset_second(&now.h), NO_ANSWER) && ok;
    ok = REFUSES(handset_hook(&now.h, 0), NO_ANSWER) && ok;
    ok = REFUSES(handset_room_needed(&now.h, bytes, 3, &now.needed), ANSWER(needed)) && ok;
    ok = REFUSES(handset_judge_in(&now.h, frame, sizeof frame, &now.judged), ANSWER(judged)) && ok;
    ok = REFUSES(handset_sms_seen(&now.h, HANDSET_LIT, &now.panel), ANSWER(panel)) && ok;
    ok = REFUSES(handset_volume_seen(&now.h, &now.panel), ANSWER(panel)) && ok;
    ok = REFUSES(handset_row_seen(&now.h, 1, HANDSET_LIT, &now.row), ANSWER(row)) && ok;
    return REFUSES(handset_column_seen(&now.h, 1, 0, HANDSET_LIT, &now.column), ANSWER(column)) && ok;
}

static void try_spoilt(const struct spoilt *field)
{
    bool ok = true;
    for (size_t i = 0; i < COUNT(field->values); i++) ok = all_refuse(field, field->values[i]) && ok;
    verdict(ok, hers() ? "refused of hers" : "refused", field->field);
}

static void try_flag(const struct spoilt *flag)
{
    bool ok = true;
    for (uint8_t value = 0; value <= 1; value++) {
        spoil(flag, value);
        if (!may_be(flag->at, value))
            ok = all_refuse(flag, value) && ok;
        else
            ok = holds(handset_in_range(&now.h), "handset_in_range", value) && ok;
    }
    verdict(ok, hers() ? "taken of hers" : "taken", flag->field);
    try_spoilt(flag);
}

/* ---- What is seen ---- */

static void see_row(uint8_t row, uint8_t phase, uint8_t owner, uint8_t place)
{
    begin();
    MAKE(handset_row_seen(&now.h, row, phase, &now.row), HANDSET_DONE);
    cleared(ANSWER(row));
    wanted.row.owner = owner;
    wanted.row.place = place;
}

static const struct handset_bar bar = {6, 19, 1, HANDSET_SMS_UNREAD, HANDSET_SOUND_HANDSFREE, 7};
#define BAR FRAME("IF6") FRAME("IP19") FRAME("IR1") FRAME("IU255") FRAME("IS1") FRAME("IJ7")
#define SOFT_KEYS FRAME("IK1ABCDEFG") FRAME("IK2abcdefg") FRAME("IW2")

static void try_rows(void)
{
    uint8_t columns[HANDSET_DISPLAY_COLUMNS];
    prepare(BAR);
    see_row(0, HANDSET_LIT, HANDSET_OWNER_ICON_BAR, 0);
    wanted.row.bar = bar;
    check("row", "the icon bar");
    for (int phase = HANDSET_PAUSE; phase < 256; phase += 127) {
        see_row(0, (uint8_t)phase, HANDSET_OWNER_ICON_BAR, 0);
        wanted.row.bar = bar;
        wanted.row.bar.sms = HANDSET_SMS_READ;
        check("row", "the icon bar in the pause");
    }

    prepare(FRAME("[3;0H") "0123456789abcdef" FRAME("IZ4") SOFT_KEYS);
    see_row(4, HANDSET_LIT, HANDSET_OWNER_TEXT_ROW, 3);
    wanted.row.inverse = true;
    memcpy(wanted.row.codes, "0123456789abcdef", sizeof wanted.row.codes);
    check("row", "a text row");
    see_row(5, HANDSET_LIT, HANDSET_OWNER_SOFT_KEYS, 0);
    wanted.row.left = now.h.small.settings.left;
    wanted.row.right = now.h.small.settings.right;
    wanted.row.w = 2;
    check("row", "the soft keys");
    see_row(6, HANDSET_LIT, HANDSET_OWNER_NOTHING, 0);
    check("row", "nothing");
    REFUSED("row", "a row that is not listed", handset_row_seen(&now.h, 7, HANDSET_LIT, &now.row), HANDSET_NOT_LISTED, ANSWER(row));

    prepare(FRAME("IW2") FRAME("ID14"));
    for (size_t i = 0; i < sizeof columns; i++) columns[i] = (uint8_t)(i + 1);
    memcpy(now.h.picture + 2 * sizeof columns, columns, sizeof columns);
    memcpy(now.h.picture + 5 * sizeof columns, columns, sizeof columns);
    see_row(2, HANDSET_LIT, HANDSET_OWNER_PICTURE_ROW, 2);
    memcpy(wanted.row.columns, columns, sizeof columns);
    check("row", "a picture row");
    see_row(5, HANDSET_LIT, HANDSET_OWNER_PICTURE_WITH_ROCKER, 5);
    memset(columns + 42, 0, 12);
    memcpy(wanted.row.columns, columns, sizeof columns);
    wanted.row.w = 2;
    check("row", "a picture with the rocker");

    prepare(FRAME("ID10") "xx12345678");
    see_row(1, HANDSET_LIT, HANDSET_OWNER_SMALL_LINE, 0);
    memcpy(wanted.row.codes, "xx              ", sizeof wanted.row.codes);
    check("row", "the small codes");
    for (uint8_t half = 0; half < 2; half++) {
        see_row((uint8_t)(2 + half), HANDSET_LIT, HANDSET_OWNER_BIG_LINE, half);
        memcpy(wanted.row.codes, "12345678", HANDSET_BIG_CODES);
        check("row", "the big codes");
    }
}

static const struct {
    const char *first;
    uint8_t row, column;
    struct handset_column seen;
    const char *test;
} places[] = {
    {FRAME("[2;0H") "abc" FRAME("IZ3"), 3, 12, {HANDSET_OWNER_TEXT_ROW, 2, HANDSET_SHOWN_CODE, 'c', true, {0}}, "a code"},
    {SOFT_KEYS, 5, 6, {HANDSET_OWNER_SOFT_KEYS, 0, HANDSET_SHOWN_LEFT_LABEL, 'B', false, {0}}, "the left label"},
    {SOFT_KEYS, 5, 42, {HANDSET_OWNER_SOFT_KEYS, 0, HANDSET_SHOWN_ROCKER, 2, false, {0}}, "the rocker"},
    {SOFT_KEYS, 5, 54, {HANDSET_OWNER_SOFT_KEYS, 0, HANDSET_SHOWN_RIGHT_LABEL, 'a', false, {0}}, "the right label"},
    {SOFT_KEYS, 6, 0, {HANDSET_OWNER_NOTHING, 0, HANDSET_SHOWN_NOTHING, 0, false, {0}}, "nothing"},
    {FRAME("Gr1,00B7z") FRAME("ID11"), 1, 1, {HANDSET_OWNER_PICTURE_ROW, 1, HANDSET_SHOWN_COLUMN, 0xB7, false, {0}}, "a picture's column"},
};

static void try_columns(void)
{
    for (size_t i = 0; i < COUNT(places); i++) {
        prepare(places[i].first);
        MAKE(handset_column_seen(&now.h, places[i].row, places[i].column, HANDSET_LIT, &now.column), HANDSET_DONE);
        wanted.column = places[i].seen;
        check("column", places[i].test);
    }
    prepare(BAR);
    for (uint8_t phase = HANDSET_LIT; phase <= HANDSET_PAUSE; phase++) {
        MAKE(handset_column_seen(&now.h, 0, 95, phase, &now.column), HANDSET_DONE);
        wanted.column = (struct handset_column){HANDSET_OWNER_ICON_BAR, 0, HANDSET_SHOWN_BAR, 0, false, bar};
        if (phase == HANDSET_PAUSE) wanted.column.bar.sms = HANDSET_SMS_READ;
        check("column", "the icon bar");
    }
    REFUSED("column", "a column that is not listed", handset_column_seen(&now.h, 0, 96, HANDSET_LIT, &now.column), HANDSET_NOT_LISTED,
            ANSWER(column));
    prepare(BAR);
    REFUSED("column", "a row that is not listed", handset_column_seen(&now.h, 7, 0, HANDSET_LIT, &now.column), HANDSET_NOT_LISTED,
            ANSWER(column));
}

static void try_panel(const char *first, int phase, uint8_t panel, uint8_t level, const char *test)
{
    prepare(first);
    MAKE(phase < 0 ? handset_volume_seen(&now.h, &now.panel) : handset_sms_seen(&now.h, (uint8_t)phase, &now.panel), HANDSET_DONE);
    wanted.panel.panel = panel;
    wanted.panel.level = level;
    check("panel", test);
}

static void try_panels(void)
{
    enum { VOLUME = -1 };
    try_panel("", HANDSET_LIT, HANDSET_SMS_NOTHING, 0, "no messages");
    try_panel(BAR, HANDSET_LIT, HANDSET_SMS_UNREAD, 0, "unread");
    try_panel(BAR, HANDSET_PAUSE, HANDSET_SMS_READ, 0, "read");
    try_panel("", VOLUME, HANDSET_SOUND_NOTHING, 0, "no volume");
    try_panel(BAR, VOLUME, HANDSET_SOUND_HANDSFREE, 7, "handsfree");
    try_panel(FRAME("IL4"), VOLUME, HANDSET_SOUND_PRIVATE, 4, "private");
    try_panel(FRAME("IL4") FRAME("IM1"), VOLUME, HANDSET_SOUND_MUTE, 0, "mute");
}

/* ---- Writers ---- */

/* ESC, a frame, CR and LF */
static void wrote(const char *frame)
{
    size_t length = strlen(frame);
    wanted.number = HANDSET_DONE;
    wanted.fed.written = length + 3;
    wanted.room[0] = ESC;
    memcpy(wanted.room + 1, frame, length);
    memcpy(wanted.room + 1 + length, "\r\n", 2);
}

static const struct spelt {
    uint8_t kind;
    uint16_t a, b;
    const char *frame;
} commands[] = {
    {HANDSET_COMMAND_DISPLAY_OFF, 0, 0, "IDD"},            {HANDSET_COMMAND_DISPLAY_ON, 0, 0, "IDE"},
    {HANDSET_COMMAND_MODE, HANDSET_MODE_LARGE, 0, "ID10"}, {HANDSET_COMMAND_CURSOR_SHOWN, 0, 0, "&C"},
    {HANDSET_COMMAND_CURSOR_HIDDEN, 0, 0, "&D"},           {HANDSET_COMMAND_CLEAR, 0, 0, "&#"},
    {HANDSET_COMMAND_POSITION, 4, 15, "[4;15H"},           {HANDSET_COMMAND_LABELS_EMPTY, 0, 0, "IK0"},
    {HANDSET_COMMAND_ICON_S, 1, 0, "IS1"},                 {HANDSET_COMMAND_ICON_U, 255, 0, "IU255"},
    {HANDSET_COMMAND_ICON_F, 6, 0, "IF6"},                 {HANDSET_COMMAND_ICON_R, 1, 0, "IR1"},
    {HANDSET_COMMAND_ICON_P, 19, 0, "IP19"},               {HANDSET_COMMAND_ICON_W, 3, 0, "IW3"},
    {HANDSET_COMMAND_PRIVATE, 10, 0, "IL10"},              {HANDSET_COMMAND_HANDSFREE, 10, 0, "IJ10"},
    {HANDSET_COMMAND_HANDSFREE_OF_NOTE, 10, 0, "II10"},    {HANDSET_COMMAND_MUTE, 1, 0, "IM1"},
    {HANDSET_COMMAND_KEY_TIMES, 4, 50, "IT4;50"},          {HANDSET_COMMAND_BUZZER, 255, 0, "IB255"},
    {HANDSET_COMMAND_LIGHT, 255, 0, "IE255"},              {HANDSET_COMMAND_LIGHT_ON, 0, 0, "IEE"},
    {HANDSET_COMMAND_LIGHT_AUTO_START, 0, 0, "IEA"},       {HANDSET_COMMAND_LIGHT_AUTO, 0, 0, "IES"},
    {HANDSET_COMMAND_DEFAULT_DURATION, 0, 0, "IER"},       {HANDSET_COMMAND_KEYPAD_SET, 0, 0, "IEe"},
    {HANDSET_COMMAND_KEYPAD_CLEARED, 0, 0, "IEr"},         {HANDSET_COMMAND_CONTRAST, 20, 0, "IA20"},
    {HANDSET_COMMAND_CONTRAST_ASKED, 0, 0, "IA"},          {HANDSET_COMMAND_HOOK_ASKED, 0, 0, "IH"},
    {HANDSET_COMMAND_VERSION_ASKED, 0, 0, "&V"},           {HANDSET_COMMAND_CLEAR_LINE, 0, 0, "[K"},
    {HANDSET_COMMAND_INVERSE, 5, 0, "IZ5"},
};

static void try_commands(void)
{
    uint64_t *written = &now.fed.written;
    for (const struct spelt *c = commands; c < commands + COUNT(commands); c++) {
        prepare("");
        MAKE(handset_write_command(c->kind, c->a, c->b, now.room, strlen(c->frame) + 3, written), HANDSET_DONE);
        wrote(c->frame);
        check("command", c->frame);
    }
    verdict(COUNT(commands) == HANDSET_COMMAND_INVERSE + 1, "command", "each kind was tried");
    REFUSED("command", "no room", handset_write_command(HANDSET_COMMAND_MODE, 5, 0, now.room, 5, written), HANDSET_NO_ROOM,
            ANSWER(fed.written));
    REFUSED("command", "out of range", handset_write_command(HANDSET_COMMAND_MODE, 0x105, 0, now.room, ROOM, written),
            HANDSET_COMMAND_OUT_OF_RANGE, ANSWER(fed.written));
    REFUSED("command", "a kind that is not known", handset_write_command(HANDSET_COMMAND_INVERSE + 1, 0, 0, now.room, ROOM, written),
            HANDSET_COMMAND_OUT_OF_RANGE, ANSWER(fed.written));
}

#define KEYPAD_SET FRAME("IES") FRAME("IEe")

/* The sister's, each of which is read back: what it sets, or what it is answered. */
static const struct her_command {
    uint8_t kind;
    uint16_t a, b;
    struct step step;
    const char *answer;
} her_commands[] = {
    /* what both editions have */
    {HANDSET_COMMAND_DISPLAY_OFF, 0, 0, {"", "IDMD", {SET(screen.display, 0)}}, ""},
    {HANDSET_COMMAND_DISPLAY_ON, 0, 0, {FRAME("IDMD"), "IDME", {SET(screen.display, 1)}}, ""},
    {HANDSET_COMMAND_CLEAR, 0, 0, {"x", "&D", {SET_TEXT(0, ' '), SET(screen.column, 0)}}, ""},
    {HANDSET_COMMAND_POSITION, 4, 15, {FRAME("IDM2"), "&H4;15", {SET(screen.row, 4), SET(screen.column, 15)}}, ""},
    {HANDSET_COMMAND_LABELS_EMPTY, 0, 0, {FRAME("IK2x"), "IK0", {SET(right.len, 0), SET(right.codes[0], 0)}}, ""},
    {HANDSET_COMMAND_ICON_S, 1, 0, {"", "IS1", {SET(icons.s, 1)}}, ""},
    {HANDSET_COMMAND_ICON_F, 6, 0, {"", "IF6", {SET(icons.f, 6)}}, ""},
    {HANDSET_COMMAND_ICON_R, 1, 0, {"", "IR1", {SET(icons.r, 1)}}, ""},
    {HANDSET_COMMAND_ICON_P, 19, 0, {"", "IP19", {SET(icons.p, 19)}}, ""},
    {HANDSET_COMMAND_ICON_W, 3, 0, {"", "IW3", {SET(icons.w, 3)}}, ""},
    {HANDSET_COMMAND_PRIVATE, 10, 0, {"", "IL10", {SET(volume.which, HANDSET_WHICH_PRIVATE), SET(volume.level, 10)}}, ""},
    {HANDSET_COMMAND_HANDSFREE, 9, 0, {"", "IJ9", {SET(volume.which, HANDSET_WHICH_HANDSFREE), SET(volume.level, 9)}}, ""},
    {HANDSET_COMMAND_MUTE, 1, 0, {"", "IM1", {SET(volume.mute, 1)}}, ""},
    {HANDSET_COMMAND_BUZZER, 255, 0, {"", "IB255", {SET(buzzer.hundredths, 255)}}, ""},
    {HANDSET_COMMAND_CONTRAST, 20, 0, {"", "IA20", {SET(contrast, 20)}}, ""},
    {HANDSET_COMMAND_CLEAR_LINE, 0, 0, {"xy" FRAME("&H0;1"), "&K", {SET_TEXT(1, ' ')}}, ""},
    {HANDSET_COMMAND_INVERSE, 5, 0, {FRAME("IDM2"), "IZ5", {SET(inverse[4], 1)}}, ""},
    /* her own */
    {HANDSET_SISTER_CURSOR, 1, 0, {"", "&C1", {SET(shown, 1)}}, ""},
    {HANDSET_SISTER_RESTART, 0, 0, {FRAME("IN7") FRAME("IE0"), "&00", {SET(backlight.mode, HANDSET_LIGHT_AUTO), SET_HERS(pwm, 1)}}, ""},
    {HANDSET_SISTER_MODE, 12, 0, {"", "IDM12", {SET(screen.overlay, HANDSET_OVERLAY_LAST)}}, ""},
    {HANDSET_SISTER_LIGHT, 250, 0, {"", "IE250", {SET(backlight.duration.seconds, 250)}}, ""},
    {HANDSET_SISTER_LIGHT_ON, 0, 0, {"", "IEE", {SET(backlight.mode, HANDSET_LIGHT_ON), SET_HERS(pwm, 0)}}, ""},
    {HANDSET_SISTER_LIGHT_AUTO_START, 0, 0, {"", "IEA", {SET_HERS(pwm, 0), SET(backlight.left.seconds, 30)}}, ""},
    {HANDSET_SISTER_LIGHT_AUTO, 0, 0, {"", "IES", {SET_HERS(pwm, 0)}}, ""},
    {HANDSET_SISTER_PWM_ON, 0, 0, {"", "IEP", {SET(backlight.mode, HANDSET_LIGHT_ON)}}, ""},
    {HANDSET_SISTER_PWM_AUTO, 0, 0, {FRAME("IE0"), "IEQ", {SET(backlight.mode, HANDSET_LIGHT_AUTO), SET_HERS(pwm, 1)}}, ""},
    {HANDSET_SISTER_LIGHT_RESTART, 0, 0, {"", "IER", {SET(backlight.left.seconds, 30)}}, ""},
    {HANDSET_SISTER_KEYPAD_SET, 0, 0, {FRAME("IES"), "IEe", {SET(backlight.keypad, 1)}}, ""},
    {HANDSET_SISTER_KEYPAD_CLEARED_START, 0, 0, {KEYPAD_SET, "IEc", {SET(backlight.keypad, 0), SET(backlight.left.seconds, 30)}}, ""},
    {HANDSET_SISTER_KEYPAD_CLEARED, 0, 0, {KEYPAD_SET, "IEs", {SET(backlight.keypad, 0)}}, ""},
    {HANDSET_SISTER_ICON_U, 2, 0, {"", "IU2", {SET(icons.u, 255)}}, ""},
    {HANDSET_SISTER_BRIGHTNESS, 100, 0, {"", "IN100", {SET_HERS(brightness, 100)}}, ""},
    {HANDSET_SISTER_KEY_TIMES, 0, 0, {"", "IT0;0", {SET(times.time1.tenths, 0), SET(times.time2.tenths, 0)}}, ""},
    {HANDSET_SISTER_SPEAKER, 7, 0, {"", "IV7", {SET_HERS(speaker, 7)}}, ""},
    {HANDSET_SISTER_POSITION_ASKED, 0, 0, {"xy", "&H?", {NOTHING}}, TOLD("&H: 0;2")},
    {HANDSET_SISTER_VERSION_ASKED, 0, 0, {"", "&V?", {NOTHING}}, TOLD("&V: HA400 V.01.00 25.09.2006")},
    {HANDSET_SISTER_HOOK_ASKED, 0, 0, {"", "KH?", {NOTHING}}, TOLD("KH: H")},
    {HANDSET_SISTER_PTT_ASKED, 0, 0, {"", "KP?", {NOTHING}}, TOLD("KP: p")},
    {HANDSET_SISTER_CONTRAST_ASKED, 0, 0, {"", "IA?", {NOTHING}}, TOLD("IA: 10")},
    {HANDSET_SISTER_MODE_ASKED, 0, 0, {FRAME("IDM2"), "IDM?", {NOTHING}}, TOLD("IDM: 2")},
    {HANDSET_SISTER_LIGHT_ASKED, 0, 0, {"", "IE?", {NOTHING}}, TOLD("IE: 2;30")},
    {HANDSET_SISTER_BRIGHTNESS_ASKED, 0, 0, {"", "IN?", {NOTHING}}, TOLD("IN: 50")},
    {HANDSET_SISTER_TIMES_ASKED, 0, 0, {"", "IT?", {NOTHING}}, TOLD("IT: 12;12")},
    {HANDSET_SISTER_SPEAKER_ASKED, 0, 0, {"", "IV?", {NOTHING}}, TOLD("IV: 3")},
    {HANDSET_SISTER_CONTRAST_UP, 0, 0, {"", "IA+", {SET(contrast, 11)}}, ""},
    {HANDSET_SISTER_CONTRAST_DOWN, 0, 0, {FRAME("IA1"), "IA-", {SET(contrast, 0)}}, ""},
    {HANDSET_SISTER_BRIGHTNESS_UP, 0, 0, {"", "IN+", {SET_HERS(brightness, 51)}}, ""},
    {HANDSET_SISTER_BRIGHTNESS_DOWN, 0, 0, {"", "IN-", {SET_HERS(brightness, 49)}}, ""},
    {HANDSET_SISTER_SPEAKER_UP, 0, 0, {"", "IV+", {SET_HERS(speaker, 4)}}, ""},
    {HANDSET_SISTER_SPEAKER_DOWN, 0, 0, {"", "IV-", {SET_HERS(speaker, 2)}}, ""},
};

static void try_her_command(const struct her_command *c)
{
    uint8_t bytes[HANDSET_LONGEST_WRITTEN];
    size_t count = strlen(c->step.frame) + 3;
    prepare(c->step.first);
    MAKE(handset_write_sister_command(c->kind, c->a, c->b, now.room, count, &now.fed.written), HANDSET_DONE);
    wrote(c->step.frame);
    check("her command", c->step.frame);
    memcpy(bytes, now.room, count);
    feed(bytes, count);
    counted(count, c->answer, strlen(c->answer));
    set_places(&c->step);
    check("her command read back", c->step.frame);
}

static bool has_kind(unsigned kind)
{
    size_t i = 0;
    while (i < COUNT(her_commands) && her_commands[i].kind != kind) i++;
    return i < COUNT(her_commands);
}

static void try_her_commands(void)
{
    uint64_t *written = &now.fed.written;
    bool ok = true;
    for (size_t i = 0; i < COUNT(her_commands); i++) try_her_command(&her_commands[i]);
    for (unsigned kind = 0; kind < 256; kind++) {
        if (has_kind(kind)) continue;
        MAKE(handset_write_sister_command((uint8_t)kind, 5, 5, now.room, ROOM, written), HANDSET_COMMAND_OUT_OF_RANGE);
        cleared(ANSWER(fed.written));
        ok = as_wanted() && ok;
    }
    verdict(ok, "her command", "every other kind is out of range");
    REFUSED("her command", "no room", handset_write_sister_command(HANDSET_SISTER_MODE, 5, 0, now.room, 6, written), HANDSET_NO_ROOM,
            ANSWER(fed.written));
    REFUSED("her command", "out of range", handset_write_sister_command(HANDSET_SISTER_MODE, 0x105, 0, now.room, ROOM, written),
            HANDSET_COMMAND_OUT_OF_RANGE, ANSWER(fed.written));
}

static void try_labels(void)
{
    static const uint8_t sides[] = {HANDSET_LEFT, HANDSET_RIGHT, 2, 255}, codes[] = "Keep it";
    uint64_t *written = &now.fed.written;
    for (size_t i = 0; i < COUNT(sides); i++) {
        prepare("");
        MAKE(handset_write_label(sides[i], codes, 7, now.room, 13, written), HANDSET_DONE);
        wrote(sides[i] == HANDSET_LEFT ? "IK1Keep it" : "IK2Keep it");
        check("label", sides[i] == HANDSET_LEFT ? "left" : "right");
    }
    REFUSED("label", "no room", handset_write_label(HANDSET_LEFT, codes, 7, now.room, 12, written), HANDSET_NO_ROOM,
            ANSWER(fed.written));
    REFUSED("label", "out of range", handset_write_label(HANDSET_LEFT, codes, 8, now.room, ROOM, written), HANDSET_COMMAND_OUT_OF_RANGE,
            ANSWER(fed.written));
}

/* Columns of which no two neighbours are equal take most room: column i is i. */
static void wrote_row(char row, size_t count)
{
    char frame[HANDSET_LONGEST_WRITTEN] = "Gr0,";
    frame[2] = row;
    for (size_t i = 0; i < count; i++) {
        frame[4 + 2 * i] = "0123456789ABCDEF"[i / 16];
        frame[5 + 2 * i] = "0123456789ABCDEF"[i % 16];
    }
    frame[4 + 2 * count] = 'z';
    wrote(frame);
}

static void try_picture_rows(void)
{
    uint64_t *written = &now.fed.written;
    uint8_t columns[HANDSET_DISPLAY_COLUMNS];
    for (size_t i = 0; i < sizeof columns; i++) columns[i] = (uint8_t)i;
    prepare("");
    MAKE(handset_write_picture_row(0, columns, sizeof columns, now.room, HANDSET_LONGEST_WRITTEN, written), HANDSET_DONE);
    wrote_row('0', sizeof columns);
    verdict(wanted.fed.written == HANDSET_LONGEST_WRITTEN, "picture", "the longest frame is so long");
    check("picture", "the longest frame");
    MAKE(handset_write_picture_row(6, columns, 32, now.room, ROOM, written), HANDSET_DONE);
    wrote_row('6', 32);
    check("picture", "row 6");
    REFUSED("picture", "no room", handset_write_picture_row(0, columns, sizeof columns, now.room, HANDSET_LONGEST_WRITTEN - 1, written),
            HANDSET_NO_ROOM, ANSWER(fed.written));
    REFUSED("picture", "out of range", handset_write_picture_row(6, columns, 33, now.room, ROOM, written), HANDSET_COMMAND_OUT_OF_RANGE,
            ANSWER(fed.written));
}

/* ---- Questions about a stream ---- */

static void try_judge(uint8_t mode, const char *frame, uint8_t judged, uint16_t number_out, const char *test)
{
    prepare("");
    MAKE(handset_judge(mode, (const uint8_t *)frame, strlen(frame), &now.number_out), judged);
    wanted.number_out = number_out;
    check("verdict", test);
}

/* On the record after a stream, which stays as it is. */
static void try_judge_in(const char *first, const char *frame, uint8_t judged, uint16_t number_out, const char *test)
{
    prepare(first);
    MAKE(handset_judge_in(&now.h, (const uint8_t *)frame, strlen(frame), &now.judged), HANDSET_DONE);
    wanted.judged.verdict = judged;
    wanted.judged.number_out = number_out;
    check(hers() ? "verdict on her record" : "verdict on a record", test);
}

static void try_her_verdicts(void)
{
    try_judge_in("", "IP0001", HANDSET_VERDICT_BAD, 0, "bad");
    try_judge_in("", "[0;0H", HANDSET_VERDICT_BAD, 0, "the first edition's");
    try_judge_in("", "IN987", HANDSET_VERDICT_PASSED_OVER, 987, "passed over");
    try_judge_in("", "&H4;0", HANDSET_VERDICT_PASSED_OVER, 4, "passed over in this mode");
    try_judge_in(FRAME("IDM2"), "&H4;0", HANDSET_VERDICT_OBEYED, 0, "obeyed");
    try_judge_in("", "IEe", HANDSET_VERDICT_REFUSED, 0, "refused with PWM");
    try_judge_in(FRAME("IES"), "IEe", HANDSET_VERDICT_OBEYED, 0, "obeyed without PWM");
    try_judge_in(FRAME("IA20"), "IA+", HANDSET_VERDICT_REFUSED, 0, "refused at the highest");
    try_judge_in(FRAME("IA20") "\033IN", "IA-", HANDSET_VERDICT_OBEYED, 0, "obeyed, with a frame open");
}

static void try_choice(const char *stream, uint8_t rule, size_t offset, const char *test)
{
    prepare("");
    MAKE(handset_check_choice((const uint8_t *)stream, strlen(stream), &now.offset), rule);
    wanted.offset = offset;
    check("choice", test);
}

static void try_part(const char *stream, uint64_t place, const struct handset_part *part, const char *test)
{
    prepare("");
    MAKE(handset_part_at((const uint8_t *)stream, strlen(stream), place, &now.part), part->kind);
    wanted.part = *part;
    check("part", test);
}

static void try_questions(void)
{
    static const uint64_t far = 0x123456789ABCDEF0;
    static const struct handset_part parts[] = {
        {HANDSET_PART_TEXT, 1, 1, 1},      {HANDSET_PART_SKIPPED, 2, 2, 2}, {HANDSET_PART_CLOSED, 7, 3, 6},
        {HANDSET_PART_ABANDONED, 9, 8, 9}, {HANDSET_PART_TAIL, 12, 10, 12}, {HANDSET_PART_NONE, 12, 12, 12},
    };
    static const char *const names[] = {"text", "skipped", "closed", "abandoned", "tail", "none"};
    const struct handset_part none = {HANDSET_PART_NONE, far, far, far};

    try_judge(HANDSET_MODE_0, "IP0001", HANDSET_VERDICT_BAD, 0, "bad");
    try_judge(HANDSET_MODE_0, "IP987", HANDSET_VERDICT_PASSED_OVER, 987, "passed over");
    try_judge(HANDSET_MODE_0, "[4;0H", HANDSET_VERDICT_PASSED_OVER, 4, "passed over in this mode");
    try_judge(HANDSET_MODE_5, "[4;0H", HANDSET_VERDICT_OBEYED, 0, "obeyed");

    try_judge_in("", "IP0001", HANDSET_VERDICT_BAD, 0, "bad");
    try_judge_in("", "IN50", HANDSET_VERDICT_BAD, 0, "the sister's");
    try_judge_in("", "IP987", HANDSET_VERDICT_PASSED_OVER, 987, "passed over");
    try_judge_in("", "[4;0H", HANDSET_VERDICT_PASSED_OVER, 4, "passed over in this mode");
    try_judge_in(FRAME("ID5"), "[4;0H", HANDSET_VERDICT_OBEYED, 0, "obeyed");

    try_choice(FRAME("ID0") "\nHello", HANDSET_RULE_NONE, 0, "yes");
    try_choice("Hello", HANDSET_RULE_NO_SCREEN, 0, "no screen");
    try_choice(FRAME("ID0") FRAME("ID5") FRAME("IK1a") "x", HANDSET_RULE_LABEL_MISSING, 16, "a label is missing");
    try_choice(FRAME("ID0") "ab" FRAME("Q"), HANDSET_RULE_QUESTION_MARK, 7, "a question mark");
    try_choice(FRAME("ID0") "abc\033IK", HANDSET_RULE_FRAME_OPEN, 8, "a frame is left open");

    for (size_t i = 0; i < COUNT(parts); i++)
        try_part("a\n" FRAME("IDE") "\033I\033IK", i == 0 ? 0 : parts[i - 1].end, &parts[i], names[i]);
    try_part("a", far, &none, "far behind the end");
}

/* ---- Keys, each by its code ---- */

static const char codes[] = {
    [HANDSET_KEY_LEFT_SOFT] = 'L', [HANDSET_KEY_RIGHT_SOFT] = 'R', [HANDSET_KEY_ESC] = 'E',    [HANDSET_KEY_ENTER] = 'A',
    [HANDSET_KEY_UP] = 'U',        [HANDSET_KEY_DOWN] = 'D',       [HANDSET_KEY_1] = '1',      [HANDSET_KEY_2] = '2',
    [HANDSET_KEY_3] = '3',         [HANDSET_KEY_4] = '4',          [HANDSET_KEY_5] = '5',      [HANDSET_KEY_6] = '6',
    [HANDSET_KEY_7] = '7',         [HANDSET_KEY_8] = '8',          [HANDSET_KEY_9] = '9',      [HANDSET_KEY_0] = '0',
    [HANDSET_KEY_STAR] = '*',      [HANDSET_KEY_HASH] = '#',       [HANDSET_KEY_ON_OFF] = 'O',
};

static void try_key(uint8_t key)
{
    const char name[] = {codes[key], 0};
    prepare("");
    log_entry(7, (uint8_t)(HANDSET_PRESS + key));
    log_entry(9, (uint8_t)(HANDSET_RELEASE + key));
    counted(1, name, 1);
    check("key", name);
}

/* The sister's keys and switches, each by its sign: the messages of its press and of its release. */
static void try_her_key(uint8_t key)
{
    static const char signs[] = "LREAUD1234567890*#OMNHP";
    static const uint16_t ticks[] = {7, 9};
    const uint8_t edges[] = {(uint8_t)(HANDSET_PRESS + key), (uint8_t)(HANDSET_RELEASE + key)};
    const char name[] = {signs[key], 0};
    char messages[] = MESSAGE("?s") MESSAGE("?e");
    messages[2] = messages[HANDSET_MESSAGE_SIZE + 2] = signs[key];
    prepare(FRAME("IEE"));
    MAKE(handset_take_log(&now.h, ticks, 2, edges, 2, now.room, ROOM, FED), HANDSET_DONE);
    counted(2, messages, 2 * HANDSET_MESSAGE_SIZE);
    check("her key", name);
}

/* What is not told of the first edition alone. */
static void try_sister(void)
{
    power_on = handset_sister_power_on;
    try_her_fed();
    try_her_log();
    try_her_commands();
    try_her_verdicts();
    for (size_t i = 0; i < COUNT(flags); i++) try_flag(&flags[i]);
    for (size_t i = 0; i < COUNT(her_fields); i++) try_spoilt(&her_fields[i]);
    for (uint8_t key = 0; key <= HANDSET_KEY_PTT; key++) try_her_key(key);
    power_on = handset_power_on;
}

int main(void)
{
    verdict(handset_interface() == HANDSET_INTERFACE, "interface", "header and archive are of one");
    try_sizes();
    try_fields();
    try_power_on(handset_power_on, 0, "the record");
    try_power_on(handset_power_on_former, 12, "the former record");
    try_power_on(handset_sister_power_on, 12, "the sister's record");
    try_fed();
    try_log();
    try_lights();
    for (size_t i = 0; i < COUNT(flags); i++) try_flag(&flags[i]);
    for (size_t i = 0; i < COUNT(fields); i++) try_spoilt(&fields[i]);
    try_rows();
    try_columns();
    try_panels();
    try_commands();
    try_labels();
    try_picture_rows();
    try_questions();
    for (uint8_t key = 0; key < COUNT(codes); key++) try_key(key);
    try_sister();
    return 0;
}
