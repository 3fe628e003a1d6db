/*
 * Prints how deep into the stack each call goes: "CALL BYTES". The stack below is painted, the call made, and the deepest place looked
 * for whose paint is gone. The caller's own arguments are counted too, and no less than what painting itself needs, some 300 bytes.
 * Each call is tried on inputs that take it through all of its code; there is no recursion and no array of changing size, so other
 * inputs go no deeper.
 */
#include "handset.h"

#include <stddef.h>
#include <stdio.h>
#include <string.h>

enum { PAINTED = 32768, SKIPPED = 256, PAINT = 0xA5, STREAM = 1024 };

#define APART __attribute__((noinline))
#define COUNT(table) (sizeof(table) / sizeof *(table))

static const char *const frames[] = {
    "IDD", "IDE", "&C", "[2;7H", "IK1ABCDEFG", "IK2abcdefg", "IK0", "IS1", "IU255", "IF6", "IR1", "IP19", "IW3", "IL7", "IJ9", "II3",
    "IM1", "IT4;50", "IB200", "IE77", "IEE", "IES", "IEA", "IER", "IEe", "IEr", "IA20", "IZ1", "IA", "IH", "&V", "[K", "&#", "Q", "IP20",
    "IP0001", "Gr0,yFFyFFyFFq01z", "Gr6,001122334455a01z", "ID10", "ID13", "ID14", "ID18", "ID5", "Gr7,00z", "IK1ABCDEFGH",
    /* the sister's own */
    "IDMD", "IDME", "&C1", "&H2;7", "&D", "&K", "IU2", "IT0;0", "IE250", "IEP", "IEQ", "IEc", "IEs", "IA+", "IA-", "IN100", "IN+", "IN-",
    "IV7", "IV+", "IV-", "&H?", "&V?", "KH?", "KP?", "IA?", "IDM?", "IE?", "IN?", "IT?", "IV?", "IN101", "&00", "IDM12", "IDM4"};
static const char screen[] = "\033ID0\r\033ID5\r\033IK1a\r\033IK2b\rtext\033Gr0,00z\r\033IA\r\033IK0\r\033IL5\r\033ID";
static const uint16_t ticks[] = {1, 200, 400, 500, 600, 610};
static const uint8_t edges[] = {0, HANDSET_POLL, HANDSET_POLL, HANDSET_RELEASE, 5, HANDSET_RELEASE + 5};
static const uint8_t her_edges[] = {0, HANDSET_POLL, HANDSET_POLL, 5, HANDSET_KEY_HOOK, HANDSET_KEY_PTT};

/* what is lent; nothing of it lies on the stack */
static struct handset phone;
static uint8_t stream[STREAM], room[512];
static size_t stream_count;
static const uint8_t *pressed;
static uint64_t used, written;
static uint16_t number_out;
static struct handset_panel panel;
static struct handset_row row;
static struct handset_column column;
static struct handset_verdict judged;
static struct handset_part part;
static volatile uint8_t kept;

static void add(const char *bytes, size_t count)
{
    memcpy(stream + stream_count, bytes, count);
    stream_count += count;
}

static void make_stream(void)
{
    for (size_t i = 0; i < COUNT(frames); i++) {
        add("\033", 1);
        add(frames[i], strlen(frames[i]));
        add("\rab", 3);
    }
    add("\033\033x", 3);
}

/* Each call, made by a function of its own. */
#define CALLS                                                                                                                    \
    CALL(interface, kept = (uint8_t)handset_interface())                                                                         \
    CALL(power_on, handset_power_on(&phone))                                                                                     \
    CALL(power_on_former, handset_power_on_former(&phone))                                                                       \
    CALL(sister_power_on, handset_sister_power_on(&phone))                                                                       \
    CALL(in_range, kept = handset_in_range(&phone))                                                                              \
    CALL(feed, kept = handset_feed(&phone, stream, stream_count, room, sizeof room, &used, &written))                            \
    CALL(take_log, kept = handset_take_log(&phone, ticks, 6, pressed, 6, room, sizeof room, &used, &written))                    \
    CALL(second, kept = handset_second(&phone))                                                                                  \
    CALL(light_second, kept = handset_light_second(&phone.small.settings.backlight))                                             \
    CALL(hook, kept = handset_hook(&phone, 0))                                                                                   \
    CALL(room_needed, kept = handset_room_needed(&phone, stream, stream_count, &used))                                           \
    CALL(judge_in, for (size_t i = 0; i < COUNT(frames); i++) kept =                                                             \
                       handset_judge_in(&phone, (const uint8_t *)frames[i], strlen(frames[i]), &judged))                         \
    CALL(sms_seen, kept = handset_sms_seen(&phone, HANDSET_LIT, &panel))                                                         \
    CALL(volume_seen, kept = handset_volume_seen(&phone, &panel))                                                                \
    CALL(row_seen, for (uint8_t n = 0; n < HANDSET_DISPLAY_ROWS; n++) kept = handset_row_seen(&phone, n, 0, &row))               \
    CALL(column_seen, for (uint8_t n = 0; n < HANDSET_DISPLAY_ROWS; n++) kept = handset_column_seen(&phone, n, 50, 0, &column))  \
    CALL(write_command, for (uint8_t n = 0; n <= HANDSET_COMMAND_INVERSE; n++) kept =                                            \
                            handset_write_command(n, 5, 5, room, sizeof room, &written))                                         \
    CALL(write_sister_command, for (uint8_t n = 0; n <= HANDSET_SISTER_SPEAKER_DOWN; n++) kept =                                 \
                                   handset_write_sister_command(n, 5, 5, room, sizeof room, &written))                           \
    CALL(write_label, kept = handset_write_label(HANDSET_LEFT, stream + 1, 3, room, sizeof room, &written))                      \
    CALL(write_picture_row, kept = handset_write_picture_row(0, stream, HANDSET_DISPLAY_COLUMNS, room, sizeof room, &written))   \
    CALL(judge, for (size_t i = 0; i < COUNT(frames); i++) kept =                                                                \
                    handset_judge(HANDSET_MODE_5, (const uint8_t *)frames[i], strlen(frames[i]), &number_out))                   \
    CALL(check_choice, kept = handset_check_choice((const uint8_t *)screen, sizeof screen - 1, &used);                           \
         kept = handset_check_choice(stream, stream_count, &used))                                                               \
    CALL(part_at, for (size_t i = 0; i <= stream_count; i++) kept = handset_part_at(stream, stream_count, i, &part))

#define CALL(name, made)                 \
    static APART void call_##name(void) \
    {                                    \
        made;                            \
    }
CALLS
#undef CALL

#define CALL(name, made) {"handset_" #name, call_##name},
static const struct {
    const char *name;
    void (*call)(void);
} calls[] = {CALLS};

/* where the paint begins, at its deep end, and where it ends */
static volatile uint8_t *deep_end;
static volatile uint8_t *painted_to;

/* What is used by painting and looking itself is skipped. */
static APART void paint(void)
{
    painted_to = (volatile uint8_t *)__builtin_frame_address(0) - SKIPPED;
    deep_end = painted_to - PAINTED;
    for (volatile uint8_t *at = deep_end; at < painted_to; at++) *at = PAINT;
}

static APART size_t depth_below(const volatile uint8_t *top)
{
    const volatile uint8_t *at = deep_end;
    while (at < painted_to && *at == PAINT) at++;
    return (size_t)(top - at);
}

static APART void prepare(bool sister, const char *frame)
{
    pressed = sister ? her_edges : edges;
    (sister ? handset_sister_power_on : handset_power_on)(&phone);
    kept = handset_feed(&phone, (const uint8_t *)frame, strlen(frame), room, sizeof room, &used, &written);
}

static APART size_t depth_of(void (*call)(void))
{
    paint();
    call();
    return depth_below((const volatile uint8_t *)__builtin_frame_address(0));
}

int main(void)
{
    static const struct {
        bool sister;
        const char *frame;
    } modes[] = {
        {false, "\033ID0\r"}, {false, "\033ID5\r"}, {false, "\033ID10\r"}, {false, "\033ID14\r"},
        {true, "\033IDM0\r"}, {true, "\033IDM2\r"}, {true, "\033IDM4\r"},  {true, "\033IDM8\r"},
    };
    make_stream();
    for (size_t i = 0; i < COUNT(calls); i++) {
        size_t most = 0;
        for (size_t mode = 0; mode < COUNT(modes); mode++) {
            size_t depth;
            prepare(modes[mode].sister, modes[mode].frame);
            depth = depth_of(calls[i].call);
            if (depth > most) most = depth;
        }
        printf("%s %d\n", calls[i].name, (int)most);
    }
    return 0;
}
