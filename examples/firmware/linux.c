/*
 * The port to a terminal: a list of events stands for cord, keypad, hook and power, and standard output for the cord back, the display
 * and whoever looks after the device. Time does not pass but by steps, so that it always writes the same: the file stdout has it.
 */
#include "loop.h"

#include <stdio.h>

enum {
    STEPS = 360,       /* 3.6 seconds */
    FIRST_TICK = 65400 /* the clock runs over on the way */
};

static struct handset phone;

/* ---- What happens, and when ---- */

enum what { CORD, KEY, HOOK, POWER_DIP };

static const struct event {
    uint16_t step;
    enum what what;
    const char *bytes; /* of CORD */
    uint8_t value;     /* of KEY its edge, of HOOK 1 for on-hook */
} events[] = {
    {1, CORD, "\033ID0\r\033&#\r\033IF4\r\033[1;2H\rMeter 4711", 0},
    {2, CORD, "\033IK1Ke", 0}, /* the cord cuts a label in two */
    {3, CORD, "ep\r\n\033IK2Skip\r\n\033IEA\r", 0},
    {4, CORD, "\033&V\r\033&V\r\033IP0001\r", 0}, /* two long answers and a bad frame: more than the room of one call */
    {20, KEY, NULL, HANDSET_PRESS + HANDSET_KEY_LEFT_SOFT},
    {26, KEY, NULL, HANDSET_RELEASE + HANDSET_KEY_LEFT_SOFT},
    {30, KEY, NULL, HANDSET_PRESS + HANDSET_KEY_ON_OFF + 1}, /* a key that no handset has: a mistake in the keypad's table */
    {40, CORD, "\033IT10;5\r\033Gr3,yFFy00yFFj00z\r\033ID17\r\033IZ2\r", 0},
    {50, HOOK, NULL, 0},
    {51, CORD, "\033IH\r", 0},
    {60, KEY, NULL, HANDSET_PRESS + HANDSET_KEY_DOWN},
    {280, KEY, NULL, HANDSET_RELEASE + HANDSET_KEY_DOWN},
    {310, POWER_DIP, NULL, 0}, /* the record is spoilt: it is powered on anew, and told that it is still off-hook */
    /* more than the ring has room for: the line is held */
    {330, CORD, "\033IH\r\033ID5\r\033&#\rPlease read the \033[1;0H\rmeter 4712 once \033[2;0H\rmore.\033IK1Go\r\033IK2Later\r", 0},
};

/* What the collector has sent and the ring had no room for yet: a line that is held. */
static const char *on_the_line = "";
static uint8_t edge = HANDSET_POLL;
static bool on_hook = true;

static void happens(const struct event *event)
{
    switch (event->what) {
    case CORD: on_the_line = event->bytes; break;
    case KEY: edge = event->value; break;
    case HOOK: on_hook = event->value == 1; break;
    case POWER_DIP: phone.small.settings.contrast = 0; break;
    }
}

static void line_moves(void)
{
    while (*on_the_line && loop_has_room()) loop_byte_came((uint8_t)*on_the_line++);
}

uint8_t port_next_edge(void)
{
    uint8_t next = edge;
    edge = HANDSET_POLL;
    return next;
}

bool port_is_on_hook(void)
{
    return on_hook;
}

/* ---- The cord back, the light, complaints ---- */

void port_send(const uint8_t *bytes, size_t count)
{
    printf("answers ");
    for (size_t i = 0; i < count; i++)
        if (bytes[i] < 0x20 || bytes[i] > 0x7E) printf("<%02X>", bytes[i]);
        else putchar(bytes[i]);
    putchar('\n');
}

void port_send_key(uint8_t code)
{
    printf("key     %02X\n", code);
}

void port_light(uint8_t mode, struct handset_seconds left)
{
    if (mode == HANDSET_LIGHT_AUTO) printf("light   %d s left\n", left.seconds);
    else printf("light   %s\n", mode == HANDSET_LIGHT_ON ? "on" : "off");
}

void port_complain(uint8_t number)
{
    printf("refused %d, %s\n", number,
           number == HANDSET_FIELD_OUT_OF_RANGE ? "the record was spoilt: powered on anew" : "a mistake of the port: nothing was done");
}

/* ---- The display ---- */

static void draw_codes(const uint8_t *codes, size_t count)
{
    for (size_t i = 0; i < count; i++) putchar(codes[i] < 0x20 || codes[i] > 0x7E ? '.' : codes[i]);
}

static void draw_bar(const struct handset_bar *bar)
{
    static const char *const sms[] = {"", " SMS read", " SMS unread"};
    static const char *const sound[] = {"", " mute", " private", " handsfree"};
    printf("signal %d, missed %d%s%s%s", bar->f, bar->p, bar->r ? ", roaming" : "", sms[bar->sms], sound[bar->volume]);
    if (bar->level > 0) printf(" %d", bar->level);
}

/* Dots would be too many for a terminal: two columns become one sign. */
static void draw_columns(const uint8_t *columns)
{
    for (size_t i = 0; i < HANDSET_DISPLAY_COLUMNS; i += 2) putchar(columns[i] | columns[i + 1] ? '#' : '.');
}

static void draw_soft_keys(const struct handset_row *seen)
{
    static const char *const rocker[] = {"  ", " v", "^ ", "^v"};
    draw_codes(seen->left.codes, seen->left.len);
    printf(" (%s) ", rocker[seen->w]);
    draw_codes(seen->right.codes, seen->right.len);
}

void port_draw(uint8_t row, const struct handset_row *seen)
{
    printf("row %d   ", row);
    switch (seen->owner) {
    case HANDSET_OWNER_ICON_BAR: draw_bar(&seen->bar); break;
    case HANDSET_OWNER_TEXT_ROW: draw_codes(seen->codes, HANDSET_TEXT_ROW_SIZE); break;
    case HANDSET_OWNER_SMALL_LINE: draw_codes(seen->codes, HANDSET_TEXT_ROW_SIZE); break;
    case HANDSET_OWNER_BIG_LINE: draw_codes(seen->codes, HANDSET_BIG_CODES); break;
    case HANDSET_OWNER_PICTURE_ROW: draw_columns(seen->columns); break;
    case HANDSET_OWNER_PICTURE_WITH_ROCKER: draw_columns(seen->columns); break;
    case HANDSET_OWNER_SOFT_KEYS: draw_soft_keys(seen); break;
    default: break;
    }
    printf("%s\n", seen->inverse ? " (inverse)" : "");
}

/* ---- The device ---- */

static void take_step(uint16_t step)
{
    for (size_t i = 0; i < sizeof events / sizeof *events; i++)
        if (events[i].step == step) happens(&events[i]);
    line_moves();
    loop_step((uint16_t)(FIRST_TICK + step));
}

int main(void)
{
    if (!loop_start(&phone, FIRST_TICK)) {
        printf("header and archive have different interfaces\n");
        return 1;
    }
    for (uint16_t step = 1; step <= STEPS; step++) take_step(step);
    return 0;
}
