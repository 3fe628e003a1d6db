/*
 * The port to a bare processor: a Cortex-M3 on Arm's board MPS2 with the image AN385, without an operating system and without a C
 * library. mps2.ld says where it lies in memory.
 *
 *   ./c-build --target cortex-m3 examples/firmware/loop.c examples/firmware/mps2.c examples/firmware/mps2.ld -o firmware.elf
 *   qemu-system-arm -M mps2-an385 -display none -monitor none -kernel firmware.elf -serial stdio \
 *       -serial tcp:localhost:4711,server=on,wait=off
 *
 * UART0 is the cord, and carries nothing but stream, answers and key codes. UART1 is a line for service and tests (above: nc localhost
 * 4711): it takes single bytes, which `serve` lists. The board has two buttons for keys and no switch for a hook, so both can be worked
 * from there. Rows of the display are kept as they were drawn, in place of a glass with a controller of its own; a lamp of the board is
 * the backlight.
 */
#include "loop.h"

/* ---- What compilers call without being asked ---- */

/* Through volatile, or a compiler that knows these functions makes of each loop a call of the very function that it is in. */
void *memcpy(void *to, const void *from, size_t count)
{
    volatile uint8_t *put = to;
    const uint8_t *get = from;
    while (count-- > 0) *put++ = *get++;
    return to;
}

void *memmove(void *to, const void *from, size_t count)
{
    volatile uint8_t *put = to;
    const uint8_t *get = from;
    if (put <= get) return memcpy(to, from, count);
    while (count-- > 0) put[count] = get[count];
    return to;
}

void *memset(void *to, int code, size_t count)
{
    volatile uint8_t *put = to;
    while (count-- > 0) *put++ = (uint8_t)code;
    return to;
}

/* The same by the names of Arm's run-time interface, where the number behind a name says how the places are aligned. */
void __aeabi_memcpy(void *to, const void *from, size_t count) { memcpy(to, from, count); }
void __aeabi_memcpy4(void *to, const void *from, size_t count) { memcpy(to, from, count); }
void __aeabi_memcpy8(void *to, const void *from, size_t count) { memcpy(to, from, count); }
void __aeabi_memmove(void *to, const void *from, size_t count) { memmove(to, from, count); }
void __aeabi_memmove4(void *to, const void *from, size_t count) { memmove(to, from, count); }
void __aeabi_memmove8(void *to, const void *from, size_t count) { memmove(to, from, count); }
void __aeabi_memset(void *to, size_t count, int code) { memset(to, code, count); }
void __aeabi_memset4(void *to, size_t count, int code) { memset(to, code, count); }
void __aeabi_memset8(void *to, size_t count, int code) { memset(to, code, count); }
void __aeabi_memclr(void *to, size_t count) { memset(to, 0, count); }
void __aeabi_memclr4(void *to, size_t count) { memset(to, 0, count); }
void __aeabi_memclr8(void *to, size_t count) { memset(to, 0, count); }

/* ---- The board's registers ---- */

enum {
    CLOCK = 25000000, /* the processor's, in Hz */
    TICKS_A_SECOND = 100,
    BAUD = 9600,
    SEND_FULL = 1, /* of `state` */
    RECEIVED = 2,
    SEND_ENABLED = 1, /* of `control` */
    RECEIVE_ENABLED = 2,
    RECEIVE_INTERRUPT = 8,
    RECEIVE_INTERRUPT_OVER = 2, /* of `interrupts` */
    CORD_INTERRUPT = 0,         /* its number, among the board's */
    TICK_ENABLED = 7            /* it counts, interrupts, and takes the processor's clock */
};

struct uart {
    volatile uint32_t data;
    volatile uint32_t state;
    volatile uint32_t control;
    volatile uint32_t interrupts;
    volatile uint32_t divider;
};

struct tick_timer {
    volatile uint32_t control;
    volatile uint32_t reload;
    volatile uint32_t value;
};

struct panel {
    volatile uint32_t lamps;
    volatile uint32_t unused;
    volatile uint32_t buttons;
};

static struct uart *const cord = (struct uart *)0x40004000;
static struct uart *const service = (struct uart *)0x40005000;
static struct panel *const panel = (struct panel *)0x40028000;
static struct tick_timer *const tick_timer = (struct tick_timer *)0xE000E010;
static volatile uint32_t *const interrupts_on = (uint32_t *)0xE000E100;
static volatile uint32_t *const interrupts_off = (uint32_t *)0xE000E180;
static volatile uint32_t *const reset_control = (uint32_t *)0xE000ED0C;

/* It waits for as long as the line takes for the byte before, and no longer. */
static void put_byte(struct uart *line, uint8_t byte)
{
    while (line->state & SEND_FULL) {
    }
    line->data = byte;
}

static void put_words(const char *words)
{
    while (*words) put_byte(service, (uint8_t)*words++);
}

static void put_number(uint32_t number)
{
    char digits[11];
    char *first = digits + sizeof digits - 1;
    *first = 0;
    do *--first = (char)('0' + number % 10);
    while ((number /= 10) > 0);
    put_words(first);
}

static void put_named(const char *name, uint32_t number)
{
    put_words(name);
    put_number(number);
}

/* ---- Interrupts ---- */

static volatile uint16_t ticks;

static void tick_came(void)
{
    ticks++;
}

/*
 * While the ring is full the byte stays where it is, and the interrupt is off until the loop has made room: whoever sends is held up
 * by a receiver that isn't emptied. That is so of the emulator; a board needs a wire for it (RTS), or a ring for all that can come.
 */
static void cord_came(void)
{
    if (!loop_has_room()) {
        *interrupts_off = 1u << CORD_INTERRUPT;
        return;
    }
    cord->interrupts = RECEIVE_INTERRUPT_OVER;
    loop_byte_came((uint8_t)cord->data);
}

static void open_cord(void)
{
    *interrupts_on = 1u << CORD_INTERRUPT;
}

/* The processor can't go on: better a handset that starts anew than one that is dead. */
static void fault(void)
{
    put_words("fault: starting anew\n");
    *reset_control = 0x05FA0004;
    for (;;) {
    }
}

/* ---- Cord, display, light, complaints ---- */

static struct handset phone;

/* An answer is a question mark, or a frame; LF behind a frame is none of its own. */
static bool in_frame;
static uint32_t replies;

static void count_answer_byte(uint8_t byte)
{
    if (!in_frame && (byte == '?' || byte == 0x1B)) replies++;
    if (byte == 0x1B) in_frame = true;
    if (byte == '\r') in_frame = false;
}

void port_send(const uint8_t *bytes, size_t count)
{
    for (size_t i = 0; i < count; i++) {
        count_answer_byte(bytes[i]);
        put_byte(cord, bytes[i]);
    }
}

void port_send_key(uint8_t code)
{
    put_byte(cord, code);
}

static struct handset_row glass[HANDSET_DISPLAY_ROWS];

void port_draw(uint8_t row, const struct handset_row *seen)
{
    glass[row] = *seen;
}

void port_light(uint8_t mode, struct handset_seconds left)
{
    panel->lamps = mode == HANDSET_LIGHT_ON || left.seconds > 0;
}

void port_complain(uint8_t number)
{
    put_named("refused ", number);
    put_words(number == HANDSET_FIELD_OUT_OF_RANGE ? ", powered on anew\n" : ", nothing was done\n");
}

/* ---- Keys and hook ---- */

static uint32_t buttons_before;
static uint8_t edge_from_service = HANDSET_POLL;
static bool on_hook = true;

/* The two buttons are the soft keys: bit 0 the left one. Who presses both within one tick is heard at the next. */
static uint8_t button_edge(void)
{
    uint32_t changed = panel->buttons ^ buttons_before;
    for (uint8_t key = HANDSET_KEY_LEFT_SOFT; key <= HANDSET_KEY_RIGHT_SOFT; key++) {
        if (!(changed >> key & 1)) continue;
        buttons_before ^= 1u << key;
        return buttons_before >> key & 1 ? HANDSET_PRESS + key : HANDSET_RELEASE + key;
    }
    return HANDSET_POLL;
}

uint8_t port_next_edge(void)
{
    uint8_t edge = edge_from_service;
    edge_from_service = HANDSET_POLL;
    return edge == HANDSET_POLL ? button_edge() : edge;
}

bool port_is_on_hook(void)
{
    return on_hook;
}

/* ---- The service line ---- */

static void list_codes(const uint8_t *codes, size_t count)
{
    put_words("[");
    for (size_t i = 0; i < count; i++) put_byte(service, codes[i] < 0x20 || codes[i] > 0x7E ? '.' : codes[i]);
    put_words("]\n");
}

static void list_text(void)
{
    for (uint8_t row = 0; row < HANDSET_TEXT_ROWS; row++) {
        put_named("TEXT ", row);
        put_words(" ");
        list_codes(phone.text + row * HANDSET_TEXT_ROW_SIZE, HANDSET_TEXT_ROW_SIZE);
    }
}

static void list_labels(void)
{
    put_words("LEFT ");
    list_codes(phone.small.settings.left.codes, phone.small.settings.left.len);
    put_words("RIGHT ");
    list_codes(phone.small.settings.right.codes, phone.small.settings.right.len);
}

static void list_icons(const struct handset_icons *icons, const struct handset_volume *volume)
{
    put_named("ICONS ", icons->s);
    put_named(" ", icons->u);
    put_named(" ", icons->f);
    put_named(" ", icons->r);
    put_named(" ", icons->p);
    put_named(" ", icons->w);
    put_named("\nVOLUME ", volume->which);
    put_named(" ", volume->level);
    put_named(" ", volume->mute);
    put_named(" ", volume->hidden);
    put_words("\n");
}

/* The twelve lines of the program list_screen. A spoilt record is not read: lengths and flags in it may be none. */
static void list_screen(void)
{
    const struct handset_settings *settings = &phone.small.settings;
    if (!handset_in_range(&phone)) return;
    put_named("REPLIES ", replies);
    put_named("\nMODE ", settings->screen.mode);
    put_named(" OVER ", settings->screen.overlay);
    put_named(" DISPLAY ", settings->screen.display);
    put_named("\nCURSOR ", settings->shown);
    put_named(" ", settings->screen.row);
    put_named(" ", settings->screen.column);
    put_words("\n");
    list_text();
    list_labels();
    list_icons(&settings->icons, &settings->volume);
}

/* A row in base 16, byte by byte: it has nothing but bytes, and so no padding. */
static void list_glass(void)
{
    for (uint8_t row = 0; row < HANDSET_DISPLAY_ROWS; row++) {
        const uint8_t *bytes = (const uint8_t *)&glass[row];
        for (size_t i = 0; i < sizeof glass[row]; i++) {
            put_byte(service, (uint8_t)"0123456789ABCDEF"[bytes[i] >> 4]);
            put_byte(service, (uint8_t)"0123456789ABCDEF"[bytes[i] & 15]);
        }
        put_words("\n");
    }
}

enum { PAINT = 0xA5, PAINTER = 64 };
extern uint8_t stack_end[], stack_top[];

/* The stack was painted at the start: the deepest place whose paint is gone has been used. */
static void list_stack(void)
{
    const uint8_t *at = stack_end;
    while (at < stack_top && *at == PAINT) at++;
    put_named("STACK ", (uint32_t)(stack_top - at));
    put_words("\n");
}

static void list_used(void)
{
    put_named("USED ", loop_bytes_used());
    put_words("\n");
}

static void power_on(void)
{
    replies = 0;
    loop_power_on();
}

/* An edge that the loop has not asked for yet holds the line: else the next one would take its place. */
static void serve(void)
{
    uint8_t asked;
    if (edge_from_service != HANDSET_POLL || !(service->state & RECEIVED)) return;
    asked = (uint8_t)service->data;
    switch (asked) {
    case 's': list_screen(); break;
    case 'g': list_glass(); break;
    case 'd': list_stack(); break;
    case 'u': list_used(); break;
    case 'p': power_on(); break;
    case 'x': phone.small.settings.contrast = 0; break; /* as a dip of the power might */
    case 'h': on_hook = false; break;
    case 'H': on_hook = true; break;
    default: edge_from_service = asked; break; /* as from a keypad: enum handset_edge */
    }
}

/* ---- From reset on ---- */

static void open_lines(void)
{
    cord->divider = service->divider = CLOCK / BAUD;
    cord->control = SEND_ENABLED | RECEIVE_ENABLED | RECEIVE_INTERRUPT;
    service->control = SEND_ENABLED | RECEIVE_ENABLED;
    tick_timer->reload = CLOCK / TICKS_A_SECOND - 1;
    tick_timer->value = 0;
    tick_timer->control = TICK_ENABLED;
}

/* The processor sleeps until an interrupt comes: a byte's, or at the latest the next tick's. */
static void run(void)
{
    for (;;) {
        loop_step(ticks);
        open_cord();
        serve();
        __asm__ volatile("wfi" ::: "memory");
    }
}

extern uint8_t data_stored[], data_begin[], data_end[], bss_begin[], bss_end[];

/* Nothing has a value before this. The stack is painted up to where it is in use by now, or will be for this itself. */
static void prepare_memory(void)
{
    memset(stack_end, PAINT, (size_t)((uint8_t *)__builtin_frame_address(0) - stack_end) - PAINTER);
    memcpy(data_begin, data_stored, (size_t)(data_end - data_begin));
    memset(bss_begin, 0, (size_t)(bss_end - bss_begin));
}

void reset(void)
{
    prepare_memory();
    open_lines();
    if (loop_start(&phone, ticks)) run();
    put_words("header and archive have different interfaces\n");
    for (;;) {
    }
}

/* The processor's table, whose place mps2.ld gives: where the stack begins, then a handler for each kind of exception. */
enum { RESET = 1, NMI, HARD_FAULT, MEMORY_FAULT, BUS_FAULT, USAGE_FAULT, TICK = 15, FIRST_INTERRUPT = 16, HANDLERS = 48 };

static const struct {
    uint8_t *stack;
    void (*handlers[HANDLERS - 1])(void); /* from RESET on */
} vectors __attribute__((section(".vectors"), used)) = {
    stack_top,
    {
        [RESET - 1] = reset,
        [NMI - 1] = fault,
        [HARD_FAULT - 1] = fault,
        [MEMORY_FAULT - 1] = fault,
        [BUS_FAULT - 1] = fault,
        [USAGE_FAULT - 1] = fault,
        [TICK - 1] = tick_came,
        [FIRST_INTERRUPT + CORD_INTERRUPT - 1] = cord_came,
    },
};
