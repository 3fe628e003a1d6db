/*
 * In the loop's place a program: examples/firmware/mps2.c starts this, and this starts the program's `main`, with standard output down
 * the cord. So tests that were written for any C run on the board too. What they use of a C library is here, and no more.
 */
#include "../../examples/firmware/loop.h"

#include <stdio.h>
#include <string.h>

int main(void);

static volatile uint32_t *const tick_control = (uint32_t *)0xE000E010;

/* The clock stands still: an interrupt would leave its own marks in the stack, which tests/c/stack.c measures. */
bool loop_start(struct handset *record, uint16_t tick)
{
    (void)record;
    (void)tick;
    *tick_control = 0;
    printf("ended with %d\n", main());
    return false;
}

void loop_step(uint16_t tick)
{
    (void)tick;
}

void loop_power_on(void)
{
}

bool loop_has_room(void)
{
    return false;
}

void loop_byte_came(uint8_t byte)
{
    (void)byte;
}

uint32_t loop_bytes_used(void)
{
    return 0;
}

int putchar(int code)
{
    uint8_t byte = (uint8_t)code;
    port_send(&byte, 1);
    return code;
}

static void put_text(const char *text, size_t width)
{
    size_t count = strlen(text);
    for (size_t i = 0; i < count; i++) putchar(text[i]);
    for (; count < width; count++) putchar(' ');
}

static void put_number(int number)
{
    char digits[12];
    char *first = digits + sizeof digits - 1;
    unsigned rest = number < 0 ? 0u - (unsigned)number : (unsigned)number;
    *first = 0;
    do *--first = (char)('0' + rest % 10);
    while ((rest /= 10) > 0);
    if (number < 0) *--first = '-';
    put_text(first, 0);
}

/* %s, %-Ns and %d. */
int printf(const char *format, ...)
{
    __builtin_va_list words;
    __builtin_va_start(words, format);
    for (; *format; format++) {
        size_t width = 0;
        if (*format != '%') {
            putchar(*format);
            continue;
        }
        format++;
        if (*format == '-') format++;
        while (*format >= '0' && *format <= '9') width = width * 10 + (size_t)(*format++ - '0');
        if (*format == 's') put_text(__builtin_va_arg(words, const char *), width);
        if (*format == 'd') put_number(__builtin_va_arg(words, int));
    }
    __builtin_va_end(words);
    return 0;
}

size_t strlen(const char *text)
{
    size_t count = 0;
    while (text[count]) count++;
    return count;
}

int memcmp(const void *one, const void *other, size_t count)
{
    const uint8_t *a = one, *b = other;
    for (size_t i = 0; i < count; i++)
        if (a[i] != b[i]) return a[i] - b[i];
    return 0;
}
