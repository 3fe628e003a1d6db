/*
 * What a board is to answer and to show, told by the archive of this machine: reads a stream from standard input, hands it over byte by
 * byte from the power-on record on, and prints the answers as they are, or the seven rows of the display in base 16.
 * usage: expected answers|lit|pause
 */
#include "handset.h"

#include <stddef.h>
#include <stdio.h>

static struct handset phone;

/* With room for the longest answer each byte is used. */
static bool hear_byte(uint8_t byte, bool tell)
{
    uint8_t room[HANDSET_LONGEST_ANSWER];
    uint64_t used, written;
    if (handset_feed(&phone, &byte, 1, room, sizeof room, &used, &written) != HANDSET_DONE || used != 1) return false;
    for (uint64_t i = 0; tell && i < written; i++) putchar(room[i]);
    return true;
}

static bool hear(bool tell)
{
    int byte;
    while ((byte = getchar()) != EOF)
        if (!hear_byte((uint8_t)byte, tell)) return false;
    return true;
}

static bool show_row(uint8_t row, uint8_t phase)
{
    struct handset_row seen;
    const uint8_t *bytes = (const uint8_t *)&seen;
    if (handset_row_seen(&phone, row, phase, &seen) != HANDSET_DONE) return false;
    for (size_t i = 0; i < sizeof seen; i++) printf("%02X", bytes[i]);
    putchar('\n');
    return true;
}

static bool show(uint8_t phase)
{
    for (uint8_t row = 0; row < HANDSET_DISPLAY_ROWS; row++)
        if (!show_row(row, phase)) return false;
    return true;
}

int main(int count, char **words)
{
    bool answers, done;
    if (count != 2) return 2;
    answers = words[1][0] == 'a';
    handset_power_on(&phone);
    done = hear(answers) && (answers || show(words[1][0] == 'l' ? HANDSET_LIT : HANDSET_PAUSE));
    if (!done) printf("a call ended as none should\n");
    return !done;
}
