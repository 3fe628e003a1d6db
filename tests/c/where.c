/*
 * Prints for each field of each struct where it lies, and each struct's size: "STRUCT FIELD TYPE OFFSET", "STRUCT size SIZE". With
 * HEADER defined as the compiler of C has them, through include/handset.h; else as the Rattle compiler does, through functions
 * of a crate that was made from the sources (rattle.awk). ASKED names the table of fields, which awk made; for C the structs that
 * door/handset.c keeps to itself stand before it.
 *
 * A Rattle function is handed a struct with 256 bytes behind it, as an image in which each byte tells its place, and hands back
 * what it finds in its field: so the value is the place. A flag may only be 0 or 1; it is asked for each place alone.
 */
#include <stdbool.h>
#include <stddef.h>
#include <stdint.h>
#include <stdio.h>
#include <string.h>

#ifdef HEADER

#include "handset.h"

#define FIELD(struct_, field, type) printf("struct " #struct_ " " #field " " type " %d\n", (int)offsetof(struct struct_, field));
#define SIZE(struct_) printf("struct " #struct_ " size %d\n", (int)sizeof(struct struct_));

int main(void)
{
#include ASKED
    return 0;
}

#else

/* So large that it is passed in memory, whatever the struct inside is. */
struct image {
    uint64_t words[64];
};

/* the functions, as C sees them: declared by the table, then asked by it */
#define ASK_U8(at, struct_, field, type) uint8_t at(struct image image);
#define ASK_U16(at, struct_, field, type) uint16_t at(struct image image);
#define ASK_U32(at, struct_, field, type) uint32_t at(struct image image);
#define ASK_USIZE(at, struct_, field, type) uint64_t at(struct image image);
#define ASK_BOOL(at, struct_, field, type) bool at(struct image image);
#include ASKED
#undef ASK_U8
#undef ASK_U16
#undef ASK_U32
#undef ASK_USIZE
#undef ASK_BOOL

static struct image told(void)
{
    struct image image;
    uint8_t places[sizeof image];
    for (size_t i = 0; i < sizeof places; i++) places[i] = (uint8_t)i;
    memcpy(&image, places, sizeof image);
    return image;
}

static struct image flagged(size_t place)
{
    struct image image;
    memset(&image, 0, sizeof image);
    memset((uint8_t *)&image + place, 1, 1);
    return image;
}

/* A number of several bytes must be made of neighbours, the lowest first; else its place is told as -1. */
static int place_of(uint64_t value, size_t size)
{
    uint64_t low = value & 0xFF;
    for (size_t i = 1; i < size; i++)
        if (((value >> (8 * i)) & 0xFF) != low + i) return -1;
    return (int)low;
}

static int place_of_flag(bool (*at)(struct image))
{
    int place = -1;
    for (size_t i = 0; i < 256; i++)
        if (at(flagged(i))) place = place < 0 ? (int)i : -2;
    return place;
}

static void tell(const char *struct_, const char *field, const char *type, int place)
{
    printf("struct %s %s%s%s %d\n", struct_, field, *type ? " " : "", type, place);
}

#define ASK_U8(at, struct_, field, type) tell(#struct_, #field, type, place_of(at(told()), 1));
#define ASK_U16(at, struct_, field, type) tell(#struct_, #field, type, place_of(at(told()), 2));
#define ASK_U32(at, struct_, field, type) tell(#struct_, #field, type, place_of(at(told()), 4));
#define ASK_USIZE(at, struct_, field, type) tell(#struct_, #field, type, place_of(at(told()), 8));
#define ASK_BOOL(at, struct_, field, type) tell(#struct_, #field, type, place_of_flag(at));

int main(void)
{
#include ASKED
    return 0;
}

#endif
