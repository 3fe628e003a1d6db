/* See stdbool.h beside it: the functions of the C library that the C programs here use. */
#ifndef HANDSET_KIT_STRING_H
#define HANDSET_KIT_STRING_H
#include <stddef.h>
void *memcpy(void *to, const void *from, size_t count);
void *memmove(void *to, const void *from, size_t count);
void *memset(void *to, int code, size_t count);
int memcmp(const void *one, const void *other, size_t count);
size_t strlen(const char *text);
#endif
