/* See stdbool.h beside it: the functions of the C library that the C programs here use. */
#ifndef HANDSET_KIT_STDLIB_H
#define HANDSET_KIT_STDLIB_H
unsigned long strtoul(const char *text, char **end, int base);
#endif
