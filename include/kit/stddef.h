/* See stdbool.h beside it: what is used here of the header, by the compiler's own types. */
#ifndef HANDSET_KIT_STDDEF_H
#define HANDSET_KIT_STDDEF_H
typedef __SIZE_TYPE__ size_t;
#define NULL ((void *)0)
#define offsetof(type, member) __builtin_offsetof(type, member)
#endif
