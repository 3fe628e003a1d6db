/* See stdbool.h beside it: what is used here of the header, by the compiler's own types. */
#ifndef HANDSET_KIT_STDINT_H
#define HANDSET_KIT_STDINT_H
typedef __UINT8_TYPE__ uint8_t;
typedef __UINT16_TYPE__ uint16_t;
typedef __UINT32_TYPE__ uint32_t;
typedef __UINT64_TYPE__ uint64_t;
#endif
