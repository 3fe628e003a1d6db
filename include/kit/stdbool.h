/* The kit has no C headers. These few stand in for them where ./c-build uses its tools; with another compiler they are not seen. */
#ifndef HANDSET_KIT_STDBOOL_H
#define HANDSET_KIT_STDBOOL_H
#ifndef __cplusplus
#define bool _Bool
#define true 1
#define false 0
#endif
#endif
