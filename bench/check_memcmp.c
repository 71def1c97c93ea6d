/* The checker of check.c, comparing by the C library's memcmp. */
#define BY_MEMCMP
#define fast_step fast_step_for_memcmp
#define fast_check fast_check_by_memcmp
#include "check.c"
