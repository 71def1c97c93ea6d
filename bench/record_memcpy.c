/* The recorder of record.c, copying by the C library's memcpy. */
#define BY_MEMCPY
#define fast_step fast_step_for_memcpy
#define fast_record fast_record_by_memcpy
#include "record.c"
