/* Numbers as a page prints them: see count.h. */
#include "count.h"

#include <inttypes.h>

void put_count(FILE *out, uint32_t count)
{
    if (count < 1000) {
        fprintf(out, "%" PRIu32, count);
        return;
    }
    put_count(out, count / 1000);
    fprintf(out, ",%03" PRIu32, count % 1000);
}
