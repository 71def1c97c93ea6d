/*
 * An archive of another edition: linked with --wrap=pomurica_edition, so that a
 * program asks this in place of the archive.
 */
#include "pomurica.h"

uint32_t __wrap_pomurica_edition(void);

uint32_t __wrap_pomurica_edition(void)
{
    return UINT32_C(0x00010D02);
}
