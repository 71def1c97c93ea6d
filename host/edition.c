/* The edition of a program: see edition.h. */
#include "edition.h"

#include "output.h"
#include "pomurica.h"

#include <stdint.h>
#include <stdio.h>

/* The parts of an edition: the document of the rules, the last request that landed, and the release. */
static unsigned document_of(uint32_t edition)
{
    return edition >> 16;
}

static unsigned request_of(uint32_t edition)
{
    return edition >> 8 & 0xFF;
}

static unsigned release_of(uint32_t edition)
{
    return edition & 0xFF;
}

void print_version(const char *program)
{
    printf("%s " POMURICA_VERSION " (rules: document %02u with requests 1 to %u)\n", program, document_of(POMURICA_EDITION),
           request_of(POMURICA_EDITION));
    send_output();
}

bool archive_belongs(const char *program)
{
    const uint32_t archive = pomurica_edition();

    if (archive == POMURICA_EDITION)
        return true;
    fprintf(stderr, "%s: built for edition " POMURICA_VERSION " of the rules, over an archive of %u.%u.%u\n", program,
            document_of(archive), request_of(archive), release_of(archive));
    return false;
}
