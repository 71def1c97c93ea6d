/* What the programs print: see output.h. */
#include "output.h"

#include "complain.h"

#include <errno.h>
#include <stdio.h>
#include <stdlib.h>
#include <string.h>

/* The exit status of any program here whose output is lost. */
enum { LOST = 2 };

static void lose_output(void)
{
    complain("standard output", "%s", strerror(errno));
    exit(LOST);
}

void send_output(void)
{
    if (fflush(stdout) != 0 || ferror(stdout))
        lose_output();
}

void hold_output(void)
{
    if (ferror(stdout))
        lose_output();
}
