/*
 * Tries the inputs in files again, each in a process of its own, so that one
 * which stops does not stop the others.
 *
 *     fuzz_replay FILE...
 */
#define _POSIX_C_SOURCE 200809L

#include "fuzz.h"
#include "group.h"

#include <stdio.h>
#include <sys/wait.h>
#include <unistd.h>

/* Room for more than any input has. */
enum { MOST = 1 << 20 };

static void try_file(const char *name)
{
    static uint8_t bytes[MOST];
    FILE *const file = fopen(name, "rb");
    size_t length;

    if (file == NULL) {
        perror(name);
        _exit(2);
    }
    length = fread(bytes, 1, sizeof bytes, file);
    LLVMFuzzerTestOneInput(bytes, length);
}

int main(int argc, char **argv)
{
    group("inputs of the corpus");
    for (int i = 1; i < argc; i++) {
        const pid_t child = fork();
        int status = 1;

        if (child == 0) {
            try_file(argv[i]);
            _exit(0);
        }
        check(child > 0 && waitpid(child, &status, 0) == child && status == 0, "%s", argv[i]);
    }
    return summary();
}
