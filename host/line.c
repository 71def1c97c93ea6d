/* Serial lines: see line.h. */
#define _POSIX_C_SOURCE 200809L

#include "line.h"

#include <errno.h>
#include <signal.h>
#include <stdlib.h>
#include <string.h>
#include <termios.h>
#include <unistd.h>

/* Signals that someone sends to end the console, and the one of an output that nobody reads any more. */
static const int ENDING[] = { SIGHUP, SIGINT, SIGQUIT, SIGTERM, SIGPIPE };

/* The line that was set, -1 for none, and the settings that it had. */
static volatile sig_atomic_t changed = -1;
static struct termios had;

/* A terminal from which the console was started has a process group in front. */
bool is_line(int file)
{
    return isatty(file) && tcgetpgrp(file) < 0;
}

static void restore(void)
{
    if (changed >= 0)
        tcsetattr(changed, TCSANOW, &had);
    changed = -1;
}

/* An emulator of x86-64 may call a catcher on a stack that is not aligned as the convention says: qemu 8.2 does. */
#ifdef __x86_64__
#define ON_ANY_STACK __attribute__((force_align_arg_pointer))
#else
#define ON_ANY_STACK
#endif

/* The signal that is raised waits until this has returned, and then ends the console: it is caught once. */
ON_ANY_STACK static void restore_and_end(int number)
{
    restore();
    raise(number);
}

/* What is ignored stays so: it ends nothing. */
static void catch_signals(void (*catcher)(int))
{
    struct sigaction action, present;

    memset(&action, 0, sizeof action);
    action.sa_handler = catcher;
    action.sa_flags = (int)SA_RESETHAND;
    for (size_t i = 0; i < sizeof ENDING / sizeof *ENDING; i++)
        if (sigaction(ENDING[i], NULL, &present) == 0 && present.sa_handler != SIG_IGN)
            sigaction(ENDING[i], &action, NULL);
}

/* Without any work on what comes in: no end of a text line, no signs with a meaning, no echo; a read waits for one byte. */
static struct termios settings_for_bytes(struct termios settings)
{
    settings.c_iflag &= ~(tcflag_t)(BRKINT | PARMRK | ISTRIP | INLCR | IGNCR | ICRNL | IXON);
    settings.c_lflag &= ~(tcflag_t)(ECHO | ECHONL | ICANON | ISIG | IEXTEN);
    settings.c_cc[VMIN] = 1;
    settings.c_cc[VTIME] = 0;
    return settings;
}

static bool are_same(const struct termios *one, const struct termios *other)
{
    return one->c_iflag == other->c_iflag && one->c_lflag == other->c_lflag &&
           memcmp(one->c_cc, other->c_cc, sizeof one->c_cc) == 0;
}

/* At once, and without the loss of what has come already. */
int set_line(int file)
{
    static bool at_exit;
    struct termios wanted;

    if (tcgetattr(file, &had) != 0)
        return errno;
    wanted = settings_for_bytes(had);
    if (are_same(&wanted, &had))
        return 0;
    if (!at_exit && atexit(restore) != 0)
        return ENOMEM;
    at_exit = true;
    changed = file;
    catch_signals(restore_and_end);
    return tcsetattr(file, TCSANOW, &wanted) == 0 ? 0 : errno;
}

void reset_line(void)
{
    if (changed < 0)
        return;
    restore();
    catch_signals(SIG_DFL);
}
