/* Orders are signals. */
#include "systems/orders.h"

#include <signal.h>
#include <stddef.h>
#include <unistd.h>

static volatile sig_atomic_t is_over;
static volatile sig_atomic_t is_asked;
static volatile sig_atomic_t is_to_read;

static void end(int number)
{
    (void)number;
    is_over = 1;
}

static void ask(int number)
{
    (void)number;
    is_asked = 1;
}

static void read_anew(int number)
{
    (void)number;
    is_to_read = 1;
}

static void on_signal(int number, void (*does)(int))
{
    struct sigaction how = {0};
    how.sa_handler = does;
    sigaction(number, &how, NULL);
}

void orders_hear(void)
{
    on_signal(SIGINT, end);
    on_signal(SIGTERM, end);
    /* (at a terminal it says that the terminal has gone) */
    on_signal(SIGHUP, isatty(STDOUT_FILENO) ? end : read_anew);
    on_signal(SIGUSR1, ask);
    /* (a connection that is lost is told by the call) */
    on_signal(SIGPIPE, SIG_IGN);
    /* (so is a file that may not grow) */
    on_signal(SIGXFSZ, SIG_IGN);
}

bool is_told_to_end(void)
{
    return is_over != 0;
}

bool is_told_to_read(void)
{
    bool was_told = is_to_read != 0;
    if (was_told)
        is_to_read = 0;
    return was_told;
}

bool is_asked_to_report(void)
{
    bool was_asked = is_asked != 0;
    if (was_asked)
        is_asked = 0;
    return was_asked;
}
