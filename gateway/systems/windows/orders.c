/* Orders come from the console: Ctrl-C, Ctrl-Break, and that it is closed. */
#include "systems/orders.h"

#include "systems/windows/bell.h"

static volatile LONG is_over;
static volatile LONG is_asked;

/* It is called in a thread of its own. Where the console is closed, or Windows ends, the process ends as soon as it returns: so it
 * doesn't, and the gateway has the seconds that Windows gives to say what it has to. */
static BOOL WINAPI on_order(DWORD order)
{
    InterlockedExchange(order == CTRL_BREAK_EVENT ? &is_asked : &is_over, 1);
    bell_ring();
    if (order != CTRL_BREAK_EVENT && order != CTRL_C_EVENT)
        Sleep(INFINITE);
    return TRUE;
}

void orders_hear(void)
{
    bell_hang();
    SetConsoleCtrlHandler(on_order, TRUE);
}

bool is_told_to_end(void)
{
    return is_over != 0;
}

bool is_asked_to_report(void)
{
    return InterlockedExchange(&is_asked, 0) != 0;
}

/* (Windows has no such order) */
bool is_told_to_read(void)
{
    return false;
}
