#include <conio.h>
#include <stdio.h>
#include <stdlib.h>

#include "systems/system.h"
#include "systems/windows/net.h"
#include "systems/windows/pump.h"
#include "systems/windows/text.h"

/* Bytes of output that are kept. */
enum { KEPT = 1 << 16 };

/* Milliseconds in which what goes by pipes still ends. */
enum { LAST_WORDS = 500 };

static UINT console_letters;

static void give_console_back(void)
{
    SetConsoleOutputCP(console_letters);
}

/* What is said is in UTF-8. It is kept until the program ends, but for what a gateway says that routes. */
static void take_console(void)
{
    setvbuf(stdout, NULL, _IOFBF, KEPT);
    setvbuf(stderr, NULL, _IOFBF, KEPT);
    console_letters = GetConsoleOutputCP();
    if (console_letters != 0 && SetConsoleOutputCP(CP_UTF8))
        atexit(give_console_back);
}

/* Whether the console is the program's alone, and shows what it says: so it is where somebody has clicked the program twice. Then the window is
 * gone with it. */
static bool has_own_console(void)
{
    DWORD processes[2], mode;
    return GetConsoleProcessList(processes, 2) == 1 && GetConsoleMode(GetStdHandle(STD_ERROR_HANDLE), &mode);
}

/* What whoever clicked it twice does next, and time to read it. */
static void wait_for_key(void)
{
    fputs("Type these lines in a console. To open one here, type cmd into the address line of this folder's window.\n"
          "Press a key to close this window.\n", stderr);
    fflush(stderr);
    (void)_getch();
}

/* The words of the command line, which are there as long as the program; NULL where there is no memory for them. */
static char **words_of(int count, wchar_t **wide)
{
    int k = 0;
    char **words = calloc((size_t)count + 1, sizeof *words);
    while (words != NULL && k < count && (words[k] = text_to_utf8(wide[k])) != NULL)
        k++;
    if (words == NULL || k == count)
        return words;
    free(words);
    return NULL;
}

int wmain(int count, wchar_t **wide)
{
    WSADATA about;
    char **words = words_of(count, wide);
    if (words == NULL) {
        fputs("ipxr-gateway: no memory for the words of the command line\n", stderr);
        return EXIT_FAILURE;
    }
    take_console();
    /* (where it fails, opening the first socket tells it) */
    (void)WSAStartup(MAKEWORD(2, 2), &about);
    int status = gateway_main(count, words);
    pumps_end(LAST_WORDS);
    if (count == 1 && has_own_console())
        wait_for_key();
    return status;
}
