/* For the tests on Windows: runs a program, and gives it orders as a console does, by a thread in it that begins at CtrlRoutine.
 *
 *     console PROGRAM WORD..   for each letter of standard input: c is Ctrl-C, b Ctrl-Break, x the console's end. The end of the input
 *                              kills the program. It ends with the program, by its status */
#include <stdio.h>
#include <wchar.h>
#include <windows.h>

enum { KILLED = 124, NOT_STARTED = 125, MOST_LINE = 32768 };

static const struct {
    char letter;
    DWORD_PTR order;
} ORDERS[] = {{'c', CTRL_C_EVENT}, {'b', CTRL_BREAK_EVENT}, {'x', CTRL_CLOSE_EVENT}};
enum { ORDER_COUNT = sizeof ORDERS / sizeof *ORDERS };

/* Starts what stands behind the first word of the command line, which has no blank. */
static HANDLE started(void)
{
    static wchar_t line[MOST_LINE];
    STARTUPINFOW how = {.cb = sizeof how};
    PROCESS_INFORMATION it;
    const wchar_t *rest = wcschr(GetCommandLineW(), L' ');
    if (rest == NULL || wcslen(rest + 1) >= MOST_LINE)
        return NULL;
    wcscpy(line, rest + 1);
    return CreateProcessW(NULL, line, NULL, NULL, TRUE, 0, NULL, NULL, &how, &it) ? it.hProcess : NULL;
}

static BOOL give(HANDLE program, char letter)
{
    FARPROC routine = GetProcAddress(GetModuleHandleW(L"kernelbase"), "CtrlRoutine");
    size_t k = 0;
    while (k < ORDER_COUNT && ORDERS[k].letter != letter)
        k++;
    return k < ORDER_COUNT && routine != NULL &&
           CreateRemoteThread(program, NULL, 0, (LPTHREAD_START_ROUTINE)(void (*)(void))routine, (void *)ORDERS[k].order, 0, NULL) != NULL;
}

/* (without the C library's stream, which would be held while the program ends) */
static DWORD WINAPI give_all(void *program)
{
    char letter;
    DWORD count;
    while (ReadFile(GetStdHandle(STD_INPUT_HANDLE), &letter, 1, &count, NULL) && count == 1)
        if (!give(program, letter))
            fprintf(stderr, "console: an order can't be given: error %lu\n", GetLastError());
    TerminateProcess(program, KILLED);
    return 0;
}

int main(void)
{
    DWORD status = NOT_STARTED;
    HANDLE program = started();
    if (program == NULL || CreateThread(NULL, 0, give_all, program, 0, NULL) == NULL) {
        fprintf(stderr, "console: the program can't be started: error %lu\n", GetLastError());
        return NOT_STARTED;
    }
    WaitForSingleObject(program, INFINITE);
    GetExitCodeProcess(program, &status);
    return (int)status;
}
