/* Types at a console of Windows what a user would, while a program reads there: console KEYS OUTPUT PROGRAM WORD..
 *
 * In KEYS a | is the key Enter, and ^ with a letter is that letter with Ctrl. Ctrl-C is pressed once the program has taken all that was
 * typed before. The program writes into the file OUTPUT; OUTPUT.status gets its exit status. */
#include <stdio.h>
#include <wchar.h>
#include <windows.h>

enum { MOST_COMMAND = 4096, LIMIT = 60000, BETWEEN_LOOKS = 10, CTRL_C = 'C' - '@', OTHER = 99 };

static SECURITY_ATTRIBUTES handed_on = {sizeof handed_on, NULL, TRUE};

static HANDLE console(void)
{
    return CreateFileW(L"CONIN$", GENERIC_READ | GENERIC_WRITE, FILE_SHARE_READ | FILE_SHARE_WRITE, &handed_on, OPEN_EXISTING, 0, NULL);
}

/* Ctrl-C is for the program alone. */
static BOOL WINAPI stay(DWORD event)
{
    (void)event;
    return TRUE;
}

/* Presses a key and lets it go. */
static void press(HANDLE at, wchar_t letter)
{
    INPUT_RECORD keys[2] = {{0}};
    DWORD written;
    BOOL is_control = letter < L' ' && letter != L'\r';
    for (int k = 0; k < 2; k++) {
        KEY_EVENT_RECORD *key = &keys[k].Event.KeyEvent;
        keys[k].EventType = KEY_EVENT;
        key->bKeyDown = k == 0;
        key->wRepeatCount = 1;
        key->uChar.UnicodeChar = letter;
        key->wVirtualKeyCode = (WORD)(letter == L'\r' ? VK_RETURN : is_control ? letter + L'@' : letter);
        key->dwControlKeyState = is_control ? LEFT_CTRL_PRESSED : 0;
    }
    WriteConsoleInputW(at, keys, 2, &written);
}

static void interrupt(HANDLE at)
{
    DWORD left = 1;
    while (left > 0 && GetNumberOfConsoleInputEvents(at, &left))
        Sleep(BETWEEN_LOOKS);
    GenerateConsoleCtrlEvent(CTRL_C_EVENT, 0);
}

static void type(HANDLE at, const wchar_t *keys)
{
    for (; *keys != L'\0'; keys++) {
        wchar_t letter = *keys == L'|' ? L'\r' : *keys == L'^' ? *++keys - L'@' : *keys;
        if (letter == CTRL_C)
            interrupt(at);
        else
            press(at, letter);
    }
}

/* Begins the program. Returns whether it runs. */
static BOOL begin(int count, wchar_t **words, PROCESS_INFORMATION *run)
{
    static wchar_t command[MOST_COMMAND];
    STARTUPINFOW how = {.cb = sizeof how, .dwFlags = STARTF_USESTDHANDLES};
    for (int k = 3; k < count; k++) {
        wcscat(command, words[k]);
        wcscat(command, L" ");
    }
    how.hStdInput = console();
    how.hStdOutput = CreateFileW(words[2], GENERIC_WRITE, FILE_SHARE_READ, &handed_on, CREATE_ALWAYS, 0, NULL);
    how.hStdError = how.hStdOutput;
    return CreateProcessW(NULL, command, NULL, NULL, TRUE, 0, NULL, NULL, &how, run);
}

static void tell(const wchar_t *output, DWORD status)
{
    wchar_t name[MAX_PATH];
    swprintf(name, MAX_PATH, L"%ls.status", output);
    FILE *file = _wfopen(name, L"w");
    if (file == NULL)
        return;
    fprintf(file, "%lu\n", status);
    fclose(file);
}

int wmain(int count, wchar_t **words)
{
    PROCESS_INFORMATION run;
    DWORD status = OTHER;
    HANDLE at = console();
    SetConsoleCtrlHandler(stay, TRUE);
    if (count < 4 || at == INVALID_HANDLE_VALUE || !begin(count, words, &run)) {
        printf("nothing runs at a console\n");
        return OTHER;
    }
    type(at, words[1]);
    if (WaitForSingleObject(run.hProcess, LIMIT) == WAIT_OBJECT_0)
        GetExitCodeProcess(run.hProcess, &status);
    tell(words[2], status);
    return 0;
}
