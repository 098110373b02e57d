#include "systems/sodium.h"

#include <string.h>
#include <wchar.h>

#include "systems/windows/net.h"

/* What its DLL is called in the archives of its makers, and by MinGW. */
static const wchar_t *const FILES[] = {L"libsodium.dll", L"libsodium-26.dll", L"libsodium-23.dll"};
enum { FILE_COUNT = sizeof FILES / sizeof *FILES };

/* The first that is in the program's folder or the system's. Never from where somebody happens to be, who may find there what others left. */
static HMODULE loaded(void)
{
    HMODULE found = NULL;
    for (size_t k = 0; k < FILE_COUNT && found == NULL; k++)
        found = LoadLibraryExW(FILES[k], NULL, LOAD_LIBRARY_SEARCH_APPLICATION_DIR | LOAD_LIBRARY_SEARCH_SYSTEM32);
    return found;
}

static bool has_all(HMODULE library, const char *const *names, sodium_call *calls, size_t count)
{
    size_t k = 0;
    FARPROC found;
    while (k < count && (found = GetProcAddress(library, names[k])) != NULL)
        memcpy(&calls[k++], &found, sizeof found);
    return k == count;
}

bool sodium_load(const char *const *names, sodium_call *calls, size_t count, const char **lacks)
{
    HMODULE library = loaded();
    if (library == NULL) {
        *lacks = "libsodium.dll isn't there, which seals what is said: put it beside ipxr-gateway.exe";
        return false;
    }
    if (has_all(library, names, calls, count))
        return true;
    *lacks = "libsodium.dll is too old: take a newer one";
    FreeLibrary(library);
    return false;
}
