#include "systems/windows/npcap.h"

#include <stdarg.h>
#include <stdbool.h>
#include <stddef.h>
#include <stdio.h>
#include <string.h>
#include <wchar.h>

#include "systems/windows/net.h"

/* Where Npcap puts its DLLs, in the system's folder. */
static const wchar_t FOLDER[] = L"\\Npcap\\wpcap.dll";
static const wchar_t NAME[] = L"wpcap.dll";

/* (a place of the calls is told its function as bytes: the compiler has no type for all of them) */
static const struct {
    const char *name;
    size_t place;
} NAMES[] = {
    {"pcap_create", offsetof(npcap_calls, create)},
    {"pcap_set_snaplen", offsetof(npcap_calls, set_length)},
    {"pcap_set_promisc", offsetof(npcap_calls, set_all)},
    {"pcap_set_timeout", offsetof(npcap_calls, set_patience)},
    {"pcap_set_immediate_mode", offsetof(npcap_calls, set_at_once)},
    {"pcap_activate", offsetof(npcap_calls, activate)},
    {"pcap_datalink", offsetof(npcap_calls, kind)},
    {"pcap_setfilter", offsetof(npcap_calls, set_filter)},
    {"pcap_next_ex", offsetof(npcap_calls, next)},
    {"pcap_sendpacket", offsetof(npcap_calls, send)},
    {"pcap_geterr", offsetof(npcap_calls, words)},
    {"pcap_statustostr", offsetof(npcap_calls, words_of)},
    {"pcap_close", offsetof(npcap_calls, close)},
};
enum { NAME_COUNT = sizeof NAMES / sizeof *NAMES };

/* What it lacks, in words. */
static char words[160];

/* Its DLL in its own folder, whose other DLLs it finds there. Where it is there and can't be loaded, Windows' number of the reason is told. */
static HMODULE loaded_of_npcap(unsigned long *why)
{
    wchar_t path[MAX_PATH + sizeof FOLDER / sizeof *FOLDER];
    UINT length = GetSystemDirectoryW(path, MAX_PATH);
    if (length == 0 || length >= MAX_PATH)
        return NULL;
    HMODULE found = LoadLibraryExW(wcscat(path, FOLDER), NULL, LOAD_WITH_ALTERED_SEARCH_PATH);
    unsigned long fault = found == NULL ? GetLastError() : 0;
    if (GetFileAttributesW(path) != INVALID_FILE_ATTRIBUTES)
        *why = fault;
    return found;
}

/* The same, or the one of the program's folder or the system's. Never that from where somebody happens to be, who may find there what others
 * left. */
static HMODULE loaded(unsigned long *why)
{
    HMODULE found = loaded_of_npcap(why);
    return found != NULL ? found : LoadLibraryExW(NAME, NULL, LOAD_LIBRARY_SEARCH_APPLICATION_DIR | LOAD_LIBRARY_SEARCH_SYSTEM32);
}

/* The first function that a DLL lacks; NULL where it has all. */
static const char *missing(HMODULE library, npcap_calls *calls)
{
    size_t k = 0;
    FARPROC call;
    while (k < NAME_COUNT && (call = GetProcAddress(library, NAMES[k].name)) != NULL)
        memcpy((char *)calls + NAMES[k++].place, &call, sizeof call);
    return k < NAME_COUNT ? NAMES[k].name : NULL;
}

static const char *told(const char *form, ...)
{
    va_list rest;
    va_start(rest, form);
    vsnprintf(words, sizeof words, form, rest);
    va_end(rest);
    return words;
}

/* Whether a DLL is there that has all; else what is wrong is told. */
static bool is_found(npcap_calls *calls, const char **lacks)
{
    unsigned long why = 0;
    HMODULE library = loaded(&why);
    const char *without = library != NULL ? missing(library, calls) : NULL;
    if (library == NULL && why == 0)
        *lacks = "Npcap isn't installed, by which Windows gives programs a card's frames: install it from npcap.com";
    else if (library == NULL)
        *lacks = told("Npcap's wpcap.dll can't be loaded (Windows error %lu): install Npcap anew, from npcap.com", why);
    else if (without != NULL)
        *lacks = told("Npcap is too old, or this is another wpcap.dll, which lacks %s: install Npcap from npcap.com", without);
    if (without != NULL)
        FreeLibrary(library);
    return library != NULL && without == NULL;
}

const npcap_calls *npcap(const char **lacks)
{
    static npcap_calls calls;
    static bool is_there;
    *lacks = NULL;
    is_there = is_there || is_found(&calls, lacks);
    return is_there ? &calls : NULL;
}
