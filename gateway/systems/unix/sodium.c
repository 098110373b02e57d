#include "systems/sodium.h"

/* A program that is linked statically loads nothing: that this is one is said when it is compiled. */
#ifdef STANDS_ALONE

bool sodium_load(const char *const *names, sodium_call *calls, size_t count, const char **lacks)
{
    (void)names;
    (void)calls;
    (void)count;
    *lacks = "this gateway is linked statically and can't load libsodium: take one that isn't";
    return false;
}

#else

#include <dlfcn.h>
#include <string.h>

/* What it is called by Linux, by the BSDs, and by macOS. */
static const char *const FILES[] = {"libsodium.so.23", "libsodium.so.26", "libsodium.so", "libsodium.dylib"};
enum { FILE_COUNT = sizeof FILES / sizeof *FILES };

/* The first file that is there. */
static void *loaded(void)
{
    void *found = NULL;
    for (size_t k = 0; k < FILE_COUNT && found == NULL; k++)
        found = dlopen(FILES[k], RTLD_NOW | RTLD_LOCAL);
    return found;
}

/* (C has no way from what the system finds to a call but by its bytes) */
static bool has_all(void *library, const char *const *names, sodium_call *calls, size_t count)
{
    size_t k = 0;
    void *found;
    while (k < count && (found = dlsym(library, names[k])) != NULL)
        memcpy(&calls[k++], &found, sizeof found);
    return k == count;
}

bool sodium_load(const char *const *names, sodium_call *calls, size_t count, const char **lacks)
{
    void *library = loaded();
    if (library == NULL) {
        *lacks = "libsodium isn't installed, which seals what is said: install libsodium23, or what this system calls it";
        return false;
    }
    if (has_all(library, names, calls, count))
        return true;
    *lacks = "libsodium is too old: install a newer one";
    dlclose(library);
    return false;
}

#endif
