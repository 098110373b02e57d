#include "systems/system.h"

#include <errno.h>
#include <io.h>
#include <stdbool.h>
#include <stdlib.h>

#include "systems/windows/net.h"
#include "systems/windows/text.h"

/* (other programs may read it meanwhile) */
FILE *file_open(const char *name, const char *how)
{
    FILE *file = NULL;
    wchar_t *wide_name = text_of_utf8(name), *wide_how = text_of_utf8(how);
    if (wide_name != NULL && wide_how != NULL)
        file = _wfopen(wide_name, wide_how);
    else
        errno = ENOMEM;
    free(wide_name);
    free(wide_how);
    return file;
}

/* (to open a file of this system never waits) */
FILE *file_open_at_once(const char *name)
{
    return file_open(name, "rb");
}

/* (who may read it lists say, which folders hand down) */
bool file_is_secret(FILE *file)
{
    (void)file;
    return true;
}

/* (to open a pipe of this system never waits) */
bool file_is_fifo(const char *name)
{
    (void)name;
    return false;
}

/* A file of its own in the folder for such files, which is gone once it is closed. */
FILE *text_open(char **text, size_t *length)
{
    wchar_t folder[MAX_PATH + 1], name[MAX_PATH + 1];
    *text = NULL;
    *length = 0;
    DWORD size = GetTempPathW(MAX_PATH, folder);
    if (size == 0 || size > MAX_PATH || GetTempFileNameW(folder, L"ipx", 0, name) == 0)
        return NULL;
    return _wfopen(name, L"w+bTD");
}

void text_close(FILE *file, char **text, size_t *length)
{
    long size = ftell(file);
    *text = size >= 0 ? malloc((size_t)size + 1) : NULL;
    if (*text != NULL) {
        rewind(file);
        *length = fread(*text, 1, (size_t)size, file);
        (*text)[*length] = '\0';
    }
    fclose(file);
}
