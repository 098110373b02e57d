#include "systems/windows/text.h"

#include <stdlib.h>

#include "systems/windows/net.h"

char *text_to_utf8(const wchar_t *text)
{
    int size = WideCharToMultiByte(CP_UTF8, 0, text, -1, NULL, 0, NULL, NULL);
    char *made = size > 0 ? malloc((size_t)size) : NULL;
    if (made != NULL)
        WideCharToMultiByte(CP_UTF8, 0, text, -1, made, size, NULL, NULL);
    return made;
}

wchar_t *text_of_utf8(const char *text)
{
    int size = MultiByteToWideChar(CP_UTF8, 0, text, -1, NULL, 0);
    wchar_t *made = size > 0 ? malloc((size_t)size * sizeof *made) : NULL;
    if (made != NULL)
        MultiByteToWideChar(CP_UTF8, 0, text, -1, made, size);
    return made;
}
