/* Texts of Windows, and of the gateway, which are in UTF-8. Each is in memory of its own, or NULL where there is none. */
#ifndef TEXT_H
#define TEXT_H

#include <wchar.h>

char *text_to_utf8(const wchar_t *text);
wchar_t *text_of_utf8(const char *text);

#endif
