#include "web/response.h"

#include <stdio.h>
#include <string.h>

static const char *reason_of(int status)
{
    switch (status) {
    case HTTP_OK:
        return "OK";
    case HTTP_FORBIDDEN:
        return "Forbidden";
    case HTTP_NOT_FOUND:
        return "Not Found";
    case HTTP_NOT_ALLOWED:
        return "Method Not Allowed";
    case HTTP_UPGRADE_REQUIRED:
        return "Upgrade Required";
    case HTTP_HEAD_TOO_LONG:
        return "Request Header Fields Too Large";
    case HTTP_UNAVAILABLE:
        return "Service Unavailable";
    case HTTP_OTHER_VERSION:
        return "HTTP Version Not Supported";
    default:
        return "Bad Request";
    }
}

size_t response_write(char room[RESPONSE_ROOM], int status, const char *fields, const char *sentence)
{
    int length = snprintf(room, RESPONSE_ROOM, "HTTP/1.1 %d %s\r\n%sContent-Type: text/plain; charset=utf-8\r\nContent-Length: %zu\r\n"
                          "Connection: close\r\n\r\n%s\n", status, reason_of(status), fields != NULL ? fields : "", strlen(sentence) + 1,
                          sentence);
    return length < 0 ? 0 : length < RESPONSE_ROOM ? (size_t)length : RESPONSE_ROOM - 1;
}
