/* The head of an HTTP request (RFC 9112), as it comes: its method, its path, and of its fields those that this gateway asks for. It takes no
 * memory and copies nothing: what it tells lies in the bytes that it was given. A body isn't read. */
#ifndef REQUEST_H
#define REQUEST_H

#include <stdbool.h>
#include <stddef.h>

/* Bytes of the longest head that is heard. */
enum { REQUEST_ROOM = 8192 };

/* Statuses of an answer. */
typedef enum {
    HTTP_SWITCHING = 101,
    HTTP_OK = 200,
    HTTP_BAD = 400,
    HTTP_FORBIDDEN = 403,
    HTTP_NOT_FOUND = 404,
    HTTP_NOT_ALLOWED = 405,
    HTTP_UPGRADE_REQUIRED = 426,
    HTTP_HEAD_TOO_LONG = 431,
    HTTP_UNAVAILABLE = 503,
    HTTP_OTHER_VERSION = 505,
} http_status;

/* Some bytes of the head; none, and NULL, where it doesn't say them. */
typedef struct piece {
    const char *text;
    size_t length;
} piece;

/* All bytes 0, nothing has come. */
typedef struct request {
    size_t seen;               /* bytes of the lines that were read */
    piece method;
    piece path;                /* up to a question mark, */
    piece query;               /* and what is behind it */
    unsigned minor;            /* of the version: 1 of HTTP/1.1 */
    piece host, origin;
    piece key, version;        /* Sec-WebSocket-Key and -Version */
    bool wants_upgrade;        /* Connection has the word upgrade, */
    bool wants_websocket;      /* and Upgrade the word websocket; */
    bool offers_binary;        /* and Sec-WebSocket-Protocol the word binary */
    bool has_body;
} request;

/* Reads what has come: all bytes from the first on, which stay where they are while more come behind them, at most REQUEST_ROOM in all.
 * Returns 0 while the head isn't whole; HTTP_OK where it is, and then it has `seen` bytes; else the status that is due. */
int request_read(request *it, const char *bytes, size_t count);

/* Whether a piece is a text; and whether it is, capitals or not. */
bool piece_is(const piece *it, const char *text);
bool piece_is_like(const piece *it, const char *text);

#endif
