/* The frames of a WebSocket (RFC 6455, chapter 5) as a server reads and writes them: binary messages of a bounded length, in however many
 * frames. It has no socket and takes no memory. */
#ifndef WEBSOCKET_H
#define WEBSOCKET_H

#include <stdbool.h>
#include <stddef.h>
#include <stdint.h>

enum {
    MESSAGE_ROOM = 2048,  /* bytes of the longest message that any link here has */
    CONTROL_ROOM = 125,   /* bytes that a control frame has at most */
    HEAD_ROOM = 4,        /* bytes in front of what a server sends */
    LONGEST_PIECE = 14 + MESSAGE_ROOM, /* bytes of the longest frame that is taken, with what is in front */
};

/* What a frame is, by its number. */
enum { FRAME_MORE = 0, FRAME_TEXT = 1, FRAME_BINARY = 2, FRAME_CLOSE = 8, FRAME_PING = 9, FRAME_PONG = 10 };

/* Why a WebSocket is closed. */
enum {
    CLOSED_WELL = 1000,
    CLOSED_GOING_AWAY = 1001,
    CLOSED_WRONG = 1002,     /* what came isn't as RFC 6455 has it */
    CLOSED_NOT_TAKEN = 1003, /* a text */
    CLOSED_WITHOUT = 1005,   /* nobody said why: this number is never sent */
    CLOSED_NO_TEXT = 1007,   /* a reason that isn't UTF-8 */
    CLOSED_NOT_NOW = 1008,
    CLOSED_TOO_LONG = 1009,
};

typedef enum {
    SAID_PART,    /* no whole frame is there yet; */
    SAID_NOTHING, /* or one of which nothing follows: a part of a message, a pong */
    SAID_MESSAGE, /* `message`, with `length` bytes */
    SAID_PING,    /* `control`, to be answered by the same */
    SAID_CLOSE,   /* for `status` */
    SAID_WRONG,   /* it is to be closed for `status` */
} said;

/* All bytes 0 but for `most`, nothing has come. */
typedef struct websocket {
    size_t most;          /* bytes of the longest message, at most MESSAGE_ROOM */
    bool is_under_way;    /* a message is, of which not all frames have come */
    size_t length;        /* what is there of it, */
    uint8_t message[MESSAGE_ROOM]; /* and which bytes these are */
    uint16_t status;
    const uint8_t *control; /* what a ping holds, which lies in what was read */
    size_t control_length;
} websocket;

/* Reads the next frame of what has come, and tells how many bytes it has; its mask is taken off in place. A message stays until the next is
 * read. Behind a close, or what is wrong, nothing is to be read. */
said websocket_read(websocket *it, uint8_t *bytes, size_t count, size_t *taken);

/* Writes what stands in front of so many bytes, at most 65535, in one frame. Returns how many it has. */
size_t websocket_head(uint8_t head[HEAD_ROOM], unsigned number, size_t length);

#endif
