/* A connection that carries frames, each behind its length in four bytes, highest first. */
#ifndef STREAM_H
#define STREAM_H

#include <stdbool.h>
#include <stddef.h>
#include <stdint.h>
#include <sys/types.h>

enum { STREAM_ROOM = 65536 };

typedef struct stream {
    bool is_connected;
    size_t taken, in;           /* bytes that came: the first were taken as frames */
    size_t out;                 /* bytes that the connection hasn't taken yet */
    uint8_t coming[STREAM_ROOM];
    uint8_t going[STREAM_ROOM];
} stream;

/* Forgets what is under way. */
void stream_clear(stream *it);

/* Reads what has come, where no whole frame is there. Returns false where the connection is lost, or what came isn't frames. */
bool stream_looks(stream *it, int fd);

/* Whether a whole frame has come that wasn't taken yet. */
bool stream_has_frame(const stream *it);

/* The next frame's length, its first bytes copied; -1 where there is none yet, and errno is what may_pass (fault.h) unless the connection is
 * lost. */
ssize_t stream_receive(stream *it, int fd, uint8_t *frame, size_t room);

/* Takes a frame to be sent, or none of it where there is no room. */
bool stream_send(stream *it, int fd, const uint8_t *frame, size_t length);

/* Sends what is under way. Returns false where the connection is lost. */
bool stream_push(stream *it, int fd);

#endif
