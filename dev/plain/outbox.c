/* Packets to be sent: their bytes in one buffer, one behind the other. */
#include <stdio.h>
#include <stdlib.h>

#include "inside.h"

void *grown(void *block, size_t count, size_t size)
{
    void *larger = reallocarray(block, count ? count : 1, size);
    if (!larger) {
        fputs("out of memory\n", stderr);
        exit(1);
    }
    return larger;
}

uint8_t *outbox_room(plain_outbox *out, size_t length)
{
    if (out->room - out->used < length) {
        out->room = 2 * (out->used + length);
        out->bytes = grown(out->bytes, out->room, 1);
    }
    return out->bytes + out->used;
}

void outbox_end(plain_outbox *out, uint8_t port, uint64_t link, size_t length)
{
    if (out->count == out->most) {
        out->most = 2 * out->most + 8;
        out->sent = grown(out->sent, out->most, sizeof *out->sent);
    }
    out->sent[out->count++] = (plain_sent){.link = link, .start = out->used, .length = length, .port = port};
    out->used += length;
}
