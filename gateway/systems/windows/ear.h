/* An ear: a thread that hears a card by Npcap, and sends each frame of IPX to a socket that hears itself, so that the gateway waits for it
 * as for all others. The thread waits for nobody: what the socket has no room for is lost.
 *
 * Npcap also gives back what was sent there. What the gateway itself sent is left out: each ear of the card is told of it, and leaves out one
 * frame that is the same, if it comes within a second. What other programs of this machine send is heard like what comes from the cable. */
#ifndef EAR_H
#define EAR_H

#include <stdbool.h>
#include <stddef.h>
#include <stdint.h>

typedef struct ear ear;

/* Opens a card, and hears it: frames of some kinds, of each the bit 1 << kind, and the gateway's own packets for loops. It sends them on a
 * socket. Returns NULL where that can't be; then errno has the reason. */
ear *ear_open(const char *device, bool hears_all, unsigned kinds, int fd);

/* From now on nothing is sent on the socket. Its thread ends by itself, a moment later, and closes the card. */
void ear_close(ear *it);

/* Which kinds it hears from now on. */
void ear_hears(ear *it, unsigned kinds);

typedef enum { EAR_NEW /* nothing has been read yet, not even that there is nothing */, EAR_HEARS, EAR_IS_DEAF } ear_state;

/* How it is; of one that is deaf the fault is told. */
ear_state ear_is(ear *it, int *fault);

/* Sends a frame, and whether the system took it; else errno has the reason. */
bool ear_send(ear *it, const uint8_t *frame, size_t length);

/* A frame is sent on the card, by this ear or another. */
void ear_expects(ear *it, const uint8_t *frame, size_t length);

/* It wasn't, after all. */
void ear_forgets(ear *it, const uint8_t *frame, size_t length);

#endif
