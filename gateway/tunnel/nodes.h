/* The nodes of clients: a keyed hash of the place of each, which its registration's answer tells. So a node tells nobody where its client is,
 * and whoever names one has received the answer. The key is kept from one start to the next, so that each place keeps its node. */
#ifndef NODES_H
#define NODES_H

#include <stdbool.h>
#include <stdint.h>

#include "siphash.h"

/* The key that was kept, or a new one, which is kept from now on where that can be. Returns false where the system has no random numbers; errno
 * has the reason. */
bool nodes_begin(uint8_t key[SIPHASH_KEY]);

/* Tells once that the key can't be kept, if it can't, and what that means. */
void nodes_tell(void);

/* The node of a place: 40 bits of it are the hash. (a program's connection may have the address and port that another's datagrams have, and is
 * another place) */
void node_make(const uint8_t key[SIPHASH_KEY], const uint8_t place[6], bool is_connection, uint8_t node[6]);

#endif
