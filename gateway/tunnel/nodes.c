#include "tunnel/nodes.h"

#include <errno.h>
#include <string.h>

#include "ipx.h"
#include "monitoring/note.h"
#include "systems/keeping.h"
#include "systems/system.h"

#define NAME "nodes.key"

/* What became of the key when the gateway began, with the system's number for it. */
static struct {
    kept became;
    int fault;
    bool is_told;
} at_start;

bool nodes_begin(uint8_t key[SIPHASH_KEY])
{
    at_start.is_told = false;
    at_start.became = keeping_read(NAME, key, SIPHASH_KEY);
    at_start.fault = errno;
    if (at_start.became == IS_KEPT)
        return true;
    if (!system_random(key, SIPHASH_KEY))
        return false;
    if (at_start.became == IS_NOT_YET) {
        at_start.became = keeping_write(NAME, key, SIPHASH_KEY);
        at_start.fault = errno;
    }
    return true;
}

/* Why it isn't kept. */
static const char *reason_of(kept became, int fault)
{
    errno = fault;
    return became == HAS_NO_FOLDER ? "no STATE_DIRECTORY to keep their key" : became == IS_ANOTHER ? NAME " is no file with a key" : fault_words();
}

void nodes_tell(void)
{
    if (at_start.became == IS_KEPT || at_start.is_told)
        return;
    at_start.is_told = true;
    event("clients get other nodes at each start, and have to connect again then: %s%s",
          at_start.became == CANT_BE_KEPT ? NAME " can't be kept: " : "", reason_of(at_start.became, at_start.fault));
}

void node_make(const uint8_t key[SIPHASH_KEY], const uint8_t place[NODE], bool is_connection, uint8_t node[NODE])
{
    uint8_t text[NODE + 1] = {0};
    memcpy(text, place, NODE);
    uint64_t hash = siphash(key, text, is_connection ? sizeof text : NODE);
    node[0] = LOCAL_NODE;
    for (int k = 1; k < NODE; k++)
        node[k] = (uint8_t)(hash >> 8 * k);
}
