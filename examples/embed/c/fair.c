/* A client of a tunnel reads 1,000 packets a second. Five players speak to it, each 35 times a second, and for a while somebody floods it
 * with 2,000. What it is sent in each second is counted. */
#include <stdio.h>

#include "ipxr_fair.h"

enum { PLAYERS = 5, FLOOD = PLAYERS, SECONDS = 6, FIRST_OF_FLOOD = 1, LAST_OF_FLOOD = 3 };

/* Times in nanoseconds: a packet's, and those from one packet of somebody to his next one. */
static const uint64_t SECOND = 1000000000, PACKET = 1000000, OF_PLAYER = 1000000000 / 35, OF_FLOOD = 500000;

/* What one speaker said in a second, and what was sent of it. */
typedef struct count {
    unsigned said, heard;
} count;

static void say(ipxr_fair *client, uint8_t speaker, count *counted)
{
    counted->said++;
    counted->heard += ipxr_fair_says(client, speaker, PACKET);
}

/* Whether somebody who speaks so often says a packet between two moments. */
static bool speaks(uint64_t before, uint64_t now, uint64_t often)
{
    return before / often != now / often;
}

static void pass_second(ipxr_fair *client, uint64_t *clock, bool is_flooded, count *players, count *flood)
{
    for (uint64_t end = *clock + SECOND, before = *clock; before < end; before = *clock) {
        ipxr_fair_look(client, clock, before + OF_FLOOD);
        for (uint8_t k = 0; k < PLAYERS; k++)
            if (speaks(before + k * PACKET, *clock + k * PACKET, OF_PLAYER))
                say(client, k, players);
        if (is_flooded)
            say(client, FLOOD, flood);
    }
}

int main(void)
{
    const ipxr_fair_setting setting = {2000000, 12000000, 100000000, 150000000};
    ipxr_fair client = {.left = 0};
    uint64_t clock = 0;
    if (!ipxr_fair_make(&client, &setting))
        return 1;
    for (int second = 0; second < SECONDS; second++) {
        count players = {0, 0}, flood = {0, 0};
        pass_second(&client, &clock, second >= FIRST_OF_FLOOD && second <= LAST_OF_FLOOD, &players, &flood);
        printf("second %d: players %u of %u, flood %u of %u; %u queues wait\n", second, players.heard, players.said, flood.heard, flood.said,
               (unsigned)client.waits);
    }
    return 0;
}
