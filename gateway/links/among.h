/* Frames among several who share one link, pages or places, as a switch carries them: each goes to the one whose node it is for, or to all where
 * that isn't known. Of what each of them receives the others have equal parts, so that whoever says little loses nothing, whatever others say.
 * Each has a number. */
#ifndef AMONG_H
#define AMONG_H

#include <stdbool.h>
#include <stddef.h>
#include <stdint.h>

#include "configuration/settings.h"
#include "ipxr_limits.h"
#include "limits/receiver.h"

enum {
    OWNERS = 256,           /* nodes of stations that are remembered, */
    OF_ALL = 0,             /* and whose they are, by number: nobody's that is known, */
    OF_GATEWAY = 255,       /* the gateway's, or somebody's behind it, */
    MOST_NUMBER = 240,      /* or that of one of these */
};

/* Where a node was heard last, by frames that name it as their source. */
typedef struct owner {
    uint8_t node[6];
    uint8_t whose;
    uint64_t heard; /* milliseconds of the clock */
} owner;

typedef struct among {
    ipxr_limits limits;  /* of what they say, */
    bool has_no_limit;
    receiver heard;      /* and what the gateway hears of each of them */
    uint8_t node[6];     /* the gateway's own there, which no station takes, */
    owner owners[OWNERS]; /* and whose the others are */
} among;

/* The key of the hash that finds a node, which nobody else may know. */
void among_key(const uint8_t key[16]);

/* How much they may say to each other and to the gateway, by a configuration. */
void among_follow(among *it, const network_setting *set);

/* Somebody, or the gateway, says a frame, which holds its nodes at least. Returns for whom it is. */
uint8_t among_says(among *it, uint8_t who, const uint8_t *frame);

/* Whether somebody who receives has room for what one says. */
bool among_lets(const among *it, receiver *to, uint8_t by, size_t length);

/* One has gone: its nodes are nobody's. */
void among_forgets(among *it, uint8_t who);

#endif
