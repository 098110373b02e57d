/* The cards of Windows, as the system knows them: Ethernet, and what looks like it, as a WLAN does. */
#ifndef ADAPTERS_H
#define ADAPTERS_H

#include <stdbool.h>
#include <stddef.h>
#include <stdint.h>

#include "systems/card.h"

enum { DEVICE_ROOM = 64 /* bytes of the name by which Npcap opens a card, with the 0 behind */ };

typedef struct adapter {
    unsigned index;      /* Windows' number of it, which may be another after a restart */
    card_state state;
    uint8_t card[6];     /* its own address */
    char device[DEVICE_ROOM];
    char name[CARD_NAME_ROOM]; /* as Windows shows it, in UTF-8; where it is longer, how it begins */
} adapter;

typedef enum { ADAPTER_UNKNOWN /* Windows can't say it now */, ADAPTER_ABSENT, ADAPTER_FOUND } adapter_found;

/* The card that has a name, capital letters or small; or else the one that `if` and a number name. */
adapter_found adapter_named(const char *name, adapter *it);

/* The card that has a number. Returns whether there is one. */
bool adapter_numbered(unsigned index, adapter *it);

/* The cards that are there, in Windows' order, as many as there is room for. Returns how many. */
size_t adapters_all(adapter *list, size_t room);

#endif
