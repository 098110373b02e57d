/* The cards of the made-up machine, which come and go. */
#ifndef CARDS_H
#define CARDS_H

#include "systems/card.h"

enum { MOST_CARDS = 6 };

typedef struct made_card {
    const char *name;
    card_state state;
    unsigned index; /* another one each time that it comes */
    uint8_t address[6];
    bool is_ethernet;
} made_card;

/* A card by its name; NULL where the machine never has one of that name. */
made_card *card_named(const char *name);

/* One of them, and what may happen to it: it goes, comes, is switched off and on, loses its carrier, or has another address. */
made_card *any_card(void);
void card_changes(made_card *it);

/* How the machine has them at the start. */
void cards_begin(void);

#endif
