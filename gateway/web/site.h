/* Where pages come in: a listener at an address, which all links there share. Whoever comes in asks for a path by HTTP, and is a page of its link
 * from then on. All connections are in one list, of a bounded length. */
#ifndef SITE_H
#define SITE_H

#include <stdbool.h>
#include <stddef.h>

#include "configuration/settings.h"
#include "systems/watch.h"
#include "web/page.h"

typedef struct site {
    size_t links;   /* that share it; 0 where there is none */
    address asked;  /* its address as the configuration has it, */
    address local;  /* and with the port that it took */
    int fd;
    bool has_come;  /* somebody waits to be taken */
    bool rests;     /* the system had no room for one more connection, which was told, */
    uint64_t rested; /* milliseconds of the clock when it was asked last */
    uint64_t refused; /* milliseconds of the clock when somebody was told last who found no room, or 0 */
} site;

/* The listener at an address, for one more link; or NULL, and errno has the reason. It is told the port. */
site *site_open(const network_setting *set, address *local);
void site_close(site *it);

/* Whether there is room for one more page of any link. */
bool site_has_room(void);

/* What all wait for; and what has come of it. */
size_t sites_wait(watch *list);
void sites_attend(const watch *list, size_t count);

/* As much goes as is taken. */
void sites_push(void);

/* A second has passed: who asks too slowly, takes nothing or can't be reached goes. */
void sites_second(void);

/* Those who have gone are forgotten. */
void sites_forget(void);

#endif
