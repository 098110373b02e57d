/* A trial beside other routers: for some minutes what they say is noted, beside what the gateway does anyway, and each minute they are asked for
 * all routes and for the nearest server. At the end a text tells of each neighbour what was seen, which its owner can send to others. The
 * router hears what it hears without a trial: the answers are for a socket where it doesn't listen. */
#ifndef TRIAL_H
#define TRIAL_H

#include <stdbool.h>

#include "gateway.h"

/* Where the text and the capture of a trial are written, and how many minutes it takes where nothing is said of it, and at most. */
#define TRIAL_TEXT "ipxr-try.txt"
#define TRIAL_CAPTURE "ipxr-try.pcap"
enum { USUAL_TRIAL = 10, LONGEST_TRIAL = 1440 };

/* Begins a trial of so many minutes. Returns false where its text can't be opened; errno has the reason. */
bool trial_begin(unsigned minutes);

/* What became of a packet that came with frames. Without a trial, nothing is noted. */
void trial_hears(const arrived *what, const ipxr_course *way);

/* Asks, once a minute. */
void trial_turn(gateway *it);

/* Whether its minutes are over; never without a trial. */
bool trial_is_over(void);

/* Writes the text, and says where it is. Returns false where it can't be written; errno has the reason. */
bool trial_end(gateway *it, const char *configuration);

#endif
