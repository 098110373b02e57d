/* An answer of the status socket, as it is written and read. Its first byte says where it is to be shown; behind its text stand a
 * byte 0, and a digit: whether all is well. */
#ifndef ANSWER_H
#define ANSWER_H

enum { MOST_ASKED = 256 /* bytes of a question, which is a line */ };

#define FOR_OUTPUT '+'
#define FOR_COMPLAINTS '-'
#define IS_WELL '0'
#define IS_NOT_WELL '1'

/* The sections that can be shown, in words. */
#define SECTION_WORDS "links, clients, stations, peers, routes, services, edge, counts or events"

#endif
