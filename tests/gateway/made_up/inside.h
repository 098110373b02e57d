/* What the gateway's files keep to themselves, for the checks: each file inside_*.c is one of them with a few functions more. */
#ifndef INSIDE_H
#define INSIDE_H

#include "gateway.h"

/* Descriptors of the status socket: of those who ask, and where they come in. */
size_t status_descriptors(void);

/* The same of links by WebSocket. And the page that has a descriptor, or NULL; and whether it is one where they come in. */
size_t web_descriptors(void);
page *page_at(int fd);
bool is_site(int fd);

/* Each page has what it says, and is at its link once. */
void pages_are_well(void);

/* Whether somebody who asks has more to be sent than there is room for, or less than nothing. */
void status_is_well(void);

/* The same of the status' page, and where browsers come in; a browser that is connected, the first from a number on, or -1. */
size_t status_page_descriptors(void);
void status_page_is_well(void);
int status_page_listener(void);
int status_page_any_visitor(size_t from);

/* Looks at each address that is known: its clients are those of the lists of clients, and numbers of queues are counted right; and whether
 * none is known. */
void speakers_are_well(gateway *it);
bool speakers_are_gone(void);

/* The same of a narrow line. */
void line_is_well(gateway *it);
bool line_is_unused(void);

/* What is counted of all queues of somebody must be so, whoever he is: of packets alone, and of their bytes, too; and of what all links
 * with frames tell the router. */
void queues_are_well(const ipxr_fair *it, const char *whose);
void receiver_is_well(const receiver *it, const char *whose);
void links_are_well(void);

#endif
