/* The other end of a link: an address that the configuration says, or a name of a machine, whose address may change. A name is asked for
 * while packets pass, and nothing waits for the answer. */
#ifndef REMOTE_H
#define REMOTE_H

#include <stdbool.h>
#include <stdint.h>

#include "configuration/settings.h"
#include "systems/address.h"
#include "systems/resolver.h"

struct question;

/* The other end as a configuration says it. */
typedef struct far_end {
    const char *host; /* its name, or "": then it is the address, */
    address at;       /* whose port it has in any case; */
    wanted which;     /* which of the name's addresses may be used; */
    size_t *asking;   /* and how many names of its link are asked for now, where that may name several; else NULL */
} far_end;

typedef struct remote {
    bool is_known;
    address at;                /* where it is, if that is known */
    answers found;             /* all addresses of the name, */
    size_t turn;               /* and which of them that is */
    struct question *question; /* that is under way, or NULL */
    size_t *asking;            /* what counts it then, or NULL, */
    uint64_t asked;            /* and milliseconds of the clock when one was last asked, or 0 */
} remote;

/* What a link lacks whose other end isn't known. */
extern const char REMOTE_UNKNOWN[];

/* The other end of a link. */
far_end far_end_of(const network_setting *set);

/* A name is asked for. */
void remote_begin(remote *it, const far_end *of);

/* Hears the answer where there is one, and asks again after a minute where that is wanted. Returns whether the address in use is another
 * one now. It stays as long as the name has it among its addresses, or isn't known any more. */
bool remote_look(remote *it, const far_end *of, bool is_wanted);

/* Nobody is at the address in use: the next one of the name has its turn. */
void remote_fails(remote *it);

/* Lets go of a question that is under way. */
void remote_end(remote *it);

#endif
