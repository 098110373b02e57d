/* The made-up system's descriptors, and what lies behind them: what has come and wasn't received yet, and who is at the other end. A number
 * that isn't open, or is another thing, is a fault of who uses it. */
#ifndef DESCRIPTORS_H
#define DESCRIPTORS_H

#include <stdbool.h>
#include <stddef.h>
#include <stdint.h>

#include "systems/address.h"
#include "systems/datagram.h"

enum {
    FIRST_DESCRIPTOR = 3,
    MOST_DESCRIPTORS = 320,
    MOST_MESSAGES = 400,  /* that wait on one */
    MOST_CALLING = 32,    /* connections that wait on one */
    MOST_BYTES = 1 << 17, /* that wait on a connection */
    MUCH = 1 << 30,       /* bytes that somebody takes who takes all */
    NAME_OF_CARD = 16,
};

typedef enum { CLOSED, DATAGRAMS, LISTENER, CONNECTION, TAP, CARD, STATUS, VIEWER, GROUP, SPEAKER, CALL, PORT } what;

/* A datagram or a frame that has come. */
typedef struct message {
    struct message *next;
    address from;
    bool is_sent;  /* a frame: this machine sends it */
    size_t length; /* it may be more than there is of its bytes */
    uint8_t bytes[];
} message;

typedef enum { UNDER_WAY, CONNECTED, CUT } stage;

typedef struct descriptor {
    what is;
    address local, remote;
    bool has_remote;
    /* of datagrams and frames */
    message *first, *last;
    size_t count;
    bool is_complained; /* somebody said that nobody hears there; or a switch says something */
    /* of cards and TAPs */
    char name[NAME_OF_CARD];
    unsigned index;
    unsigned kinds; /* of frames that it hears: of each the bit 1 << kind */
    /* of what listens: who calls */
    address calling[MOST_CALLING];
    size_t calls;
    /* of a connection */
    stage stage;
    int fault;        /* of one that is cut; 0 where it was closed */
    uint8_t *bytes;   /* that have come, */
    size_t from, end; /* between these */
    size_t takes;     /* bytes that it takes before it says that there is no room */
    bool is_dead;     /* nobody acknowledges anything */
    bool is_own;      /* it is connected with itself */
    unsigned long taken; /* bytes that it took */
    uint8_t last_bytes[2]; /* and the last of them */
} descriptor;

/* One that is open and is such a thing; anything else is a fault. */
descriptor *descriptor_at(int fd, what is);

/* One that is open, or NULL. */
descriptor *descriptor_if_open(int fd);

/* Opens one: the lowest number that is free. Returns -1 where there are too many; errno says so. */
int descriptor_open(what is);
void descriptor_close(int fd);

size_t descriptors_open(void);

/* Any that is such a thing, or -1. */
int descriptor_any(what is);

/* A datagram or frame comes; a frame that this machine sends is seen; bytes come on a connection; somebody calls. What finds no room is lost. */
void comes(descriptor *it, const address *from, const uint8_t *bytes, size_t length);
void is_seen(descriptor *it, const uint8_t *frame, size_t length);
void bytes_come(descriptor *it, const uint8_t *bytes, size_t length);
void somebody_calls(descriptor *it, const address *from);

/* Whether something is to be received. */
bool has_something(const descriptor *it);

/* Takes the next message away; it is the caller's to give back. NULL where there is none. */
message *next_message(descriptor *it);

/* Takes the next message, as far as there is room. */
void take_next(descriptor *it, arrival *into);

#endif
