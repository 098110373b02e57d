/* Npcap, which gives programs the frames of Windows' cards: what the gateway calls of its wpcap.dll. The DLL is loaded when a card is wanted
 * for the first time, so that a gateway without one needs nothing of it. */
#ifndef NPCAP_H
#define NPCAP_H

#include <stdint.h>

enum { NPCAP_WORDS = 256 /* bytes of a fault's words, as the DLL has them */ };

/* A card that is open. */
typedef struct npcap_card npcap_card;

/* What stands before each frame: when it came, how many of its bytes are here, and how many it had. (a long of Windows has 32 bits) */
typedef struct npcap_frame {
    int32_t seconds, microseconds;
    uint32_t kept, length;
} npcap_frame;

/* A filter: the machine of BPF, whose steps are these. */
typedef struct npcap_step {
    uint16_t code;
    uint8_t is_so, is_not; /* steps that are left out, where what is asked is so, and where it isn't */
    uint32_t number;
} npcap_step;

typedef struct npcap_filter {
    uint32_t count;
    const npcap_step *steps;
} npcap_filter;

/* Its answers, where a call isn't well: those that the gateway tells apart. */
enum { NPCAP_NO_CARD = -5, NPCAP_NO_RIGHT = -8, NPCAP_IS_OFF = -9, NPCAP_NO_RIGHT_TO_HEAR_ALL = -11 };

/* Frames of Ethernet, as a card's are said to be. */
enum { NPCAP_ETHERNET = 1 };

typedef struct npcap_calls {
    npcap_card *(*create)(const char *device, char *words);
    int (*set_length)(npcap_card *it, int most);
    int (*set_all)(npcap_card *it, int hears_all);
    int (*set_patience)(npcap_card *it, int milliseconds);
    int (*set_at_once)(npcap_card *it, int is_at_once);
    int (*activate)(npcap_card *it);
    int (*kind)(npcap_card *it);
    int (*set_filter)(npcap_card *it, npcap_filter *filter);
    int (*next)(npcap_card *it, npcap_frame **about, const uint8_t **bytes); /* 1 a frame, 0 none until patience ends; or a fault */
    int (*send)(npcap_card *it, const uint8_t *bytes, int length);
    char *(*words)(npcap_card *it);
    const char *(*words_of)(int answer);
    void (*close)(npcap_card *it);
} npcap_calls;

/* Its calls, or NULL where it can't be had; then `lacks` is told why, in words that stay. */
const npcap_calls *npcap(const char **lacks);

#endif
