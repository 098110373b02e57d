#include "systems/windows/ear.h"

#include <errno.h>
#include <stdlib.h>
#include <string.h>

#include "ipx.h"
#include "ipxr.h"
#include "systems/datagram.h"
#include "systems/windows/echoes.h"
#include "systems/windows/faults.h"
#include "systems/windows/net.h"
#include "systems/windows/npcap.h"

enum {
    PATIENCE = 100,             /* milliseconds for which Npcap waits for a frame: so long it takes until an ear that is closed ends */
    MOST_KEPT = MOST_RECEIVED + 1, /* bytes of a frame: by one more than there is room for, it is known to be too long */
};

struct ear {
    const npcap_calls *npcap;
    npcap_card *card;
    CRITICAL_SECTION lock; /* of what follows, which two threads know */
    int fd;
    unsigned kinds;
    bool is_over;
    ear_state state;
    int fault;
    echoes sent;
};

/* ---- Frames ---- */

enum { AT_FRAME_TYPE = 12, BEHIND_TYPE = 14, BEHIND_LLC = 17, TYPE_OF_SNAP = 20, BEHIND_SNAP = 22 };
enum { IPX = 0x8137, LEAST_TYPE = 0x600, RAW = 0xFFFF, LLC = 0xE0E0, SNAP = 0xAAAA };

/* What passes Npcap's own filter, so that a busy card's other traffic wakes nobody: frames of IPX' type, or with a length and the first bytes
 * of one of the three other kinds. The codes are of BPF: load two bytes from a place; compare, equal or at least; and the answer, which is
 * how many bytes pass. */
enum { LOAD = 0x28, IS = 0x15, IS_LEAST = 0x35, ANSWER = 0x06 };
static const npcap_step OF_IPX[] = {
    {LOAD, 0, 0, AT_FRAME_TYPE},
    {IS, 7, 0, IPX},
    {IS_LEAST, 7, 0, LEAST_TYPE},
    {LOAD, 0, 0, BEHIND_TYPE},
    {IS, 4, 0, RAW},
    {IS, 3, 0, LLC},
    {IS, 0, 3, SNAP},
    {LOAD, 0, 0, TYPE_OF_SNAP},
    {IS, 0, 1, IPX},
    {ANSWER, 0, 0, MOST_KEPT},
    {ANSWER, 0, 0, 0},
};

/* The kind of a frame that passed, and where its packet begins. */
static uint8_t kind_of(const uint8_t *frame, size_t *begins)
{
    *begins = BEHIND_TYPE;
    if (get16(frame + AT_FRAME_TYPE) == IPX)
        return IPXR_FRAME_ETHERNET2;
    switch (get16(frame + BEHIND_TYPE)) {
    case LLC:
        *begins = BEHIND_LLC;
        return IPXR_FRAME_LLC;
    case SNAP:
        *begins = BEHIND_SNAP;
        return IPXR_FRAME_SNAP;
    default:
        return IPXR_FRAME_RAW;
    }
}

/* Whether a frame is for the gateway: of a kind that it hears, or, in whatever kind, a packet to its own socket for loops. */
static bool is_for_gateway(const ear *it, const uint8_t *frame, size_t length)
{
    size_t begins;
    if (length < BEHIND_SNAP)
        return false;
    uint8_t kind = kind_of(frame, &begins);
    bool is_loop = length >= begins + HEADER && get16(frame + begins + AT_TO_SOCKET) == LOOP_SOCKET;
    return is_loop || (it->kinds & 1u << kind) != 0;
}

/* ---- Hearing ---- */

/* What Npcap says of a call that isn't well: the number of the fault. */
static int fault_of(const ear *it, int answer)
{
    if (answer == NPCAP_NO_RIGHT || answer == NPCAP_NO_RIGHT_TO_HEAR_ALL)
        return EACCES;
    if (answer == NPCAP_NO_CARD)
        return ENODEV;
    if (answer == NPCAP_IS_OFF)
        return ENETDOWN;
    const char *words = it->npcap->words(it->card);
    return fault_of_words(words[0] != '\0' ? words : it->npcap->words_of(answer));
}

/* (what there is no room for is lost) */
static void hear(ear *it, const npcap_frame *about, const uint8_t *frame)
{
    size_t length = about->kept < MOST_KEPT ? about->kept : MOST_KEPT;
    if (is_for_gateway(it, frame, length) && !echo_came(&it->sent, frame, length, GetTickCount64()))
        (void)send((SOCKET)it->fd, (const char *)frame, (int)length, 0);
}

/* Takes what Npcap answered, unless the ear is over. Returns whether it is. */
static bool take(ear *it, int answer, const npcap_frame *about, const uint8_t *frame)
{
    EnterCriticalSection(&it->lock);
    bool is_over = it->is_over;
    if (answer < 0) {
        it->fault = fault_of(it, answer);
        it->state = EAR_IS_DEAF;
    } else {
        it->state = EAR_HEARS;
    }
    if (answer > 0 && !is_over)
        hear(it, about, frame);
    LeaveCriticalSection(&it->lock);
    return is_over;
}

/* Closes the card, and lets go of all. */
static void end(ear *it)
{
    it->npcap->close(it->card);
    DeleteCriticalSection(&it->lock);
    free(it);
}

/* (an ear that is deaf waits until that is known, and doesn't ask again and again meanwhile) */
static DWORD WINAPI run(void *given)
{
    ear *it = given;
    npcap_frame *about = NULL;
    const uint8_t *frame = NULL;
    int answer = 0;
    do {
        if (answer < 0)
            Sleep(PATIENCE);
        else
            answer = it->npcap->next(it->card, &about, &frame);
    } while (!take(it, answer, about, frame));
    end(it);
    return 0;
}

/* ---- Opening ---- */

/* Whether a card is heard as the gateway wants it; else errno has the reason. */
static bool is_opened(ear *it, bool hears_all)
{
    npcap_filter filter = {sizeof OF_IPX / sizeof *OF_IPX, OF_IPX};
    const npcap_calls *npcap = it->npcap;
    bool is_set = npcap->set_length(it->card, MOST_KEPT) == 0 && npcap->set_all(it->card, hears_all) == 0 &&
                  npcap->set_patience(it->card, PATIENCE) == 0 && npcap->set_at_once(it->card, 1) == 0;
    int answer = is_set ? npcap->activate(it->card) : -1;
    if (answer >= 0 && npcap->kind(it->card) != NPCAP_ETHERNET) {
        errno = EPROTOTYPE;
        return false;
    }
    if (answer >= 0)
        answer = npcap->set_filter(it->card, &filter);
    if (answer < 0)
        errno = fault_of(it, answer);
    return answer >= 0;
}

/* Begins its thread. */
static bool is_begun(ear *it)
{
    InitializeCriticalSection(&it->lock);
    HANDLE thread = CreateThread(NULL, 0, run, it, 0, NULL);
    if (thread != NULL) {
        CloseHandle(thread);
        return true;
    }
    DeleteCriticalSection(&it->lock);
    errno = ENOMEM;
    return false;
}

/* An ear with its card, which isn't heard yet. */
static ear *made(const npcap_calls *npcap, const char *device)
{
    char words[NPCAP_WORDS] = "";
    ear *it = calloc(1, sizeof *it);
    npcap_card *card = it != NULL ? npcap->create(device, words) : NULL;
    if (card == NULL) {
        errno = it != NULL ? fault_of_words(words[0] != '\0' ? words : "Npcap doesn't say why") : ENOMEM;
        free(it);
        return NULL;
    }
    it->npcap = npcap;
    it->card = card;
    return it;
}

ear *ear_open(const char *device, bool hears_all, unsigned kinds, int fd)
{
    const char *lacks;
    const npcap_calls *calls = npcap(&lacks);
    if (calls == NULL) {
        errno = fault_of_words(lacks);
        return NULL;
    }
    ear *it = made(calls, device);
    if (it == NULL)
        return NULL;
    it->fd = fd;
    it->kinds = kinds;
    if (is_opened(it, hears_all) && is_begun(it))
        return it;
    int why = errno;
    calls->close(it->card);
    free(it);
    errno = why;
    return NULL;
}

void ear_close(ear *it)
{
    EnterCriticalSection(&it->lock);
    it->is_over = true;
    LeaveCriticalSection(&it->lock);
}

/* ---- While it hears ---- */

void ear_hears(ear *it, unsigned kinds)
{
    EnterCriticalSection(&it->lock);
    it->kinds = kinds;
    LeaveCriticalSection(&it->lock);
}

ear_state ear_is(ear *it, int *fault)
{
    EnterCriticalSection(&it->lock);
    ear_state state = it->state;
    *fault = it->fault;
    LeaveCriticalSection(&it->lock);
    return state;
}

void ear_expects(ear *it, const uint8_t *frame, size_t length)
{
    EnterCriticalSection(&it->lock);
    echo_expected(&it->sent, frame, length, GetTickCount64());
    LeaveCriticalSection(&it->lock);
}

void ear_forgets(ear *it, const uint8_t *frame, size_t length)
{
    EnterCriticalSection(&it->lock);
    (void)echo_came(&it->sent, frame, length, GetTickCount64());
    LeaveCriticalSection(&it->lock);
}

bool ear_send(ear *it, const uint8_t *frame, size_t length)
{
    if (it->npcap->send(it->card, frame, (int)length) == 0)
        return true;
    errno = fault_of_words(it->npcap->words(it->card));
    return false;
}
