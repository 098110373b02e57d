/* For the tests on Windows: a wpcap.dll in place of Npcap's. Each card that is opened is a socket, by which it speaks with the test at the UDP
 * port that WPCAP_PORT names. The first byte of a datagram says what it is:
 *
 *     O  to the test: the card was opened; its device, whether it hears all, and the most bytes of a frame, each behind a blank
 *     F  a frame: to the test, since it was sent; or from it, since it comes: then it passes the filter, as BPF's machine says
 *     L  from the test: reading fails from now on, for which the words behind it are told
 *
 * Nothing is opened where WPCAP_REFUSES has words: these are told; and where WPCAP_SILENT has, without a word. Where WPCAP_UNREADABLE has, cards
 * are opened, and can't be read; and where WPCAP_SLOW has a number, opening one takes so many milliseconds. */
#include <stdbool.h>
#include <stdint.h>
#include <stdio.h>
#include <stdlib.h>
#include <string.h>
#include <winsock2.h>

enum { MOST = 65536, WORDS = 256, FAULT = -1, ETHERNET = 1 };

/* What a frame is told with. */
struct told {
    long seconds, microseconds;
    unsigned kept, length;
};

struct step {
    unsigned short code;
    unsigned char is_so, is_not;
    unsigned number;
};

struct filter {
    unsigned count;
    const struct step *steps;
};

typedef struct pcap {
    SOCKET socket;
    char device[WORDS], words[WORDS];
    int length, hears_all, patience;
    bool is_lost;
    struct step steps[64];
    unsigned count;
    struct told told;
    uint8_t bytes[MOST];
} pcap;

__declspec(dllexport) pcap *pcap_create(const char *device, char *words)
{
    pcap *it = getenv("WPCAP_SILENT") == NULL ? calloc(1, sizeof *it) : NULL;
    (void)words;
    if (it == NULL)
        return NULL;
    it->socket = INVALID_SOCKET;
    it->length = MOST;
    snprintf(it->device, sizeof it->device, "%s", device);
    return it;
}

__declspec(dllexport) int pcap_set_snaplen(pcap *it, int length)
{
    it->length = length;
    return 0;
}

__declspec(dllexport) int pcap_set_promisc(pcap *it, int hears_all)
{
    it->hears_all = hears_all;
    return 0;
}

__declspec(dllexport) int pcap_set_timeout(pcap *it, int patience)
{
    it->patience = patience;
    return 0;
}

/* (a frame is told at once, whoever wants it so) */
__declspec(dllexport) int pcap_set_immediate_mode(pcap *it, int at_once)
{
    (void)it;
    return at_once ? 0 : FAULT;
}

/* Whether a variable has words; then they are the fault's. */
static bool has_fault(pcap *it, const char *variable)
{
    const char *words = getenv(variable);
    if (words == NULL)
        return false;
    snprintf(it->words, sizeof it->words, "%s", words);
    return true;
}

__declspec(dllexport) int pcap_activate(pcap *it)
{
    struct sockaddr_in to = {.sin_family = AF_INET, .sin_addr.s_addr = htonl(INADDR_LOOPBACK)};
    const char *port = getenv("WPCAP_PORT"), *slow = getenv("WPCAP_SLOW");
    DWORD patience = (DWORD)it->patience;
    char told[2 * WORDS];
    if (has_fault(it, "WPCAP_REFUSES"))
        return FAULT;
    Sleep(slow != NULL ? (DWORD)atoi(slow) : 0);
    it->is_lost = has_fault(it, "WPCAP_UNREADABLE");
    to.sin_port = htons((u_short)atoi(port != NULL ? port : "0"));
    it->socket = socket(AF_INET, SOCK_DGRAM, 0);
    setsockopt(it->socket, SOL_SOCKET, SO_RCVTIMEO, (const char *)&patience, sizeof patience);
    if (connect(it->socket, (const struct sockaddr *)&to, sizeof to) != 0) {
        strcpy(it->words, "no test listens");
        return FAULT;
    }
    int length = snprintf(told, sizeof told, "O%s %d %d", it->device, it->hears_all, it->length);
    send(it->socket, told, length, 0);
    return 0;
}

__declspec(dllexport) int pcap_datalink(pcap *it)
{
    (void)it;
    return ETHERNET;
}

__declspec(dllexport) int pcap_setfilter(pcap *it, const struct filter *filter)
{
    if (filter->count > sizeof it->steps / sizeof *it->steps)
        return FAULT;
    it->count = filter->count;
    memcpy(it->steps, filter->steps, filter->count * sizeof *filter->steps);
    return 0;
}

/* Two bytes of a frame; what reads behind its end lets nothing pass. */
static bool is_loaded(const uint8_t *frame, unsigned length, unsigned at, unsigned *loaded)
{
    if (at + 2 > length)
        return false;
    *loaded = (unsigned)frame[at] << 8 | frame[at + 1];
    return true;
}

/* How many bytes of a frame a filter lets pass. */
static unsigned passes(const pcap *it, const uint8_t *frame, unsigned length)
{
    unsigned loaded = 0;
    for (unsigned k = 0; k < it->count; k++) {
        const struct step *next = &it->steps[k];
        if (next->code == 0x06)
            return next->number;
        if (next->code == 0x28 && !is_loaded(frame, length, next->number, &loaded))
            return 0;
        if (next->code == 0x15)
            k += loaded == next->number ? next->is_so : next->is_not;
        else if (next->code == 0x35)
            k += loaded >= next->number ? next->is_so : next->is_not;
    }
    return 0;
}

/* Takes what the test says. Returns 1 where it is a frame that passes. */
static int taken(pcap *it, int count)
{
    if (it->bytes[0] == 'L') {
        it->is_lost = true;
        snprintf(it->words, sizeof it->words, "%.*s", count - 1, (const char *)it->bytes + 1);
        return FAULT;
    }
    unsigned length = (unsigned)count - 1, kept = passes(it, it->bytes + 1, length);
    kept = kept < length ? kept : length;
    it->told = (struct told){.kept = kept < (unsigned)it->length ? kept : (unsigned)it->length, .length = length};
    return kept > 0;
}

__declspec(dllexport) int pcap_next_ex(pcap *it, struct told **told, const uint8_t **bytes)
{
    if (it->is_lost)
        return FAULT;
    int count = recv(it->socket, (char *)it->bytes, sizeof it->bytes, 0);
    if (count <= 0)
        return 0;
    *told = &it->told;
    *bytes = it->bytes + 1;
    return taken(it, count);
}

__declspec(dllexport) int pcap_sendpacket(pcap *it, const uint8_t *bytes, int length)
{
    char said[MOST] = "F";
    memcpy(said + 1, bytes, (size_t)length);
    return send(it->socket, said, length + 1, 0) == length + 1 ? 0 : FAULT;
}

__declspec(dllexport) const char *pcap_geterr(pcap *it)
{
    return it->words;
}

__declspec(dllexport) const char *pcap_statustostr(int answer)
{
    (void)answer;
    return "another fault";
}

__declspec(dllexport) void pcap_close(pcap *it)
{
    closesocket(it->socket);
    free(it);
}
