#include "browsers.h"

#include <errno.h>
#include <string.h>

#include "chance.h"
#include "descriptors.h"
#include "inside.h"
#include "play.h"

enum { LONGEST_REQUEST = 9000, OF_SEEDS = 8 };

#define HOST "Host: 127.0.0.1\r\n"

static const char *const REQUESTS[] = {
    "GET / HTTP/1.1\r\n" HOST "\r\n", "GET /status.json HTTP/1.1\r\n" HOST "\r\n", "GET /metrics HTTP/1.1\r\n" HOST "\r\n",
    "GET /status.json HTTP/1.0\r\n\r\n", "HEAD /status.json HTTP/1.1\r\n" HOST "\r\n", "GET /other HTTP/1.1\r\n" HOST "\r\n",
    "POST / HTTP/1.1\r\n" HOST "Content-Length: 3\r\n\r\nabc", "GET / HTTP/1.1\r\nHost: other.example\r\n\r\n", "GET / HTTP/1.1\r\n\r\n",
    "GET /status.json HTTP/1.1\r\n" HOST "\r\nGET / HTTP/1.1\r\n" HOST "\r\n", "\r\n\r\n", "PRI * HTTP/2.0\r\n\r\n", "show links json\n",
};
enum { REQUEST_COUNT = sizeof REQUESTS / sizeof *REQUESTS };

bool has_page(void)
{
    unsigned part = (unsigned)(the_play.seed % OF_SEEDS);
    return part == 0 || part == 5 || part == 7;
}

static descriptor *somebody(void)
{
    int fd = status_page_any_visitor(below(MOST_DESCRIPTORS));
    return fd >= 0 ? descriptor_at(fd, CONNECTION) : NULL;
}

static void somebody_comes(void)
{
    address from = {.host = {10, 0, 2, (uint8_t)below(9)}, .port = (uint16_t)between(50000, 50099)};
    for (unsigned k = one_in(8) ? between(2, 20) : 1; k > 0 && status_page_listener() >= 0; k--)
        somebody_calls(descriptor_at(status_page_listener(), LISTENER), &from);
}

static void somebody_asks(void)
{
    descriptor *it = somebody();
    const char *words = REQUESTS[below(REQUEST_COUNT)];
    size_t length = strlen(words);
    if (it != NULL)
        bytes_come(it, (const uint8_t *)words, one_in(6) ? below((uint32_t)length + 1) : length);
}

/* A head that is long, or has no end. */
static void somebody_says_much(void)
{
    uint8_t words[LONGEST_REQUEST];
    descriptor *it = somebody();
    memset(words, one_in(2) ? 'x' : '\n', sizeof words);
    memcpy(words, REQUESTS[0], strlen(REQUESTS[0]) - 2);
    if (it != NULL)
        bytes_come(it, words, between(1, sizeof words));
}

static void somebody_reads(void)
{
    descriptor *it = somebody();
    if (it != NULL)
        it->takes = one_in(3) ? it->takes + between(1, 60000) : below(3) * between(1, 6000);
}

static void somebody_vanishes(void)
{
    descriptor *it = somebody();
    if (it == NULL)
        return;
    it->stage = CUT;
    it->fault = one_in(2) ? 0 : ECONNRESET;
}

void browsers_act(void)
{
    static void (*const ACTS[])(void) = {somebody_comes, somebody_asks, somebody_says_much, somebody_reads, somebody_vanishes};
    static const unsigned WEIGHTS[] = {6, 8, 1, 5, 1};
    for (unsigned k = has_page() ? below(4) : 0; k > 0; k--)
        ACTS[chance_weighted(WEIGHTS, sizeof WEIGHTS / sizeof *WEIGHTS)]();
}
