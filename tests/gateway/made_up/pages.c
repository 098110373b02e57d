#include "pages.h"

#include <stdio.h>
#include <string.h>

#include "chance.h"
#include "inside.h"
#include "ipx.h"
#include "outside.h"
#include "peace.h"
#include "play.h"
#include "tunnel/place.h"
#include "web/web.h"
#include "world.h"

enum { MOST_TEXT = 600, MOST_TOLD = 2 * MOST_RECEIVED, MOST_ACTS = 8 };

/* ---- Who connects ---- */

/* Whether somebody who comes from there is connected, or waits to be. */
static bool is_there(const address *from)
{
    for (int fd = FIRST_DESCRIPTOR; fd < MOST_DESCRIPTORS; fd++) {
        const descriptor *it = descriptor_if_open(fd);
        bool is = it != NULL && it->is == CONNECTION && same_address(&it->remote, from);
        for (size_t k = 0; it != NULL && k < it->calls; k++)
            is = is || same_address(&it->calling[k], from);
        if (is)
            return true;
    }
    return false;
}

/* Where pages come in, or -1. */
static int any_site(void)
{
    int first = (int)below(MOST_DESCRIPTORS);
    for (int k = 0; k < MOST_DESCRIPTORS; k++)
        if (is_site((first + k) % MOST_DESCRIPTORS))
            return (first + k) % MOST_DESCRIPTORS;
    return -1;
}

static void somebody_connects(void)
{
    uint8_t place[NODE];
    int fd = any_site();
    if (fd < 0)
        return;
    any_place(place);
    address from = address_of(place);
    if (is_there(&from))
        return;
    told("10.0.0.%u:%u connects to %d", place[3], from.port, fd);
    somebody_calls(descriptor_at(fd, LISTENER), &from);
}

/* ---- What he says ---- */

/* The connection of a page in some state, or -1. */
static int any_page(page_state state)
{
    int first = (int)below(MOST_DESCRIPTORS);
    for (int k = 0; k < MOST_DESCRIPTORS; k++) {
        int fd = (first + k) % MOST_DESCRIPTORS;
        const page *it = page_at(fd);
        if (it != NULL && it->state == state)
            return fd;
    }
    return -1;
}

/* A link where he came in, in the tunnel or with frames, that is there; or none. */
static const network *any_link(const page *it)
{
    size_t first = below((uint32_t)the_gate->count);
    for (size_t k = 0; k < the_gate->count; k++) {
        const network *on = &the_gate->networks[(first + k) % the_gate->count];
        if (on->cable != NULL && on->cable->web != NULL && on->cable->web->at == it->at)
            return on;
    }
    return NULL;
}

/* A byte of what he says is another one, or it is cut. */
static size_t spoil(char *text, size_t length)
{
    text[below((uint32_t)length)] = (char)below(256);
    return one_in(3) ? between(1, (uint32_t)length) : length;
}

static void somebody_asks(void)
{
    char text[MOST_TEXT];
    int fd = any_page(PAGE_ASKS);
    const network *on = fd >= 0 ? any_link(page_at(fd)) : NULL;
    if (on == NULL)
        return;
    int length = snprintf(text, sizeof text, "GET /%s/%X HTTP/1.1\r\nHost: gate\r\n%sUpgrade: websocket\r\nConnection: %sUpgrade\r\n"
                          "Sec-WebSocket-Key: AAAAAAAAAAAAAAAAAAAAAA==\r\nSec-WebSocket-Version: 13\r\n\r\n",
                          has_tunnel(on->set) ? "ipx" : "ethernet", (unsigned)on->set->network + one_in(12),
                          one_in(6) ? "Origin: http://gate\r\n" : one_in(9) ? "Origin: http://other\r\n" : "", one_in(2) ? "keep-alive, " : "");
    size_t count = one_in(6) ? spoil(text, (size_t)length) : (size_t)length;
    told("%d asks for network %X", fd, (unsigned)on->set->network);
    bytes_come(descriptor_at(fd, CONNECTION), (const uint8_t *)text, count);
}

/* A frame of a WebSocket comes, masked. */
static void frame_of_page(int fd, unsigned first, const uint8_t *bytes, size_t length)
{
    uint8_t front[8] = {(uint8_t)first, (uint8_t)(0x80 | (length < 126 ? length : 126))}, masked[MOST_RECEIVED];
    size_t head = length < 126 ? 2 : 4;
    put16(front + (head == 4 ? 2 : 6), (uint16_t)length);
    memset(front + head, 0x5A, 4);
    for (size_t k = 0; k < length; k++)
        masked[k] = bytes[k] ^ 0x5A;
    bytes_come(descriptor_at(fd, CONNECTION), front, head + 4);
    bytes_come(descriptor_at(fd, CONNECTION), masked, length);
}

/* A message in one frame or in two. */
static void message_of_page(int fd, const uint8_t *bytes, size_t length)
{
    size_t at = one_in(6) ? below((uint32_t)length + 1) : 0;
    if (at > 0)
        frame_of_page(fd, FRAME_BINARY, bytes, at);
    frame_of_page(fd, at > 0 ? 0x80 : 0x80 | FRAME_BINARY, bytes + at, length - at);
}

/* The network of an open page, or NULL. */
static network *network_of_page(int fd)
{
    const page *it = page_at(fd);
    for (size_t k = 0; it != NULL && it->of != NULL && k < the_gate->count; k++)
        if (the_gate->networks[k].cable != NULL && the_gate->networks[k].cable->web == it->of)
            return &the_gate->networks[k];
    return NULL;
}

static void says(int fd, network *on)
{
    made_packet made = {.length = 0};
    uint8_t frame[MOST_RECEIVED] = {0}, place[NODE];
    place_of(&page_at(fd)->from, place);
    if (!has_tunnel(on->set)) {
        size_t length = make_frame(on, frame);
        message_of_page(fd, frame, length < IPXR_LONGEST_FRAME ? length : IPXR_LONGEST_FRAME);
        return;
    }
    make_word(&made, on, place);
    message_of_page(fd, made.bytes, made.length < LONGEST ? made.length : LONGEST);
}

static void speaks(void)
{
    int fd = any_page(PAGE_IS_OPEN);
    network *on = fd >= 0 ? network_of_page(fd) : NULL;
    unsigned times = one_in(8) ? between(2, 60) : 1;
    if (on == NULL)
        return;
    told("page %d says %u messages to network %X", fd, times, (unsigned)on->set->network);
    for (; times > 0; times--)
        says(fd, on);
}

/* Frames that steer, and wrong ones. */
static void steers(void)
{
    static const unsigned FIRST[] = {0x80 | FRAME_PING, 0x80 | FRAME_PONG, 0x80 | FRAME_CLOSE, FRAME_MORE, 0x80 | FRAME_TEXT, 0xC2, 0x83};
    static const uint8_t BYTES[200] = {3, 0xE8};
    int fd = any_page(PAGE_IS_OPEN);
    if (fd >= 0)
        frame_of_page(fd, FIRST[below(one_in(3) ? 7 : 2)], BYTES, one_in(2) ? 2 : below(200));
}

void pages_act(void)
{
    static void (*const ACTS[])(void) = {somebody_connects, somebody_connects, somebody_asks, somebody_asks, speaks, speaks, speaks, steers};
    for (unsigned k = the_gate != NULL ? between(1, MOST_ACTS) : 0; k > 0; k--)
        ACTS[below(sizeof ACTS / sizeof *ACTS)]();
}

/* ---- What he hears ---- */

/* What came on each connection and isn't a whole frame yet. */
static struct {
    bool is_open; /* the answer to the request has come */
    size_t count;
    uint8_t bytes[MOST_TOLD];
} heard[MOST_DESCRIPTORS];

/* A message has come to a page of the tunnel: it learns, and answers. */
static void hears_packet(int fd, network *on, const uint8_t *bytes, size_t length)
{
    made_packet made = {.length = 0};
    uint8_t place[NODE];
    place_of(&page_at(fd)->from, place);
    outside_learns(on, place, bytes, length);
    if (outside_answers(on, place, &made, bytes, length))
        message_of_page(fd, made.bytes, made.length);
}

static void hears_frame(int fd, const uint8_t *bytes, size_t head, size_t length)
{
    unsigned number = bytes[0] & 0x0F;
    network *on = network_of_page(fd);
    if ((bytes[0] & 0xF0) != 0x80 || (number != FRAME_BINARY && number != FRAME_CLOSE && number != FRAME_PONG) || length > MOST_RECEIVED)
        wrong("a page is sent a frame %02X of %zu bytes", bytes[0], length);
    if (number == FRAME_BINARY && on != NULL && has_tunnel(on->set))
        hears_packet(fd, on, bytes + head, length);
}

/* Bytes of the first frame that is there, with its head; 0 where it isn't whole. */
static size_t whole_frame(const uint8_t *bytes, size_t count, size_t *head)
{
    *head = count > 1 && bytes[1] == 126 ? 4 : 2;
    if (count < *head)
        return 0;
    size_t length = *head == 4 ? get16(bytes + 2) : bytes[1];
    return count < *head + length ? 0 : *head + length;
}

static void take_off(int fd, size_t count)
{
    heard[fd].count -= count;
    memmove(heard[fd].bytes, heard[fd].bytes + count, heard[fd].count);
}

/* The answer to the request, which is plain text. */
static void hears_answer(int fd)
{
    for (size_t k = 4; k <= heard[fd].count && !heard[fd].is_open; k++)
        if (memcmp(heard[fd].bytes + k - 4, "\r\n\r\n", 4) == 0) {
            heard[fd].is_open = memcmp(heard[fd].bytes, "HTTP/1.1 101 ", 13) == 0;
            if (!heard[fd].is_open)
                return;
            take_off(fd, k);
        }
}

static void hears_byte(int fd, uint8_t byte)
{
    size_t head;
    if (heard[fd].count == MOST_TOLD)
        wrong("page %d is told too much", fd);
    heard[fd].bytes[heard[fd].count++] = byte;
    if (!heard[fd].is_open) {
        hears_answer(fd);
        return;
    }
    size_t whole = whole_frame(heard[fd].bytes, heard[fd].count, &head);
    if (whole == 0)
        return;
    hears_frame(fd, heard[fd].bytes, head, whole - head);
    take_off(fd, whole);
}

bool page_hears(int fd, descriptor *on, const uint8_t *bytes, size_t length)
{
    if (page_at(fd) == NULL)
        return false;
    if (on->taken == 0)
        memset(&heard[fd], 0, sizeof heard[fd]);
    for (size_t k = 0; k < length; k++)
        hears_byte(fd, bytes[k]);
    on->taken += length;
    return true;
}
