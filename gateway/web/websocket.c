/* In front of a frame are two bytes: a bit that says that it is its message's last, three that must be 0, and its number; a bit that says that it is
 * masked, and its length. A length of 126 or 127 stands in the two or eight bytes behind, and must need them. Then come the four bytes of the
 * mask, which a client's frames have, and a server's haven't. */
#include "web/websocket.h"

#include <string.h>

#include "ipx.h"

enum {
    LAST = 0x80,
    RESERVED = 0x70,
    NUMBER = 0x0F,
    CONTROL = 0x08, /* of a number: the frame steers, and is of no message */
    MASKED = 0x80,
    LENGTH = 0x7F,
    LENGTH_IN_TWO = 126,
    LENGTH_IN_EIGHT = 127,
    SHORT_HEAD = 2,
    MASK = 4,
    STATUS = 2, /* bytes of the reason of a close */
};

/* A frame whose front was read. */
typedef struct frame {
    bool is_last;
    unsigned number;
    size_t head;     /* bytes in front, */
    uint64_t length; /* and of what it holds */
    uint8_t *holds;
} frame;

/* ---- What stands in front ---- */

/* What is wrong with the first two bytes, as a status; 0 where nothing is. */
static uint16_t fault_of_front(const websocket *it, const uint8_t *bytes)
{
    unsigned number = bytes[0] & NUMBER, length = bytes[1] & LENGTH;
    bool is_known = number <= FRAME_BINARY || (number >= FRAME_CLOSE && number <= FRAME_PONG), is_control = (number & CONTROL) != 0;
    bool is_wrong_control = is_control && ((bytes[0] & LAST) == 0 || length > CONTROL_ROOM);
    bool begins = number == FRAME_TEXT || number == FRAME_BINARY;
    bool is_out_of_turn = !is_control && begins == it->is_under_way;
    if ((bytes[0] & RESERVED) != 0 || !is_known || (bytes[1] & MASKED) == 0 || is_wrong_control || is_out_of_turn)
        return CLOSED_WRONG;
    return number == FRAME_TEXT ? CLOSED_NOT_TAKEN : 0;
}

/* How many bytes of a length stand behind the first two. */
static size_t bytes_of_length(unsigned length)
{
    return length == LENGTH_IN_TWO ? 2 : length == LENGTH_IN_EIGHT ? 8 : 0;
}

static uint64_t long_length(const uint8_t *bytes)
{
    return (uint64_t)get32(bytes) << 32 | get32(bytes + 4);
}

/* What is wrong with a length, as a status; 0 where nothing is. (the first of eight bytes has no bit in front; and a length that fewer bytes have
 * stands in these) */
static uint16_t fault_of_length(const websocket *it, const frame *f, unsigned first)
{
    uint64_t least = first == LENGTH_IN_TWO ? LENGTH_IN_TWO : first == LENGTH_IN_EIGHT ? 0x10000u : 0;
    if (f->length < least || f->length >> 63 != 0)
        return CLOSED_WRONG;
    bool is_control = (f->number & CONTROL) != 0;
    return !is_control && f->length > it->most - it->length ? CLOSED_TOO_LONG : 0;
}

/* Reads what stands in front, as far as it has come. Returns whether all of it has; what is wrong is in *fault. */
static bool read_front(const websocket *it, frame *f, uint8_t *bytes, size_t count, uint16_t *fault)
{
    *fault = count < SHORT_HEAD ? 0 : fault_of_front(it, bytes);
    if (count < SHORT_HEAD || *fault != 0)
        return false;
    unsigned first = bytes[1] & LENGTH;
    size_t more = bytes_of_length(first);
    if (count < SHORT_HEAD + more)
        return false;
    const uint8_t *at = bytes + SHORT_HEAD;
    f->is_last = (bytes[0] & LAST) != 0;
    f->number = bytes[0] & NUMBER;
    f->length = more == 2 ? get16(at) : more == 8 ? long_length(at) : first;
    f->head = SHORT_HEAD + more + MASK;
    f->holds = bytes + f->head;
    *fault = fault_of_length(it, f, first);
    return *fault == 0 && count >= f->head;
}

/* ---- What it holds ---- */

static void take_off_mask(frame *f)
{
    const uint8_t *mask = f->holds - MASK;
    for (size_t k = 0; k < f->length; k++)
        f->holds[k] ^= mask[k % MASK];
}

/* How many bytes follow the first of a letter of UTF-8, and the least and the most that the next may be; 4 where none begins so. */
static size_t bytes_behind(uint8_t first, uint8_t *least, uint8_t *most)
{
    *least = first == 0xE0 ? 0xA0 : first == 0xF0 ? 0x90 : 0x80;
    *most = first == 0xED ? 0x9F : first == 0xF4 ? 0x8F : 0xBF;
    return first < 0x80 ? 0 : first < 0xC2 ? 4 : first < 0xE0 ? 1 : first < 0xF0 ? 2 : first < 0xF5 ? 3 : 4;
}

static bool is_utf8(const uint8_t *text, size_t length)
{
    uint8_t least = 0, most = 0;
    size_t behind = 0, k = 0;
    for (; k < length && behind < 4; k++) {
        bool is_first = behind == 0;
        if (is_first)
            behind = bytes_behind(text[k], &least, &most);
        else if (text[k] < least || text[k] > most)
            behind = 4;
        else
            behind--;
        least = is_first ? least : 0x80;
        most = is_first ? most : 0xBF;
    }
    return behind == 0;
}

/* Whether a status is one that somebody may send. */
static bool may_be_sent(uint16_t status)
{
    bool is_named = status >= 1000 && status <= 1014 && status != 1004 && status != CLOSED_WITHOUT && status != 1006;
    return is_named || (status >= 3000 && status <= 4999);
}

/* The status by which a close is answered: its own, where that is one. */
static uint16_t status_of(const frame *f)
{
    if (f->length == 0)
        return CLOSED_WITHOUT;
    if (f->length < STATUS || !may_be_sent(get16(f->holds)))
        return CLOSED_WRONG;
    return is_utf8(f->holds + STATUS, (size_t)f->length - STATUS) ? get16(f->holds) : CLOSED_NO_TEXT;
}

static said take_control(websocket *it, const frame *f)
{
    it->control = f->holds;
    it->control_length = (size_t)f->length;
    if (f->number == FRAME_CLOSE)
        it->status = status_of(f);
    return f->number == FRAME_CLOSE ? SAID_CLOSE : f->number == FRAME_PING ? SAID_PING : SAID_NOTHING;
}

static said take_message(websocket *it, const frame *f)
{
    memcpy(it->message + it->length, f->holds, (size_t)f->length);
    it->length += (size_t)f->length;
    it->is_under_way = !f->is_last;
    return f->is_last ? SAID_MESSAGE : SAID_NOTHING;
}

said websocket_read(websocket *it, uint8_t *bytes, size_t count, size_t *taken)
{
    frame f;
    *taken = 0;
    if (!it->is_under_way)
        it->length = 0;
    if (!read_front(it, &f, bytes, count, &it->status))
        return it->status != 0 ? SAID_WRONG : SAID_PART;
    if (count - f.head < f.length)
        return SAID_PART;
    *taken = f.head + (size_t)f.length;
    take_off_mask(&f);
    return (f.number & CONTROL) != 0 ? take_control(it, &f) : take_message(it, &f);
}

size_t websocket_head(uint8_t head[HEAD_ROOM], unsigned number, size_t length)
{
    head[0] = (uint8_t)(LAST | number);
    head[1] = (uint8_t)(length < LENGTH_IN_TWO ? length : LENGTH_IN_TWO);
    if (length < LENGTH_IN_TWO)
        return SHORT_HEAD;
    put16(head + SHORT_HEAD, (uint16_t)length);
    return SHORT_HEAD + 2;
}
