#include "descriptors.h"

#include <errno.h>
#include <string.h>

#include "chance.h"
#include "play.h"
#include "weather.h"

static descriptor list[MOST_DESCRIPTORS];
static size_t open_now;

static const char *const NAMES[] = {"closed", "datagrams", "listener", "connection", "tap", "card", "status socket", "viewer",
                                    "group", "speaker", "call of a switch", "port of a switch"};

descriptor *descriptor_if_open(int fd)
{
    bool is_number = fd >= FIRST_DESCRIPTOR && fd < MOST_DESCRIPTORS;
    return is_number && list[fd].is != CLOSED ? &list[fd] : NULL;
}

descriptor *descriptor_at(int fd, what is)
{
    descriptor *it = descriptor_if_open(fd);
    if (it == NULL || it->is != is)
        wrong("descriptor %d is used as %s, and is %s", fd, NAMES[is], it != NULL ? NAMES[it->is] : NAMES[CLOSED]);
    return it;
}

int descriptor_open(what is)
{
    int fd = FIRST_DESCRIPTOR;
    if (open_now >= the_weather.most_open) {
        errno = EMFILE;
        return -1;
    }
    while (fd < MOST_DESCRIPTORS && list[fd].is != CLOSED)
        fd++;
    if (fd == MOST_DESCRIPTORS)
        wrong("%zu descriptors are open", open_now);
    list[fd] = (descriptor){.is = is};
    open_now++;
    return fd;
}

static void forget_messages(descriptor *it)
{
    message *gone;
    while ((gone = next_message(it)) != NULL)
        give_back(gone);
    give_back(it->bytes);
}

void descriptor_close(int fd)
{
    descriptor *it = descriptor_if_open(fd);
    if (it == NULL) {
        wrong("descriptor %d is closed, and isn't open", fd);
        return;
    }
    forget_messages(it);
    it->is = CLOSED;
    open_now--;
}

size_t descriptors_open(void)
{
    return open_now;
}

int descriptor_any(what is)
{
    uint32_t first = below(MOST_DESCRIPTORS);
    for (uint32_t k = 0; k < MOST_DESCRIPTORS; k++) {
        uint32_t at = (first + k) % MOST_DESCRIPTORS;
        if (list[at].is == is)
            return (int)at;
    }
    return -1;
}

static void waits(descriptor *it, const address *from, bool is_sent, const uint8_t *bytes, size_t length)
{
    if (it->count == MOST_MESSAGES)
        return;
    message *made = own_memory(sizeof *made + length);
    made->from = *from;
    made->is_sent = is_sent;
    made->length = length;
    memcpy(made->bytes, bytes, length);
    *(it->first == NULL ? &it->first : &it->last->next) = made;
    it->last = made;
    it->count++;
}

void comes(descriptor *it, const address *from, const uint8_t *bytes, size_t length)
{
    waits(it, from, false, bytes, length);
}

void is_seen(descriptor *it, const uint8_t *frame, size_t length)
{
    address nobody = {.port = 0};
    waits(it, &nobody, true, frame, length);
}

message *next_message(descriptor *it)
{
    message *next = it->first;
    if (next == NULL)
        return NULL;
    it->first = next->next;
    it->count--;
    return next;
}

void take_next(descriptor *it, arrival *into)
{
    message *next = next_message(it);
    memset(into->bytes, 0xDB, sizeof into->bytes);
    memcpy(into->bytes, next->bytes, next->length < sizeof into->bytes ? next->length : sizeof into->bytes);
    into->length = next->length;
    into->from = next->from;
    into->is_sent = next->is_sent;
    give_back(next);
}

void bytes_come(descriptor *it, const uint8_t *bytes, size_t length)
{
    if (it->bytes == NULL)
        it->bytes = own_memory(MOST_BYTES);
    if (it->from == it->end)
        it->from = it->end = 0;
    size_t room = MOST_BYTES - it->end;
    if (length > room)
        length = room;
    memcpy(it->bytes + it->end, bytes, length);
    it->end += length;
}

void somebody_calls(descriptor *it, const address *from)
{
    if (it->calls < MOST_CALLING)
        it->calling[it->calls++] = *from;
}

bool has_something(const descriptor *it)
{
    switch (it->is) {
    case LISTENER:
    case STATUS:
        return it->calls > 0;
    case CONNECTION:
    case VIEWER:
        return it->stage == CUT || it->end > it->from;
    case CALL:
        return it->stage == CUT || it->is_complained;
    default:
        return it->count > 0 || it->is_complained;
    }
}
