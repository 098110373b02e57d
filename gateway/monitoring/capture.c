#include "monitoring/capture.h"

#include <errno.h>
#include <inttypes.h>
#include <stdio.h>
#include <string.h>

#include "ipx.h"
#include "ipxr.h"
#include "monitoring/output.h"
#include "systems/clock.h"
#include "systems/fault.h"
#include "systems/system.h"

enum { RECORD = 16 /* bytes before each frame */ };

static bool is_open;
static uint64_t dropped; /* frames that weren't written in time */

/* Ends the capture where the file takes no more: it is told once. */
static void end(void)
{
    errno = output_capture_fault();
    complain("ipxr-gateway: the capture ends: %s", is_of_reader(errno) ? "nobody reads it any more" : fault_words());
    is_open = false;
}

/* Takes some bytes, all or none. */
static void write_all(const void *bytes, size_t length)
{
    outcome became = is_open ? output_capture(bytes, length) : WILL_BE_WRITTEN;
    if (became == TAKES_NO_MORE)
        end();
    dropped += became == NO_ROOM_FOR_IT;
}

/* (it stays open until the program ends: a thread writes there) */
static bool begin(const char *name)
{
    if (file_is_fifo(name))
        return output_begin_capture_fifo(name);
    FILE *file = file_open(name, "wb");
    return file != NULL && output_begin_capture(file);
}

bool capture_open(const char *name)
{
    /* Version 2.4, times in microseconds, of the world's zone, at most 65,535 bytes a record, Ethernet; in this machine's order. */
    const struct {
        uint32_t magic;
        uint16_t version[2];
        uint32_t rest[4];
    } header = {0xA1B2C3D4, {2, 4}, {0, 0, 65535, 1}};
    is_open = begin(name);
    write_all(&header, sizeof header);
    return is_open;
}

void capture_frame(const uint8_t *frame, size_t length)
{
    uint32_t seconds, microseconds;
    uint8_t record[RECORD + IPXR_LONGEST_FRAME];
    if (!is_open || length > IPXR_LONGEST_FRAME)
        return;
    clock_date(&seconds, &microseconds);
    const uint32_t header[4] = {seconds, microseconds, (uint32_t)length, (uint32_t)length};
    memcpy(record, header, sizeof header);
    memcpy(record + sizeof header, frame, length);
    write_all(record, sizeof header + length);
}

void capture_packet(const uint8_t *packet, size_t length, const uint8_t from[6])
{
    static const uint8_t nobody[NODE] = {0};
    uint8_t frame[IPXR_LONGEST_FRAME];
    if (!is_open)
        return;
    const uint8_t *to = length >= HEADER ? packet + AT_TO_NODE : nobody;
    size_t whole = ipxr_frame_write(IPXR_FRAME_ETHERNET2, to, from, packet, length, frame, sizeof frame);
    capture_frame(frame, whole);
}

void capture_show(void)
{
    if (dropped > 0)
        say("capture: %" PRIu64 " frames are missing: they weren't read in time", dropped);
}

/* (that the file takes no more is told also where no frame comes behind) */
void capture_close(void)
{
    if (is_open)
        output_end_capture();
    write_all("", 0);
    is_open = false;
}
