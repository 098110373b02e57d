/* A capture of what passes: a pcap file of Ethernet frames, which `ipxr decode` reads. A packet of DOSBox' tunnel stands in a frame
 * of its own, with the nodes of its header as addresses. */
#ifndef CAPTURE_H
#define CAPTURE_H

#include <stdbool.h>
#include <stddef.h>
#include <stdint.h>

/* Opens a file; from now on everything is captured. Nothing waits for a disk, nor for who reads a pipe: frames for which there is no room
 * are dropped, whole, and counted. Returns whether it could be opened. */
bool capture_open(const char *name);

void capture_frame(const uint8_t *frame, size_t length);
void capture_packet(const uint8_t *packet, size_t length, const uint8_t from[6]);

/* Nothing more is captured. What was is written first, as long as somebody reads it. */
void capture_close(void);

/* Says how many frames the capture's reader or disk was too late for, if any. */
void capture_show(void);

#endif
