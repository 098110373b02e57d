/* The program around the lines of C in README.md: it prints the port and the length of each packet that they hand over. */
#include <stdio.h>

#include "ipxr.h"

static void transmit(uint8_t port, const uint8_t node[6], const uint8_t *bytes, size_t length)
{
    printf("port %u: %zu bytes to %02X.., type %u\n", port, length, node[0], bytes[5]);
}

int main(void)
{
    ipxr_packet_sent sent;
    uint8_t bytes[1500];
#include "readme.inc"
    return 0;
}
