/* What `ipxr replay FILE` writes for lines `in 0 DIGITS` of packets for network 20, by a plain program with buffers of bytes: what
 * dev/text_speed compares with. It forwards them to the node on port 1 that they are for, proves nothing, and passes over all other
 * lines. */
#include <fcntl.h>
#include <stdint.h>
#include <stdlib.h>
#include <string.h>
#include <unistd.h>

enum { PIECE = 1 << 16, MOST_LINE = 1 << 18, HEADER = 30, MOST_PACKET = 65535, MOST_CONTROL = 16 };

static char input[MOST_LINE + PIECE];
static char text[PIECE + 2 * MOST_PACKET + 32];
static char *to = text;
static char pairs[256][2];
static int8_t digits[256];

static void hex(const uint8_t *bytes, size_t count)
{
    for (size_t k = 0; k < count; k++, to += 2)
        memcpy(to, pairs[bytes[k]], 2);
}

/* Reads the digits into a packet, and says how many bytes it has; none where one is no digit. */
static size_t packet_of(const char *from, size_t count, uint8_t *packet)
{
    int wrong = (int)(count & 1);
    for (size_t k = 0; k + 1 < count; k += 2) {
        int high = digits[(uint8_t)from[k]], low = digits[(uint8_t)from[k + 1]];
        wrong |= high | low;
        packet[k / 2] = (uint8_t)(high << 4 | low);
    }
    return wrong < 0 || count & 1 ? 0 : count / 2;
}

static void line(const char *from, size_t count)
{
    static const uint8_t network[4] = {0, 0, 0, 0x20};
    static uint8_t packet[MOST_PACKET];
    if (count < 5 || count > 5 + 2 * (size_t)MOST_PACKET || memcmp(from, "in 0 ", 5) != 0)
        return;
    size_t there = packet_of(from + 5, count - 5, packet);
    size_t length = there < HEADER ? 0 : (size_t)packet[2] << 8 | packet[3];
    if (length < HEADER || length > there || packet[4] >= MOST_CONTROL || memcmp(packet + 6, network, sizeof network) != 0)
        return;
    packet[4]++;
    memcpy(to, "out 1 ", 6);
    to += 6;
    hex(packet + 10, 6);
    *to++ = ' ';
    hex(packet, length);
    *to++ = '\n';
}

static void hand_over(void)
{
    for (char *from = text; from < to;) {
        ssize_t taken = write(STDOUT_FILENO, from, (size_t)(to - from));
        if (taken <= 0)
            exit(1);
        from += taken;
    }
    to = text;
}

/* Plays the whole lines that lie in the buffer, and says how many of its bytes are left. */
static size_t play(size_t there)
{
    char *from = input, *end;
    while ((end = memchr(from, '\n', there - (size_t)(from - input)))) {
        line(from, (size_t)(end - from));
        from = end + 1;
        if (to - text >= PIECE)
            hand_over();
    }
    memmove(input, from, there - (size_t)(from - input));
    return there - (size_t)(from - input);
}

static void make_tables(void)
{
    memset(digits, -1, sizeof digits);
    for (int byte = 0; byte < 256; byte++) {
        pairs[byte][0] = "0123456789ABCDEF"[byte >> 4];
        pairs[byte][1] = "0123456789ABCDEF"[byte & 15];
    }
    for (int k = 0; k < 16; k++)
        digits[(uint8_t)"0123456789ABCDEF"[k]] = digits[(uint8_t)"0123456789abcdef"[k]] = (int8_t)k;
}

int main(int count, char **words)
{
    size_t there = 0;
    ssize_t came = 0;
    int file = count == 2 ? open(words[1], O_RDONLY) : -1;
    make_tables();
    while (there < MOST_LINE && (came = read(file, input + there, PIECE)) > 0)
        there = play(there + (size_t)came);
    hand_over();
    return came < 0 || there != 0;
}
