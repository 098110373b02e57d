/* What `ipxr decode FILE` writes, by a plain program with buffers of bytes: what dev/text_speed compares with. It proves nothing, and
 * looks at no fault of the file. */
#include <fcntl.h>
#include <stdint.h>
#include <stdio.h>
#include <stdlib.h>
#include <string.h>
#include <unistd.h>

enum { PIECE = 1 << 16, MOST_KEPT = 262144, FILE_HEADER = 24, RECORD_HEADER = 16, FRAME_HEADER = 14, MOST_TEXT = 1 << 13 };
enum { IPX = 0x8137, FIRST_TYPE = 0x600, RIP = 0x0453, SAP = 0x0452, MOST_ROUTES = 50, MOST_SERVICES = 7 };
enum { ROUTE = 8, SERVICE = 64, NAME = 48, PROPAGATED = 20 };

static uint8_t input[MOST_KEPT + PIECE];
static char text[PIECE + MOST_TEXT];
static char pairs[256][2];
static char *to = text;

static unsigned two(const uint8_t *at) { return (unsigned)at[0] << 8 | at[1]; }

static void word(const char *it)
{
    size_t length = strlen(it);
    memcpy(to, it, length);
    to += length;
}

static void hex(const uint8_t *bytes, int count)
{
    for (int k = 0; k < count; k++, to += 2)
        memcpy(to, pairs[bytes[k]], 2);
}

static void decimal(unsigned long number)
{
    char digits[20];
    int count = 0;
    do
        digits[count++] = (char)('0' + number % 10);
    while (number /= 10);
    while (count)
        *to++ = digits[--count];
}

static void address(const uint8_t *at)
{
    hex(at, 4);
    *to++ = '.';
    hex(at + 4, 6);
    *to++ = '.';
    hex(at + 10, 2);
}

static void rip(const uint8_t *data, int length)
{
    unsigned operation = length < 2 ? 0 : two(data);
    int count = (length - 2) / ROUTE;
    if (length < 2 || operation < 1 || operation > 2 || length < 2 + ROUTE || count > MOST_ROUTES) {
        word(length < 2 ? "rip bad Short\n" : operation < 1 || operation > 2 ? "rip bad Operation\n"
             : count > MOST_ROUTES ? "rip bad TooMany\n" : "rip bad NoEntry\n");
        return;
    }
    word(operation == 1 ? "rip request\n" : "rip response\n");
    for (const uint8_t *it = data + 2; count; count--, it += ROUTE) {
        word("net ");
        hex(it, 4);
        word(" hops ");
        decimal(two(it + 4));
        word(" ticks ");
        decimal(two(it + 6));
        *to++ = '\n';
    }
}

static void name(const uint8_t *it, int length)
{
    for (int k = 0; k < length; k++) {
        if (it[k] <= ' ' || it[k] > '~' || it[k] == '\\') {
            *to++ = '\\';
            hex(it + k, 1);
        } else {
            *to++ = (char)it[k];
        }
    }
}

static void service(const uint8_t *it)
{
    const uint8_t *end = memchr(it + 2, 0, NAME);
    if (!end || end == it + 2) {
        word("service bad\n");
        return;
    }
    word("service ");
    hex(it, 2);
    *to++ = ' ';
    name(it + 2, (int)(end - it - 2));
    *to++ = ' ';
    hex(it + 50, 4);
    *to++ = ' ';
    hex(it + 54, 6);
    *to++ = ' ';
    hex(it + 60, 2);
    *to++ = ' ';
    decimal(two(it + 62));
    *to++ = '\n';
}

static void sap(const uint8_t *data, int length)
{
    static const char *const kinds[] = {"sap general-query ", "sap general-response\n", "sap nearest-query ", "sap nearest-response\n"};
    unsigned operation = length < 2 ? 0 : two(data);
    int is_query = operation == 1 || operation == 3, count = (length - 2) / SERVICE;
    if (length < 2 || operation < 1 || operation > 4 || (is_query ? length < 4 : count < 1 || count > MOST_SERVICES)) {
        word(length < 2 || (is_query && length < 4) ? "sap bad Short\n" : operation < 1 || operation > 4 ? "sap bad Operation\n"
             : length < 2 + SERVICE ? "sap bad NoEntry\n" : "sap bad TooMany\n");
        return;
    }
    word(kinds[operation - 1]);
    if (is_query) {
        hex(data + 2, 2);
        *to++ = '\n';
        return;
    }
    for (const uint8_t *it = data + 2; count; count--, it += SERVICE)
        service(it);
}

static void crossed(const uint8_t *data, int length, int control)
{
    if (length < 32 || control >= 8) {
        word(length < 32 ? "crossed bad Short\n" : "crossed bad Full\n");
        return;
    }
    word("crossed");
    for (int k = 0; k < control; k++) {
        *to++ = ' ';
        hex(data + 4 * k, 4);
    }
    *to++ = '\n';
}

static void packet(const uint8_t *it, int there)
{
    int length = there < 30 ? 0 : (int)two(it + 2);
    if (length < 30 || length > there) {
        word(there < 30 ? "bad Short\n" : length < 30 ? "bad LengthSmall\n" : "bad LengthBeyond\n");
        return;
    }
    address(it + 18);
    *to++ = ' ';
    address(it + 6);
    word(" tc ");
    decimal(it[4]);
    word(" type ");
    decimal(it[5]);
    word(" length ");
    decimal((unsigned)length);
    *to++ = '\n';
    unsigned destination = two(it + 16), source = two(it + 28);
    if (it[5] == PROPAGATED)
        crossed(it + 30, length - 30, it[4]);
    else if (destination == RIP || (destination != SAP && source == RIP))
        rip(it + 30, length - 30);
    else if (destination == SAP || source == SAP)
        sap(it + 30, length - 30);
}

static void record(const uint8_t *it, int kept, unsigned long number)
{
    static const uint8_t snap[8] = {0xAA, 0xAA, 3, 0, 0, 0, 0x81, 0x37};
    unsigned field = kept < FRAME_HEADER ? 0 : two(it + 12);
    word("record ");
    decimal(number);
    const uint8_t *rest = it + FRAME_HEADER;
    int there = kept - FRAME_HEADER;
    if (there >= 0 && field == IPX) {
        word(" EthernetII ");
        packet(rest, there);
    } else if (there >= 2 && field < FIRST_TYPE && two(rest) == 0xFFFF) {
        word(" Raw ");
        packet(rest, there);
    } else if (there >= 3 && field < FIRST_TYPE && memcmp(rest, "\xE0\xE0\x03", 3) == 0) {
        word(" Llc ");
        packet(rest + 3, there - 3);
    } else if (there >= 8 && field < FIRST_TYPE && memcmp(rest, snap, sizeof snap) == 0) {
        word(" Snap ");
        packet(rest + 8, there - 8);
    } else {
        word(" Other\n");
    }
}

static void hand_over(void)
{
    for (char *from = text; from < to;) {
        ssize_t taken = write(STDOUT_FILENO, from, (size_t)(to - from));
        if (taken <= 0)
            exit(1);
        from += taken;
    }
    to = text;
}

/* Shows the records that lie in the buffer, and says how many of its bytes are left. */
static size_t show(size_t there, size_t from, unsigned long *number)
{
    while (there - from >= RECORD_HEADER) {
        uint32_t kept;
        memcpy(&kept, input + from + 8, sizeof kept);
        if (kept > MOST_KEPT)
            exit(1);
        if (there - from - RECORD_HEADER < kept)
            break;
        record(input + from + RECORD_HEADER, (int)kept, ++*number);
        from += RECORD_HEADER + kept;
        if (to - text >= PIECE)
            hand_over();
    }
    memmove(input, input + from, there - from);
    return there - from;
}

int main(int count, char **words)
{
    unsigned long number = 0;
    size_t there = 0, skipped = FILE_HEADER;
    ssize_t came;
    int file = count == 2 ? open(words[1], O_RDONLY) : -1;
    for (int byte = 0; byte < 256; byte++) {
        pairs[byte][0] = "0123456789ABCDEF"[byte >> 4];
        pairs[byte][1] = "0123456789ABCDEF"[byte & 15];
    }
    while ((came = read(file, input + there, PIECE)) > 0) {
        if (there + (size_t)came < skipped)
            return 1;
        there = show(there + (size_t)came, skipped, &number);
        skipped = 0;
    }
    hand_over();
    return came < 0;
}
