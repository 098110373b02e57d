/* What the portable program asks of the system (host/portable), tried without the program: an argument and its room, files, and calls that
 * are interrupted or fail. The last line is 'N passed, M failed'. */
#include "../../host/portable/head.h"

#include "../../host/library/operations.h"
#include "../../host/portable/system.h"

#include <stdio.h>
#include <sys/time.h>

enum { ROOM = 65536, LENGTH = 5, UNTOUCHED = '#', MICROSECONDS = 20000 };

static const uint64_t NONE = (uint64_t)-1, LONGER = (uint64_t)-2, FAILED = (uint64_t)-1;
static uint8_t room[ROOM];
static int passed, failed;

static void tell(const char *name, int is_right)
{
    printf("%s  portable C: %s\n", is_right ? "ok    " : "FAILED", name);
    if (is_right)
        passed++;
    else
        failed++;
}

/* ---- Arguments ---- */

/* Whether an argument is given as it should be, and no byte behind the room is written. */
static int gives(uint64_t number, uint64_t most, uint64_t returned, const char *copied)
{
    size_t length = strlen(copied);
    memset(room, UNTOUCHED, ROOM);
    if (ipxri_rattle_arg(number, ipxri_address(room), most) != returned)
        return 0;
    return memcmp(room, copied, length) == 0 && room[length] == UNTOUCHED;
}

static void try_arguments(void)
{
    static char *texts[] = {"ipxr", "words", ""};
    argument_count = 3;
    arguments = texts;
    tell("an argument with more room than it needs", gives(1, LENGTH + 1, LENGTH, "words"));
    tell("an argument that just fits", gives(1, LENGTH, LENGTH, "words"));
    tell("an argument that is a byte too long", gives(1, LENGTH - 1, LONGER, "word"));
    tell("an argument without room", gives(1, 0, LONGER, ""));
    tell("an empty argument without room", gives(2, 0, 0, ""));
    tell("no argument behind the last", gives(3, LENGTH, NONE, ""));
}

/* ---- Calls that fail ---- */

static void interrupted(int number) { (void)number; }

/* Interrupts the calls that wait from now on, again and again: one could wait a moment later. */
static void begin_interrupting(void)
{
    static const struct itimerval often = {{0, MICROSECONDS}, {0, MICROSECONDS}};
    struct sigaction act;
    memset(&act, 0, sizeof act);
    act.sa_handler = interrupted;
    sigaction(SIGALRM, &act, NULL);
    setitimer(ITIMER_REAL, &often, NULL);
}

static void end_interrupting(void)
{
    static const struct itimerval never;
    setitimer(ITIMER_REAL, &never, NULL);
}

static uint64_t reads(int file, uint64_t count)
{
    return ipxri_read((uint32_t)file, ipxri_address(room), count);
}

static uint64_t writes(int file, uint64_t count)
{
    return ipxri_write((uint32_t)file, ipxri_address(room), count);
}

/* Whether a call failed, and for this reason. */
static int fails(uint64_t returned, uint32_t why)
{
    int is_well = returned == FAILED && ipxri_rattle_errno() == why;
    ipxri_rattle_set_errno(0);
    return is_well;
}

/* Writes to a pipe that nobody empties, until a write fails. */
static uint64_t written_until_full(int to)
{
    uint64_t found;
    do
        found = writes(to, ROOM);
    while (found != FAILED);
    return found;
}

static void try_interrupted(void)
{
    int ends[2];
    if (pipe(ends) != 0) {
        tell("a pipe for calls that are interrupted", 0);
        return;
    }
    begin_interrupting();
    ipxri_rattle_set_errno(0);
    tell("a read that is interrupted", fails(reads(ends[0], 1), LINUX_EINTR));
    tell("a write that is interrupted", fails(written_until_full(ends[1]), LINUX_EINTR));
    end_interrupting();
    ipxri_close((uint32_t)ends[0]);
    tell("a write where nobody reads any longer", fails(writes(ends[1], 1), LINUX_EIO));
    ipxri_close((uint32_t)ends[1]);
    tell("a read of a file that is closed", fails(reads(ends[0], 1), LINUX_EIO));
}

/* What opens a file of this name. */
static int opened(const char *name)
{
    return (int)ipxri_open(ipxri_address(name), 0, 0);
}

static void try_files(void)
{
    int file = opened("/dev/null");
    tell("a file that has no bytes", file >= 0 && reads(file, 1) == 0 && ipxri_close((uint32_t)file) == 0);
    tell("no call is asked for more bytes than each system takes", at_once(~(uint64_t)0) == MOST_AT_ONCE && at_once(LENGTH) == LENGTH);
    tell("a file that isn't there", opened("/nowhere/at all") == -1 && ipxri_rattle_errno() == LINUX_EIO);
}

/* ---- In the program's place ---- */

static void ipxri_begin(void) {}

static uint32_t ipxri_c_main(uint32_t count, uint64_t texts)
{
    (void)count, (void)texts;
    try_arguments();
    try_interrupted();
    try_files();
    printf("%d passed, %d failed\n", passed, failed);
    return failed != 0;
}
