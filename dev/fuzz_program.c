/* The built program, WORDS, that made-up bytes come to as its standard input. It has to end with status 0 or 2; any other, or a signal,
 * is a finding. A run that takes too long is ended, and none.
 *
 * Where FUZZ_PRELOAD names a library, the program gets it: afl++ has one that puts each block of memory right before a page that can't
 * be read. */
#define _GNU_SOURCE
#include <signal.h>
#include <sys/mman.h>
#include <sys/prctl.h>
#include <sys/resource.h>
#include <sys/wait.h>

#include "fuzz_inputs.h"

enum { MOST_SECONDS = 10, BAD_INPUT = 2 };

static char **program;
static int input;

/* What was written, as far as it is told: the words of the line so far, and of the line before. */
static struct {
    uint32_t word, line, before;
    size_t length;
    int is_number;
} text;

static void begin(char **words)
{
    program = words;
    input = memfd_create("input", 0);
    if (!*words || input < 0)
        abort();
}

static uint32_t mixed(uint32_t all, uint32_t with)
{
    return (all ^ with) * 16777619u;
}

static void begin_word(void)
{
    text.word = 2166136261u;
    text.length = 0;
    text.is_number = 1;
}

/* Of a number only its length counts, as far as that is short. */
static void end_word(void)
{
    size_t length = text.length;
    if (length > 16)
        length = 16 + length / 64;
    if (length > 0)
        text.line = mixed(text.line, text.is_number ? (uint32_t)length : text.word);
    begin_word();
}

static void end_line(void)
{
    tell(text.line);
    tell(mixed(text.before, text.line));
    text.before = text.line;
    text.line = 0;
}

static void take(const char *bytes, size_t length)
{
    for (size_t k = 0; k < length; k++) {
        char byte = bytes[k];
        if (byte == ' ' || byte == '\n')
            end_word();
        else {
            text.length++;
            text.is_number = text.is_number && strchr("0123456789ABCDEF.", byte);
            text.word = mixed(text.word, (uint8_t)byte);
        }
        if (byte == '\n')
            end_line();
    }
}

/* In the child: the program with the input, its text to `to`. */
static void become(int to)
{
    struct rlimit limit = {MOST_SECONDS, MOST_SECONDS};
    const char *preload = getenv("FUZZ_PRELOAD");
    int nowhere = open("/dev/null", O_WRONLY);
    prctl(PR_SET_PDEATHSIG, SIGKILL);
    setrlimit(RLIMIT_CPU, &limit);
    if (preload)
        setenv("LD_PRELOAD", preload, 1);
    dup2(input, 0);
    dup2(to, 1);
    dup2(nowhere, 2);
    execv(*program, program);
    _exit(127);
}

static void take_all(int from)
{
    static char bytes[65536];
    ssize_t count;
    text.line = text.before = 0;
    begin_word();
    while ((count = read(from, bytes, sizeof bytes)) > 0)
        take(bytes, (size_t)count);
    close(from);
}

static void play(const uint8_t *bytes, size_t length)
{
    int ends[2], status;
    if (ftruncate(input, 0) != 0 || pwrite(input, bytes, length, 0) != (ssize_t)length || lseek(input, 0, SEEK_SET) != 0)
        abort();
    if (pipe2(ends, O_CLOEXEC) != 0)
        abort();
    pid_t child = fork();
    if (child == 0)
        become(ends[1]);
    close(ends[1]);
    take_all(ends[0]);
    if (child < 0 || waitpid(child, &status, 0) != child)
        abort();
    /* (a run that takes too long gets one of these) */
    if (WIFSIGNALED(status) && (WTERMSIG(status) == SIGXCPU || WTERMSIG(status) == SIGKILL))
        return;
    if (!WIFEXITED(status) || (WEXITSTATUS(status) != 0 && WEXITSTATUS(status) != BAD_INPUT))
        abort();
    tell((uint32_t)WEXITSTATUS(status));
}
