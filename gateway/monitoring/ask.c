#include "monitoring/ask.h"

#include <stdio.h>
#include <string.h>

#include "monitoring/answer.h"
#include "systems/local.h"
#include "systems/sockets.h"
#include "systems/system.h"

/* Exit statuses: all is well; nobody answers, or no; the command line is wrong. */
enum { WELL = 0, NOT_WELL = 1, WRONG_USE = 64 };

enum { MOST_ASKED_WORDS = 2, PIECE = 4096 };

/* What the command line asks: at most so many words of a kind. */
static const struct {
    const char *word;
    int least, most; /* words behind it */
    const char *expected;
} QUESTIONS[] = {
    {"show", 0, 1, SECTION_WORDS},
    {"ping", 1, 1, "NETWORK.NODE"},
    {"trace", 1, 1, "the number of a network"},
    {"reload", 0, 0, "nothing more"},
};
enum { QUESTION_COUNT = sizeof QUESTIONS / sizeof *QUESTIONS };

typedef struct question {
    size_t kind;
    const char *words[MOST_ASKED_WORDS];
    int count;
    const char *form; /* of show: columns, json or prometheus */
    const char *path;
} question;

static size_t kind_of(const char *word)
{
    size_t k = 0;
    while (k < QUESTION_COUNT && strcmp(QUESTIONS[k].word, word) != 0)
        k++;
    return k;
}

bool is_asking(const char *word)
{
    return kind_of(word) < QUESTION_COUNT;
}

/* ---- The command line ---- */

static bool use_fault(const char *word, const char *expected)
{
    if (word != NULL)
        fprintf(stderr, "ipxr-gateway: '%s': expected %s\n", word, expected);
    else
        fprintf(stderr, "ipxr-gateway: the command line ends: expected %s\n", expected);
    return false;
}

/* A word that is sent as it is: it has neither blanks nor an end of a line. */
static bool is_one_word(const char *word)
{
    return word[0] != '\0' && strpbrk(word, " \r\n") == NULL;
}

static bool read_word(question *q, const char *word)
{
    bool is_show = q->kind == kind_of("show");
    if (is_show && strcmp(word, "--json") == 0)
        q->form = "json";
    else if (is_show && strcmp(word, "--prometheus") == 0)
        q->form = "prometheus";
    else if (word[0] == '-' || q->count == QUESTIONS[q->kind].most || !is_one_word(word))
        return use_fault(word, QUESTIONS[q->kind].expected);
    else
        q->words[q->count++] = word;
    return true;
}

/* Writes the line that asks it. Returns how many bytes it has; 0 where it is too long to be heard. */
static size_t put_line(const question *q, char line[MOST_ASKED])
{
    const char *word = q->count > 0 ? q->words[0] : "", *form = q->kind == kind_of("show") ? q->form : "";
    int length = snprintf(line, MOST_ASKED, "%s %s%s%s\n", QUESTIONS[q->kind].word, word, q->count > 0 ? " " : "", form);
    return length > 0 && length < MOST_ASKED ? (size_t)length : 0;
}

/* Whether it can be asked, with its words. */
static bool can_be_asked(const question *q)
{
    char line[MOST_ASKED];
    if (q->count < QUESTIONS[q->kind].least)
        return use_fault(NULL, QUESTIONS[q->kind].expected);
    return put_line(q, line) > 0 || use_fault(q->words[0], QUESTIONS[q->kind].expected);
}

static bool read_words(question *q, int count, char **words)
{
    for (int k = 2; k < count; k++) {
        bool is_path = strcmp(words[k], "--status") == 0;
        if (is_path && k + 1 == count)
            return use_fault(NULL, "the path of a socket behind --status");
        if (is_path)
            q->path = words[++k];
        else if (!read_word(q, words[k]))
            return false;
    }
    if (!can_be_asked(q))
        return false;
    if (strcmp(q->form, "prometheus") == 0 && (q->count == 0 || strcmp(q->words[0], "counts") != 0))
        return use_fault("--prometheus", "show counts before it");
    return true;
}

/* ---- The answer ---- */

/* Prints a part of an answer. Returns how many bytes of it are text: fewer where its end is in it; what can't be written is told once. */
static size_t print(FILE *file, const char *bytes, size_t length, bool *is_lost)
{
    const char *end = memchr(bytes, '\0', length);
    size_t count = end != NULL ? (size_t)(end - bytes) : length;
    bool is_written = fwrite(bytes, 1, count, file) == count && fflush(file) == 0;
    if (!is_written && !*is_lost)
        fprintf(stderr, "ipxr-gateway: the answer can't be written: %s\n", fault_words());
    *is_lost = *is_lost || !is_written;
    return count;
}

/* Prints the answer as it comes. Returns whether all was well. */
static int hear(int fd, const char *path)
{
    char bytes[PIECE];
    FILE *file = NULL;
    ssize_t length;
    bool has_ended = false, is_lost = false;
    while ((length = connection_receive(fd, (uint8_t *)bytes, sizeof bytes)) > 0) {
        size_t done = 0;
        if (file == NULL)
            file = bytes[done++] == FOR_OUTPUT ? stdout : stderr;
        if (!has_ended)
            done += print(file, bytes + done, (size_t)length - done, &is_lost);
        if (is_lost)
            return NOT_WELL; /* (events have no end) */
        has_ended = has_ended || done < (size_t)length;
        if (has_ended && bytes[length - 1] != '\0')
            return bytes[length - 1] == IS_WELL ? WELL : NOT_WELL;
    }
    fprintf(stderr, "ipxr-gateway: the gateway at %s ended before its answer did\n", path);
    return NOT_WELL;
}

/* Sends what is asked. */
static bool say_to(int fd, const question *q)
{
    char line[MOST_ASKED];
    size_t length = put_line(q, line);
    return connection_send(fd, (const uint8_t *)line, length) == (ssize_t)length;
}

static int ask(const question *q)
{
    int fd = local_connect(q->path);
    if (fd < 0) {
        fprintf(stderr, "ipxr-gateway: no gateway answers at %s: %s\n", q->path, fault_words());
        return NOT_WELL;
    }
    /* (where too many ask, the answer was there before the question) */
    (void)!say_to(fd, q);
    int status = hear(fd, q->path);
    close_any(&fd);
    return status;
}

int ask_gateway(int count, char **words)
{
    question q = {.kind = kind_of(words[1]), .form = "columns", .path = local_usual()};
    if (!has_local()) {
        use_fault(words[1], "a configuration: there is no status socket on this system");
        return WRONG_USE;
    }
    return read_words(&q, count, words) ? ask(&q) : WRONG_USE;
}
