/* Inputs without end for the C files beside it: afl++'s, where its compiler builds them, else those of a generator.
 *
 * The generator changes one of the seeds in a few places, and is run as
 *     PROGRAM SECONDS NUMBER FOLDER WORDS.. <LIST
 * LIST has the name of a seed a line. The same NUMBER gives the same inputs. The last one stays in FOLDER/last, also after a crash.
 * By afl++ it is run as PROGRAM WORDS.. */
#ifndef FUZZ_INPUTS_H
#define FUZZ_INPUTS_H

#include <fcntl.h>
#include <stdint.h>
#include <stdio.h>
#include <stdlib.h>
#include <string.h>
#include <time.h>
#include <unistd.h>

enum { MOST_BYTES = 4096 };

/* Takes the WORDS. */
static void begin(char **words);

/* Plays one input; it calls abort where what is promised doesn't hold. */
static void play(const uint8_t *bytes, size_t length);

#ifdef __AFL_COMPILER

/* Tells what was answered: fuzz_tell.c. */
void tell(uint32_t answer);

__AFL_FUZZ_INIT();

int main(int count, char **words)
{
    begin(words + (count > 0));
    __AFL_INIT();
    const uint8_t *bytes = __AFL_FUZZ_TESTCASE_BUF;
    while (__AFL_LOOP(1000)) {
        int length = __AFL_FUZZ_TESTCASE_LEN;
        play(bytes, length > MOST_BYTES ? MOST_BYTES : (size_t)length);
    }
    return 0;
}

#else

enum { MOST_SEEDS = 256, MOST_CHANGES = 6 };

struct input {
    size_t length;
    uint8_t bytes[MOST_BYTES];
};

static struct input seeds[MOST_SEEDS];
static size_t seed_count;
static uint64_t state;

static void tell(uint32_t answer)
{
    (void)answer;
}

/* A number below `end`, which isn't 0. */
static size_t below(size_t end)
{
    state ^= state << 13;
    state ^= state >> 7;
    state ^= state << 17;
    return (size_t)(state >> 16) % end;
}

static void read_seeds(void)
{
    char name[4096];
    while (seed_count < MOST_SEEDS && fgets(name, sizeof name, stdin)) {
        name[strcspn(name, "\n")] = 0;
        FILE *file = fopen(name, "rb");
        if (!file)
            continue;
        seeds[seed_count].length = fread(seeds[seed_count].bytes, 1, MOST_BYTES, file);
        seed_count++;
        fclose(file);
    }
}

/* Puts a piece of a seed, or a few bytes of one value, into an input. */
static void insert(struct input *input)
{
    const struct input *from = &seeds[below(seed_count)];
    size_t at = below(input->length + 1);
    size_t start = below(from->length + 1);
    size_t length = below(from->length - start + 1);
    if (length > MOST_BYTES - input->length)
        length = MOST_BYTES - input->length;
    memmove(input->bytes + at + length, input->bytes + at, input->length - at);
    if (below(2))
        memcpy(input->bytes + at, from->bytes + start, length);
    else
        memset(input->bytes + at, (int)below(256), length);
    input->length += length;
}

static void cut(struct input *input)
{
    size_t at = below(input->length + 1);
    size_t length = below(input->length - at + 1);
    memmove(input->bytes + at, input->bytes + at + length, input->length - at - length);
    input->length -= length;
}

static void change(struct input *input)
{
    size_t kind = below(8);
    if (kind == 0)
        insert(input);
    else if (kind == 1)
        cut(input);
    else if (input->length > 0) {
        uint8_t *byte = &input->bytes[below(input->length)];
        if (kind < 5)
            *byte = (uint8_t)below(256);
        else
            *byte ^= (uint8_t)(1u << below(8));
    }
}

int main(int count, char **words)
{
    static struct input input;
    char last[4096];
    long played = 0;
    if (count < 4)
        return 64;
    time_t end = time(NULL) + atol(words[1]);
    state = strtoull(words[2], NULL, 10) * 2654435761u + 1;
    snprintf(last, sizeof last, "%s/last", words[3]);
    int file = open(last, O_RDWR | O_CREAT | O_TRUNC, 0666);
    begin(words + 4);
    read_seeds();
    if (file < 0 || seed_count == 0)
        return 64;
    for (; time(NULL) < end; played++) {
        input = seeds[below(seed_count)];
        for (size_t k = below(MOST_CHANGES) + 1; k > 0; k--)
            change(&input);
        if (pwrite(file, input.bytes, input.length, 0) != (ssize_t)input.length || ftruncate(file, (off_t)input.length) != 0)
            return 64;
        play(input.bytes, input.length);
    }
    printf("%ld\n", played);
    return 0;
}

#endif
#endif
