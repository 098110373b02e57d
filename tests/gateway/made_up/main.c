/* The gateway's own code on a made-up system: sockets, cards, clocks, names, files and memory are made up, and a seed says what happens.
 *
 *     made_up SEED TURNS [--tell]
 *
 * The gateway is started, and as it ends started again, until it has made so many turns. After each turn it is looked at. What is wrong is
 * told with seed and turn on standard error, and the status is 1; the same seed plays the same again, and --tell tells what happens. */
#include <errno.h>
#include <signal.h>
#include <stdarg.h>
#include <stdio.h>
#include <stdlib.h>
#include <string.h>
#include <unistd.h>

#include "browsers.h"
#include "chance.h"
#include "checks.h"
#include "clocks.h"
#include "configurations.h"
#include "fates.h"
#include "files.h"
#include "outside.h"
#include "peace.h"
#include "places.h"
#include "play.h"
#include "systems/system.h"
#include "weather.h"
#include "world.h"
#include "writers.h"

enum { WRONG_USE = 64, LONGEST_TURN = 60 /* seconds */, SHORTEST_LIFE = 10, LONGEST_LIFE = 4000 };

play the_play;
gateway *the_gate;

static unsigned long life; /* turns until it is told to end */
static bool has_turned;    /* it made one since it was started */

/* ---- What is wrong ---- */

static void tell_where(void)
{
    fprintf(stderr, "made_up: seed %llu, turn %lu, start %u", (unsigned long long)the_play.seed, the_play.turn, the_play.starts);
}

void wrong(const char *format, ...)
{
    va_list rest;
    va_start(rest, format);
    tell_where();
    fputs(": ", stderr);
    vfprintf(stderr, format, rest);
    fputc('\n', stderr);
    va_end(rest);
    fflush(stderr);
    if (getenv("MADE_UP_ABORTS") != NULL)
        abort();
    _exit(1);
}

void told(const char *format, ...)
{
    va_list rest;
    if (!the_play.tells)
        return;
    va_start(rest, format);
    fprintf(stderr, "%lu: ", the_play.turn);
    vfprintf(stderr, format, rest);
    fputc('\n', stderr);
    va_end(rest);
}

/* A turn lasts too long. */
static void on_alarm(int number)
{
    (void)number;
    wrong("a turn doesn't end");
}

#if defined(__SANITIZE_ADDRESS__)
void __sanitizer_set_death_callback(void (*callback)(void));

/* The sanitizer has told what is wrong. */
static void on_death(void)
{
    tell_where();
    fputs(": see above\n", stderr);
}
#endif

/* ---- Turns ---- */

bool __real_gateway_open(gateway *it, const settings *set);
bool __wrap_gateway_open(gateway *it, const settings *set);
bool __wrap_gateway_open(gateway *it, const settings *set)
{
    bool is_open = __real_gateway_open(it, set);
    the_gate = it;
    return is_open;
}

bool outside_goes_on(void)
{
    if (has_turned) {
        fates_are_well(the_gate);
        gateway_is_well(the_gate);
        places_are_well(the_gate);
    }
    has_turned = true;
    the_play.turn++;
    alarm(LONGEST_TURN);
    world_acts();
    fates_begin(the_gate);
    if (life-- > 0 && the_play.turn < the_play.turns)
        return true;
    told("it is told to end");
    return false;
}

/* Starts the gateway, which runs until it is told to end. Returns its exit status. */
static int life_of_gateway(void)
{
    static char name[] = "ipxr-gateway", file[] = "made-up.conf", status[] = "--status", path[] = "made-up.sock", pcap[] = "--pcap",
                capture[] = "made-up.pcap", log[] = "--log", web[] = "--status-web", place[] = "127.0.0.1:8099";
    char *words[10] = {name, file, status, path};
    int count = 4;
    the_play.starts++;
    life = between(SHORTEST_LIFE, LONGEST_LIFE);
    orders_begin();
    configuration_begin();
    told("start with\n%s", configuration_text());
    if (has_page()) {
        words[count++] = web;
        words[count++] = place;
    }
    if (one_in(3)) {
        words[count++] = pcap;
        words[count++] = capture;
    }
    if (one_in(8))
        words[count++] = log;
    if (one_in(12))
        the_weather.nth = between(1, 100);
    return gateway_main(count, words);
}

/* Starts it again and again. Returns false where it couldn't open what it was to open: then a program ends as it is. */
static bool lives(void)
{
    size_t blocks = blocks_in_use();
    the_gate = NULL;
    has_turned = false;
    int status = life_of_gateway();
    the_gate = NULL;
    weather_clears();
    peace_is_over();
    writers_are_read(true);
    if (status != 0)
        return false;
    nothing_is_left(blocks);
    return true;
}

int main(int count, char **words)
{
    if (count < 3) {
        fprintf(stderr, "made_up SEED TURNS [--tell]\n");
        return WRONG_USE;
    }
    the_play.seed = strtoull(words[1], NULL, 10);
    the_play.turns = strtoul(words[2], NULL, 10);
    the_play.tells = count > 3 && strcmp(words[3], "--tell") == 0;
#if defined(__SANITIZE_ADDRESS__)
    __sanitizer_set_death_callback(on_death);
#endif
    signal(SIGALRM, on_alarm);
    chance_begin(the_play.seed);
    world_begins();
    while (the_play.turn < the_play.turns && lives())
        ;
    printf("seed %llu: %lu turns, %u starts, %lu packets\n", (unsigned long long)the_play.seed, the_play.turn, the_play.starts,
           fates_seen());
    return 0;
}
