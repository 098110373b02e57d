/* ipxr-gateway: routes IPX between DOSBox' tunnels, the cards of emulators, TAPs and Ethernet. */
#include <stdio.h>
#include <string.h>

#include "configuration/cards.h"
#include "configuration/example.h"
#include "configuration/reload.h"
#include "configuration/settings.h"
#include "gateway.h"
#include "monitoring/ask.h"
#include "monitoring/capture.h"
#include "monitoring/note.h"
#include "monitoring/output.h"
#include "monitoring/status.h"
#include "monitoring/status_page.h"
#include "monitoring/trial.h"
#include "monitoring/web_address.h"
#include "peers/key.h"
#include "systems/local.h"
#include "systems/orders.h"
#include "systems/system.h"

/* Exit statuses: something can't be opened; the configuration is wrong; the command line is. */
enum { CANNOT_OPEN = 1, WRONG_CONFIGURATION = 2, WRONG_USE = 64 };

/* What the command line says. */
typedef struct {
    bool is_check, is_help, is_version, is_log, is_example, is_cards, is_key;
    const char *capture;
    const char *status;
    const char *web; /* where the page of the status is */
    const char *configuration;
    unsigned trial; /* minutes, or 0 */
} options;

/* Tells what is wrong with a word of the command line, or with its end where the word is NULL. */
static bool use_fault(const char *word, const char *expected)
{
    fprintf(stderr, "ipxr-gateway: %s%s%s: expected %s\n", word != NULL ? "'" : "", word != NULL ? word : "the command line ends",
            word != NULL ? "'" : "", expected);
    return false;
}

/* Sets the flag that a word names. Returns false where it names none. */
static bool read_flag(options *it, const char *word)
{
    const struct {
        const char *word;
        bool *flag;
    } flags[] = {{"--check", &it->is_check}, {"--help", &it->is_help}, {"--version", &it->is_version}, {"--log", &it->is_log},
                 {"--example", &it->is_example}, {"--cards", &it->is_cards}};
    for (size_t k = 0; k < sizeof flags / sizeof *flags; k++)
        if (strcmp(word, flags[k].word) == 0) {
            *flags[k].flag = true;
            return true;
        }
    return false;
}

/* Where the name goes that stands behind a word, and what it is; NULL where none does. */
static const char **named_by(options *it, const char *word, const char **expected)
{
    const struct {
        const char *word, *expected, **name;
    } names[] = {{"--pcap", "a file for the capture behind --pcap", &it->capture},
                 {"--status", "the path of a socket behind --status", &it->status},
                 {"--status-web", WEB_ADDRESS_WORDS, &it->web}};
    for (size_t k = 0; k < sizeof names / sizeof *names; k++)
        if (strcmp(word, names[k].word) == 0) {
            *expected = names[k].expected;
            return names[k].name;
        }
    return NULL;
}

static bool is_web_address(const char *words)
{
    address ignored;
    return web_address_read(words, &ignored);
}

/* Reads the words of a trial. */
static bool read_trial(options *it, int count, char **words)
{
    char end = '\0';
    it->trial = USUAL_TRIAL;
    it->capture = TRIAL_CAPTURE;
    it->configuration = count > 2 ? words[2] : NULL;
    if (count < 3)
        return use_fault(NULL, "a configuration behind try");
    if (count > 3 && (sscanf(words[3], "%5u%c", &it->trial, &end) != 1 || it->trial < 1 || it->trial > LONGEST_TRIAL))
        return use_fault(words[3], "minutes, 1 to 1440");
    return count < 5 || use_fault(words[4], "nothing more");
}

/* Whether something is printed that needs no configuration. */
static bool is_shown_alone(const options *it)
{
    return it->is_help || it->is_version || it->is_example || it->is_cards || it->is_key;
}

/* Reads the words of a new key. */
static bool read_key(options *it, int count, char **words)
{
    it->is_key = true;
    return count < 3 || use_fault(words[2], "nothing more");
}

static bool read_options(options *it, int count, char **words)
{
    if (count > 1 && strcmp(words[1], "try") == 0)
        return read_trial(it, count, words);
    if (count > 1 && strcmp(words[1], "key") == 0)
        return read_key(it, count, words);
    for (int k = 1; k < count; k++) {
        const char *expected, **name = named_by(it, words[k], &expected);
        if (name != NULL && k + 1 == count)
            return use_fault(NULL, expected);
        if (name != NULL)
            *name = words[++k];
        else if (read_flag(it, words[k]))
            continue;
        else if (words[k][0] == '-')
            return use_fault(words[k], "--check, --log, --pcap, --status, --status-web, --example, --cards, --version, --help or a configuration");
        else if (it->configuration != NULL)
            return use_fault(words[k], "one configuration");
        else
            it->configuration = words[k];
    }
    if (it->web != NULL && !is_web_address(it->web))
        return use_fault(it->web, WEB_ADDRESS_WORDS);
    return is_shown_alone(it) || it->configuration != NULL || use_fault(NULL, "a configuration");
}

static void show_use(FILE *file)
{
    fprintf(file, "ipxr-gateway [--log] [--pcap FILE] [--status SOCKET] [--status-web ADDRESS] CONFIG   routes until it is told to stop\n"
                  "ipxr-gateway try CONFIG [MINUTES]   does so beside other routers, for 10 minutes, and writes what they say\n"
                  "ipxr-gateway --check CONFIG   says what is wrong with a configuration\n"
                  "ipxr-gateway --example        prints one\n"
                  "ipxr-gateway --cards          lists the Ethernet cards, and how a configuration names them\n"
                  "ipxr-gateway key              prints a new key for a link by peers\n"
                  "ipxr-gateway --version        prints its version\n"
                  "ipxr-gateway show [links | clients | stations | peers | routes | services | edge | counts | events] [--json] [--status SOCKET]\n"
                  "ipxr-gateway show counts --prometheus, ping NETWORK.NODE, trace NETWORK, reload   ask one that runs, by its SOCKET\n"
                  "--log writes a line for each packet, --pcap captures them; --status-web 127.0.0.1:8080 shows browsers who is there.\n"
                  "The manual page is ipxr-gateway(8).\n");
}

/* Its release, which is the library's. */
static void show_version(FILE *file)
{
    fprintf(file, "ipxr-gateway %s\n", IPXR_RELEASE);
}

/* What somebody does who begins. */
static void show_beginning(FILE *file)
{
    fprintf(file, "Write a file net.conf with the line `network 10 1 1424 dosbox 2130`; ipxr-gateway --example prints more lines.\n"
                  "Let it run: ipxr-gateway net.conf\n"
                  "Type into each DOSBox, whose configuration says ipx=true: IPXNET CONNECT 127.0.0.1 2130\n");
}

/* Listens for those who ask. */
static bool open_status(const char *path)
{
    if (!has_local())
        complain("ipxr-gateway: --status: there is no status socket on this system");
    else if (!status_open(path))
        complain("ipxr-gateway: %s: can't listen there: %s", path, fault_words());
    else
        return true;
    return false;
}

/* Listens for browsers. */
static bool open_page(const char *words)
{
    if (status_page_open(words))
        return true;
    complain("ipxr-gateway: --status-web %s: can't listen there: %s", words, fault_words());
    return false;
}

static int read_configuration(settings *set, const char *name)
{
    FILE *file = file_open(name, "rb");
    if (file == NULL) {
        fprintf(stderr, "%s: can't be opened: %s\n", name, fault_words());
        return CANNOT_OPEN;
    }
    size_t faults = settings_read(set, file, name, stderr);
    fclose(file);
    return faults == 0 ? 0 : WRONG_CONFIGURATION;
}

/* Routes until it is told to end. */
static int route(const options *it, const settings *set)
{
    static gateway gate;
    if (it->is_log)
        note_events();
    reload_from(it->configuration);
    if (!gateway_open(&gate, set))
        return CANNOT_OPEN;
    /* (behind the links: where another gateway has them, its capture of that name stays) */
    if (it->capture != NULL && !capture_open(it->capture)) {
        complain("ipxr-gateway: %s: can't be opened: %s", it->capture, fault_words());
        return CANNOT_OPEN;
    }
    if (it->status != NULL && !open_status(it->status))
        return CANNOT_OPEN;
    if (it->web != NULL && !open_page(it->web))
        return CANNOT_OPEN;
    if (it->trial > 0 && !trial_begin(it->trial)) {
        complain("ipxr-gateway: %s: can't be opened: %s", TRIAL_TEXT, fault_words());
        return CANNOT_OPEN;
    }
    if (!gateway_start(&gate))
        return CANNOT_OPEN;
    while (!is_told_to_end() && !trial_is_over()) {
        /* (what came before somebody asked is in the report) */
        bool was_asked = is_asked_to_report();
        gateway_turn(&gate, !was_asked);
        if (is_told_to_read())
            reload(&gate);
        if (was_asked)
            gateway_report(&gate);
        trial_turn(&gate);
    }
    gateway_report(&gate);
    bool is_told = trial_end(&gate, it->configuration);
    if (!is_told)
        complain("ipxr-gateway: %s: can't be written: %s", TRIAL_TEXT, fault_words());
    gateway_stop(&gate);
    return is_told ? 0 : CANNOT_OPEN;
}

static int route_and_say(const options *it, const settings *set)
{
    orders_hear();
    if (!output_begin()) {
        fprintf(stderr, "ipxr-gateway: no thread for the output: %s\n", fault_words());
        return CANNOT_OPEN;
    }
    int status = route(it, set);
    capture_close();
    output_end();
    return status;
}

/* Whether what was printed could be written. */
static int written(void)
{
    if (fflush(stdout) == 0 && !ferror(stdout))
        return 0;
    fprintf(stderr, "ipxr-gateway: standard output can't be written: %s\n", fault_words());
    return CANNOT_OPEN;
}

static int show_key(void)
{
    if (key_print(stdout))
        return written();
    fprintf(stderr, "ipxr-gateway: the system has no random numbers: %s\n", fault_words());
    return CANNOT_OPEN;
}

int gateway_main(int count, char **words)
{
    static settings set;
    options it = {0};
    if (count > 1 && is_asking(words[1]))
        return ask_gateway(count, words);
    if (!read_options(&it, count, words)) {
        (count > 1 ? show_use : show_beginning)(stderr);
        return WRONG_USE;
    }
    if (it.is_key)
        return show_key();
    if (is_shown_alone(&it)) {
        (it.is_help ? show_use : it.is_version ? show_version : it.is_example ? example_show : cards_show)(stdout);
        return written();
    }
    int fault = read_configuration(&set, it.configuration);
    if (fault != 0)
        return fault;
    if (it.is_check) {
        size_t networks = set.ports + (set.has_internal ? 1 : 0);
        printf("%s: %zu %s, nothing wrong\n", it.configuration, networks, networks == 1 ? "network" : "networks");
        return written();
    }
    return route_and_say(&it, &set);
}
