/* What is counted, as records, and as Prometheus collects it. */
#include <inttypes.h>
#include <stdio.h>
#include <string.h>

#include "monitoring/note.h"
#include "monitoring/shown.h"
#include "systems/clock.h"

/* What is counted of a network, by number: what came, what left, copies of broadcasts, connections that were refused, what was lost, and
 * what the router dropped. Behind it what isn't counted, but is so now. */
enum { IN, OUT, EXTENDED, REFUSED, LOST, DROPPED = LOST + REASONS, COUNTED = DROPPED + IPXR_DROPS, UP = COUNTED, CLIENTS };

const column COUNT_COLUMNS[] = {{"network", "NETWORK", 8}, {"count", "COUNT", 33}, {"number", "NUMBER", 0}, {0}};

static uint64_t value_on(network *on, size_t index)
{
    const counts *it = &on->counts;
    switch (index) {
    case IN:
        return it->packets.in;
    case OUT:
        return it->out;
    case EXTENDED:
        return it->extended;
    case REFUSED:
        return it->refused;
    case UP:
        return on->is_up;
    case CLIENTS:
        return ipxr_keyed_clients(&on->tunnel);
    default:
        return index < DROPPED ? it->packets.lost[index - LOST] : it->packets.dropped[index - DROPPED];
    }
}

/* The same of all links of a network together. */
static uint64_t value_of(gateway *it, const cursor *so_far)
{
    const port *of = &it->ports[so_far->network];
    uint64_t sum = 0;
    for (size_t k = 0; k < of->count; k++)
        sum += value_on(first_of(it, of) + k, so_far->index);
    return so_far->index == UP ? of->is_up : sum;
}

/* What a count is called: the words of the report. */
static const char *name_of(size_t index, char words[WORDS])
{
    static const char *const NAMES[] = {[IN] = "in", [OUT] = "out", [EXTENDED] = "extended", [REFUSED] = "refused"};
    if (index >= DROPPED)
        return answer_words(drop_at(index - DROPPED), words);
    return index >= LOST ? reason_words((reason)(index - LOST)) : NAMES[index];
}

/* Goes to the next network of which something is counted between two numbers, and to that. Returns false where there is none. */
static bool find(gateway *it, cursor *so_far, size_t first, size_t behind, size_t always_behind)
{
    if (so_far->index < first)
        so_far->index = first;
    while (so_far->network < it->port_count && so_far->index >= always_behind && value_of(it, so_far) == 0) {
        so_far->index++;
        if (so_far->index >= behind) {
            so_far->network++;
            so_far->index = first;
        }
    }
    return so_far->network < it->port_count;
}

/* Goes behind what was written. */
static void step(cursor *so_far, size_t first, size_t behind)
{
    so_far->index++;
    if (so_far->index >= behind) {
        so_far->network++;
        so_far->index = first;
    }
}

/* ---- Records ---- */

bool shown_count(gateway *it, cursor *so_far, sheet *s)
{
    char number[WORDS], words[WORDS], name[WORDS + 8];
    if (!find(it, so_far, IN, COUNTED, EXTENDED))
        return false;
    bool is_lost = so_far->index >= LOST && so_far->index < DROPPED;
    snprintf(number, sizeof number, "%08" PRIX32, first_of(it, &it->ports[so_far->network])->set->network);
    snprintf(name, sizeof name, "%s%s", is_lost ? "lost: " : "", name_of(so_far->index, words));
    record_begin(s, COUNT_COLUMNS);
    field_text(s, number);
    field_text(s, name);
    field_number(s, value_of(it, so_far));
    record_end(s);
    step(so_far, IN, COUNTED);
    return true;
}

/* ---- Prometheus ---- */

/* What is collected of each network: all numbers from the first to before the last, each with its reason where there are several. */
static const struct {
    const char *name, *type, *help;
    size_t first, behind;
} METRICS[] = {
    {"ipxr_gateway_received_packets_total", "counter", "Datagrams or frames that arrived on the link.", IN, IN + 1},
    {"ipxr_gateway_sent_packets_total", "counter", "Packets that left; a broadcast to several clients is one.", OUT, OUT + 1},
    {"ipxr_gateway_extended_packets_total", "counter", "Copies of broadcasts that were handed to the network.", EXTENDED, EXTENDED + 1},
    {"ipxr_gateway_refused_connections_total", "counter", "Connections that came while a PC was connected.", REFUSED, REFUSED + 1},
    {"ipxr_gateway_lost_packets_total", "counter", "Packets that the gateway dropped, by reason.", LOST, DROPPED},
    {"ipxr_gateway_dropped_packets_total", "counter", "Packets that the router dropped, by reason.", DROPPED, COUNTED},
    {"ipxr_gateway_up", "gauge", "Whether the network's link is up, or one of its links.", UP, UP + 1},
    {"ipxr_gateway_clients", "gauge", "Clients of DOSBox' tunnel.", CLIENTS, CLIENTS + 1},
};
enum { METRIC_COUNT = sizeof METRICS / sizeof *METRICS };

static void put_head(sheet *s, const char *name, const char *type, const char *help)
{
    sheet_put(s, "# HELP %s %s\n# TYPE %s %s\n", name, help, name, type);
}

static void put_sample(gateway *it, const cursor *so_far, sheet *s, const char *name, bool has_reason)
{
    static const char DROP[] = "drop ";
    char words[WORDS];
    const network *on = first_of(it, &it->ports[so_far->network]);
    sheet_put(s, "%s{network=\"%08" PRIX32 "\"", name, on->set->network);
    if (has_reason) {
        const char *why = name_of(so_far->index, words);
        sheet_put(s, ",reason=\"%s\"", strncmp(why, DROP, strlen(DROP)) == 0 ? why + strlen(DROP) : why);
    }
    sheet_put(s, "} %" PRIu64 "\n", value_of(it, so_far));
}

/* What is one number of the whole gateway. */
static void put_whole(gateway *it, sheet *s)
{
    put_head(s, "ipxr_gateway_routes", "gauge", "Routes that were learned.");
    sheet_put(s, "ipxr_gateway_routes %zu\n", ipxr_routes(&it->router));
    put_head(s, "ipxr_gateway_services", "gauge", "Services that were learned.");
    sheet_put(s, "ipxr_gateway_services %zu\n", ipxr_services(&it->router));
    put_head(s, "ipxr_gateway_uptime_seconds", "gauge", "Seconds since the gateway was started.");
    sheet_put(s, "ipxr_gateway_uptime_seconds %" PRIu64 "\n", (clock_now() - it->began) / 1000);
}

bool shown_metric(gateway *it, cursor *so_far, sheet *s)
{
    if (so_far->metric > METRIC_COUNT)
        return false;
    if (so_far->metric == METRIC_COUNT) {
        put_whole(it, s);
        so_far->metric++;
        return true;
    }
    size_t first = METRICS[so_far->metric].first, behind = METRICS[so_far->metric].behind;
    bool has_reason = behind - first > 1;
    if (!so_far->has_begun) {
        put_head(s, METRICS[so_far->metric].name, METRICS[so_far->metric].type, METRICS[so_far->metric].help);
        so_far->has_begun = true;
        so_far->network = so_far->index = 0;
    } else if (find(it, so_far, first, behind, has_reason ? first : behind)) {
        put_sample(it, so_far, s, METRICS[so_far->metric].name, has_reason);
        step(so_far, first, behind);
    } else {
        so_far->metric++;
        so_far->has_begun = false;
    }
    return true;
}
