#include <inttypes.h>
#include <stdio.h>
#include <string.h>

#include "ipx.h"
#include "monitoring/note.h"
#include "monitoring/shown.h"

/* Bytes of a line in words. */
enum { LINE_ROOM = 160 };

/* The type of a rule that names services of every type. */
enum { EVERY_TYPE = 0xFFFF };

const column EDGE_COLUMNS[] = {{"network", "NETWORK", 8}, {"line", "LINE", 0}, {0}};

/* ---- The words of a line ---- */

static const char *way_word(const ipxr_rule *rule)
{
    return rule->way == IPXR_WAY_IN ? "in" : "out";
}

static void networks_in_words(const ipxr_rule *rule, char words[LINE_ROOM])
{
    if (rule->from == rule->to)
        snprintf(words, LINE_ROOM, "%08" PRIX32, rule->from);
    else
        snprintf(words, LINE_ROOM, "%08" PRIX32 "-%08" PRIX32, rule->from, rule->to);
}

static void services_in_words(const ipxr_rule *rule, char words[LINE_ROOM])
{
    char type[8] = "*";
    if (rule->type != EVERY_TYPE)
        snprintf(type, sizeof type, "%04X", rule->type);
    snprintf(words, LINE_ROOM, "%s %.48s%s", type, rule->names == IPXR_NAMES_ALL ? "" : (const char *)rule->name,
             rule->names == IPXR_NAMES_IS ? "" : "*");
}

static void rule_in_words(const ipxr_rule *rule, char words[LINE_ROOM])
{
    char what[LINE_ROOM];
    const char *verb = rule->permits ? "permit" : "deny";
    switch (rule->what) {
    case IPXR_RULE_TYPE:
        snprintf(words, LINE_ROOM, "%s type %u", verb, (unsigned)rule->type);
        break;
    case IPXR_RULE_SOCKET:
        snprintf(words, LINE_ROOM, "%s socket %04X", verb, rule->socket);
        break;
    case IPXR_RULE_NEAREST:
        snprintf(words, LINE_ROOM, "%s nearest", verb);
        break;
    case IPXR_RULE_ROUTES:
        networks_in_words(rule, what);
        snprintf(words, LINE_ROOM, "%s route %.20s %s", verb, what, way_word(rule));
        break;
    default:
        services_in_words(rule, what);
        snprintf(words, LINE_ROOM, "%s service %.60s %s", verb, what, way_word(rule));
    }
}

static void route_in_words(const ipxr_static_route *line, char words[LINE_ROOM])
{
    char via[WORDS];
    snprintf(words, LINE_ROOM, "route %08" PRIX32 " %u %u via %s", line->route.network, line->route.hops, line->route.ticks, node_words(line->via, via));
}

static void service_in_words(const ipxr_static_service *line, char words[LINE_ROOM])
{
    char at[WORDS], via[WORDS];
    const ipxr_service_entry *service = &line->service;
    snprintf(words, LINE_ROOM, "service %04X %.48s %08" PRIX32 ".%s.%04X %u via %s", service->type, (const char *)service->name, service->network,
             node_words(service->node, at), service->socket, service->hops, node_words(line->via, via));
}

/* ---- The section ---- */

/* The line with exactly `index` others before it, of those below a network. Returns false where there is none. */
static bool line_in_words(const network_setting *set, size_t index, char words[LINE_ROOM])
{
    size_t before = set->rule_count + set->static_route_count;
    if (index < set->rule_count)
        rule_in_words(&set->rules[index], words);
    else if (index < before)
        route_in_words(&set->static_routes[index - set->rule_count], words);
    else if (index < before + set->static_service_count)
        service_in_words(&set->static_services[index - before], words);
    else
        return false;
    return true;
}

bool shown_edge(gateway *it, cursor *so_far, sheet *s)
{
    char words[LINE_ROOM], number[WORDS];
    while (so_far->network < it->port_count && !line_in_words(first_of(it, &it->ports[so_far->network])->set, so_far->index, words)) {
        so_far->network++;
        so_far->index = 0;
    }
    if (so_far->network >= it->port_count)
        return false;
    so_far->index++;
    snprintf(number, sizeof number, "%08" PRIX32, first_of(it, &it->ports[so_far->network])->set->network);
    record_begin(s, EDGE_COLUMNS);
    field_text(s, number);
    field_text(s, words);
    record_end(s);
    return true;
}
