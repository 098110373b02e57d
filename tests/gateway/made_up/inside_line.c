#include "limits/line.c"

#include "inside.h"
#include "play.h"

/* Numbers of those who speak by the line. */
enum { NUMBERS = 64 };

/* The addresses that are met on the way through all lists of clients, each once. */
static bool is_met_first(gateway *it, size_t network_number, size_t client)
{
    const speaker *of = it->networks[network_number].roster.list[client].speaks;
    for (size_t k = 0; k <= network_number; k++)
        for (size_t c = 0; c < it->networks[k].roster.count; c++) {
            if (k == network_number && c == client)
                return true;
            if (it->networks[k].roster.list[c].speaks == of)
                return false;
        }
    return true;
}

/* How many clients of an address are reached by the line. */
static size_t by_line(gateway *it, const speaker *of)
{
    size_t count = 0;
    for (size_t k = 0; k < it->count; k++)
        for (size_t c = 0; c < it->networks[k].roster.count; c++)
            count += it->networks[k].roster.list[c].speaks == of && it->networks[k].roster.list[c].is_by_line;
    return count;
}

/* Adds what the addresses of a network are to what was counted of all. */
static void count(gateway *it, size_t number, size_t *addresses, size_t users[NUMBERS], size_t *speaking)
{
    const roster *of = &it->networks[number].roster;
    for (size_t c = 0; c < of->count; c++) {
        const speaker *one = of->list[c].speaks;
        if (!is_met_first(it, number, c))
            continue;
        if (one->line.at.clients != by_line(it, one))
            wrong("address 10.0.0.%u has %u clients by the line, and %zu are listed", one->host[3], (unsigned)one->line.at.clients, by_line(it, one));
        *addresses += one->line.at.clients > 0;
        *speaking += one->line.at.number > 0;
        users[one->line.at.number]++;
    }
}

/* The same of one that is no address: a network, or the router. */
static void count_other(const line_use *one, size_t users[NUMBERS], size_t *speaking)
{
    if (one->at.clients != 0)
        wrong("who is no address has %u clients by the line", (unsigned)one->at.clients);
    *speaking += one->at.number > 0;
    users[one->at.number]++;
}

void line_is_well(gateway *it)
{
    size_t addresses = 0, speaking = 0, users[NUMBERS] = {0};
    for (size_t k = 0; k < it->count; k++)
        count(it, k, &addresses, users, &speaking);
    for (size_t k = 0; k < it->count; k++)
        count_other(&it->networks[k].speaks.line, users, &speaking);
    count_other(&router_to_all, users, &speaking);
    count_other(&router_to_one, users, &speaking);
    if (addresses != line.addresses || speaking != line.speakers)
        wrong("the line has %zu addresses, and %zu who speak, and counts %u and %u", addresses, speaking, (unsigned)line.addresses,
              (unsigned)line.speakers);
    for (size_t k = 1; k < NUMBERS; k++)
        if (users[k] != line.numbers.users[k])
            wrong("%zu have the number %zu on the line, and %u are counted", users[k], k, (unsigned)line.numbers.users[k]);
}

bool line_is_unused(void)
{
    return line.addresses == 0 && line.speakers == 0;
}
