#include "monitoring/recent.h"

#include <stdio.h>
#include <string.h>

#include "monitoring/sheet.h"

enum { MOST_RECENT = 32 };

/* (there is one gateway in a program) */
static struct {
    char events[MOST_RECENT][MOST_RECORD];
    size_t count; /* of all that were kept since the start */
} the;

void recent_keep(const char *json)
{
    char *place = the.events[the.count % MOST_RECENT];
    snprintf(place, sizeof *the.events, "%s", json);
    place[strcspn(place, "\n")] = '\0';
    the.count++;
}

const char *recent_next(size_t *number)
{
    size_t oldest = the.count > MOST_RECENT ? the.count - MOST_RECENT : 0, next = *number > oldest ? *number : oldest;
    if (next >= the.count)
        return NULL;
    *number = next + 1;
    return the.events[next % MOST_RECENT];
}
