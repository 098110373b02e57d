#include "monitoring/date.h"

#include <stdbool.h>
#include <stdint.h>
#include <stdio.h>

#include "systems/clock.h"

enum { FIRST_YEAR = 1970, FIRST_WEEKDAY = 4 /* a Thursday */, MONTHS = 12, DAY = 86400, HOUR = 3600, MINUTE = 60 };

static const char WEEKDAYS[][4] = {"Sun", "Mon", "Tue", "Wed", "Thu", "Fri", "Sat"};
static const char NAMES[][4] = {"Jan", "Feb", "Mar", "Apr", "May", "Jun", "Jul", "Aug", "Sep", "Oct", "Nov", "Dec"};

static bool is_leap(unsigned year)
{
    return year % 4 == 0 && (year % 100 != 0 || year % 400 == 0);
}

/* The year of a day since the first; that becomes its day of the year. */
static unsigned year_of(unsigned *day)
{
    unsigned year = FIRST_YEAR;
    for (; *day >= 365u + is_leap(year); year++)
        *day -= 365u + is_leap(year);
    return year;
}

/* The month of a day of a year, from 0; that becomes its day of the month. */
static unsigned month_of(unsigned *day, unsigned year)
{
    static const unsigned DAYS[] = {31, 28, 31, 30, 31, 30, 31, 31, 30, 31, 30, 31};
    unsigned month = 0;
    for (; month < MONTHS - 1 && *day >= DAYS[month] + (month == 1 && is_leap(year)); month++)
        *day -= DAYS[month] + (month == 1 && is_leap(year));
    return month;
}

const char *date_words(char words[DATE_ROOM])
{
    uint32_t seconds, microseconds;
    clock_date(&seconds, &microseconds);
    unsigned day = seconds / DAY, time = seconds % DAY, weekday = (day + FIRST_WEEKDAY) % 7;
    unsigned year = year_of(&day), month = month_of(&day, year);
    snprintf(words, DATE_ROOM, "%s, %02u %s %u %02u:%02u:%02u GMT", WEEKDAYS[weekday], day + 1, NAMES[month], year, time / HOUR,
             time % HOUR / MINUTE, time % MINUTE);
    return words;
}
