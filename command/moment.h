// moment: a FILETIME as a person reads it, in UTC: 2025-01-14T03:00:00.0000000Z. A FILETIME counts steps of 100 ns, here called
// ticks, from the start of the year 1601; years go by the Gregorian calendar throughout.
#ifndef MOMENT_H
#define MOMENT_H

#include <stdint.h>

#define MOMENT_BYTES 32 // room for any moment; those up to the year 9999 take 28

// What was worked out last: neighbours in a log mostly share their second, and nearly always their day.
struct moment {
    uint64_t second; // from 1601, plus 1; 0: none yet
    uint64_t day;    // from 1601, plus 1; 0: none yet
    unsigned length; // of the text up to its seconds
    char text[MOMENT_BYTES];
};

// Writes the moment at a place that has MOMENT_BYTES, and answers where it ends.
char *moment_put(struct moment *moment, char *to, uint64_t ticks);

// A date and time of day by the Gregorian calendar, in UTC.
struct date {
    uint64_t year; // 1601 to 30827, as a SYSTEMTIME can have
    uint64_t month;
    uint64_t day;
    uint64_t hour;
    uint64_t minute;
    uint64_t second;
    uint64_t tick; // of the second
};

// Its ticks. Not 0 where there is such a date; else nothing is written.
int moment_of(const struct date *date, uint64_t *ticks);

#endif
