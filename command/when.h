// when: a time that a person has typed, in UTC: a day, a minute, a second or a part of one, or ticks.
#ifndef WHEN_H
#define WHEN_H

#include <stdint.h>

// All ticks that it means: those of the whole day, minute, second, or part of one.
struct span {
    uint64_t first;
    uint64_t last;
};

// Not 0 where the text is one: 2025-01-15, 2025-01-15T03:01, 2025-01-15T03:01:41, 2025-01-15T03:01:41.5, with a Z behind it or without,
// a space for the T; or ticks, digits alone.
int read_span(const char *text, struct span *span);

// A whole number below 2^64, digits alone.
int read_number(const char *text, uint64_t *number);

#endif
