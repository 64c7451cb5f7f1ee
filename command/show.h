// show: parts of the subcommand that stand in files of their own.
#ifndef SHOW_H
#define SHOW_H

#include "event.h"
#include "job.h"
#include "spell.h"

// What records are read with, one after the other.
struct reader {
    struct event event;
    struct spelling spelling; // of the field at hand
};

// A record's row of the listing, where it stands, and its event.
struct shown {
    struct job *job;
    struct event *event;
    uint64_t chunk;
    doortumble_row row;
    unsigned fields; // how many of it were printed
};

// What a line below a record begins with: a carved one is marked on each.
static inline void show_margin(const struct shown *shown)
{
    out_bytes(&shown->job->out, shown->row.item == DOORTUMBLE_ROW_LIVE ? "            " : "    carved  ", 12);
}

// The fields, in the run's form; to is the struct shown.
void show_field(void *to, struct event *event, const struct field *field);

// The tokens below their owners, as text. The answer is doortumble_bodies'.
uint64_t show_tokens(const struct shown *shown);

// What is said of a record whose event, or whose tokens, are refused.
void show_unread(const struct shown *shown, uint64_t answer);

#endif
