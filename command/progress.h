// progress: how far the work is, on stderr, where that is a terminal and the work has taken more than a second.
#ifndef PROGRESS_H
#define PROGRESS_H

#include <stdint.h>

struct progress {
    int wanted;    // stderr is a terminal
    int shown;     // a line of it stands there
    uint64_t next; // when to show it next, in milliseconds
};

void progress_start(struct progress *progress);

// So many bytes of a file are done; of is its length, 0 where that is not known.
void progress_show(struct progress *progress, const char *name, uint64_t done, uint64_t of);

// Takes the line away, before something else is printed.
void progress_hide(struct progress *progress);

#endif
