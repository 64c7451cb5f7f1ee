// finding: something odd that info tells, in words and with the numbers that the words are about.
#ifndef FINDING_H
#define FINDING_H

#include "job.h"

// A live record, as far as it is compared with others.
struct mark {
    uint64_t chunk;  // offset in the file of its chunk
    uint64_t offset; // its own, in the file
    uint64_t id;
    uint64_t ticks;
};

// From one live record to another.
struct step {
    uint64_t places; // how often one like it was met; from and to are the first
    struct mark from;
    struct mark to;
};

// Notes one more.
void step_note(struct step *step, const struct mark *from, const struct mark *to);

// A finding at an offset: what it is in a word, and the IDs or the times of the step that it is about, where it is about one.
enum about {
    ABOUT_NONE,
    ABOUT_IDS,
    ABOUT_TIMES
};
void find(struct job *job, const char *what, uint64_t offset, enum about about, const struct step *step, const char *words, ...)
    PRINTS(6, 7);

#endif
