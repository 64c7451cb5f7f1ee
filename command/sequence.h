// sequence: the live records of a file one after the other: whether each ID is the one after the last, and whether the time
// goes back.
#ifndef SEQUENCE_H
#define SEQUENCE_H

#include "finding.h"

// How a chunk's first live record joins the last one before the chunk.
enum join {
    JOIN_NONE, // one of the two is missing
    JOIN_STEP, // as the next record, or after a gap or with an overlap
    JOIN_FALL  // its ID lies below the file's first one: here a full log may have wrapped round
};

// What was seen of a chunk.
struct chunk_seen {
    uint64_t live;
    uint64_t carved;
    uint64_t refused;
    struct mark first;
    struct mark last;
    enum join join;
    struct step joint;  // the step into the chunk
    struct step broken; // inside the chunk, to an ID that is not the next one
    struct step back;   // into or inside the chunk, to an earlier time
};

// A file begins.
void sequence_begin(void);

// Goes over a chunk's rows.
void sequence_chunk(struct chunk_seen *chunk, uint64_t offset, const uint64_t *rows, uint64_t count);

// Tells what is odd in the chunk just seen, and between it and those before.
void sequence_tell(struct job *job, const struct chunk_seen *chunk);

// Tells what only the whole file shows: whether it has wrapped round, and how its end joins its beginning then.
void sequence_end(struct job *job);

#endif
