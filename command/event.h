// event: what one record says, field by field, each with its whole path. Nothing of the format is read here: the fields are the rows of
// doortumble_event, the bodies doortumble_bodies', the elements above a field's own those of the owner table (texts.h).
//
// A path begins at the record's root: Event/System/EventID, Event/System/Provider/@Name. A body in a value hangs below the element that
// holds the value. A Data element is told by its Name, where that is one text: Event/EventData/Data[Tag].
#ifndef EVENT_H
#define EVENT_H

#include <stddef.h>
#include <stdint.h>

#include "doortumble.h"
#include "names.h"
#include "texts.h"

#define EVENT_ROWS 65536 // a record with more is refused 16
#define EVENT_LEVELS 9   // bodies, each in a value of the one before, and the record's own
#define PIECE_BYTES (2 * NAME_BYTES + 4)                                   // an element of a path, with its label
#define PATH_BYTES (EVENT_LEVELS * ((TEXT_DEPTH + 2) * PIECE_BYTES + 64)) // any path
#define PATHS_BYTES 524288 // of the paths that are kept
#define PATH_WIDTH 46      // a kept path that is shorter has spaces behind it up to here: most are, of records of Windows

// A body of the record, in the order in which they begin.
struct event_body {
    uint32_t place;  // of its root
    uint32_t parent; // number of the body in whose value it stands; its own where it stands in none
    uint32_t holder; // number of the row that holds it, plus 1; 0: none does
    uint32_t first;  // number of its first row
    uint32_t rows;
    uint32_t above;  // where the path above it is kept, plus 1; 0: there is none; NOT_KEPT: it is not kept
    uint32_t above_length;
    uint8_t level;
    uint8_t instance; // its root is an instance
    uint8_t labelled; // a label stands in it
};

// The records of a chunk mostly share their definitions: a path that was put together is kept while the chunk lasts, for the next row
// that comes from the same token below the same path.
struct event {
    const uint8_t *chunk;
    uint32_t start;
    uint32_t length;
    uint32_t rows_count;
    uint32_t bodies_count;
    uint32_t label_round;              // labels of other rounds are old
    uint32_t above;                    // number of the element, plus 1, whose path stands in path; 0: none does
    size_t above_length;               // and how long that is
    int changing;                      // a label in the body at hand is a value of the record, which other records have not
    uint32_t paths_used;               // bytes of the paths that are kept
    size_t path_lengths[EVENT_LEVELS]; // of the path above the body of each level, of which one begins with the other
    struct names names;
    struct texts texts;
    struct event_body bodies[DOORTUMBLE_MOST_TOKENS];
    uint32_t labels[DOORTUMBLE_MOST_TOKENS]; // by an element's number, the row of its label
    uint32_t rounds[DOORTUMBLE_MOST_TOKENS]; // and when that was noted
    char paths[PATHS_BYTES];
    char path[PATH_BYTES];
    uint64_t rows[EVENT_ROWS * DOORTUMBLE_ITEM_WORDS];
};

struct field {
    doortumble_item item;
    const char *path;
    size_t path_length;
    int path_kept;
    uint32_t inner;    // number of the body that it holds; 0: none
    int shown_below;   // it holds a body, whose fields hang below it
    int shown_in_path; // it is a label, which stands in the path of the next field
    int stands_for_nothing;
};

typedef void print_field(void *to, struct event *event, const struct field *field);

// For another chunk.
void event_start(struct event *event, const uint8_t *chunk);

// Reads a record; the answer is doortumble_event's.
uint64_t event_read(struct event *event, doortumble_row row);

// Its fields in order, if it was not refused.
void event_print(struct event *event, print_field *print, void *to);

#endif
