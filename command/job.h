// job: what one run of the command has in hand, and what a subcommand is.
#ifndef JOB_H
#define JOB_H

#include <stdint.h>

#include "doortumble.h"
#include "form.h"
#include "input.h"
#include "out.h"
#include "progress.h"
#include "status.h"

#define SHOWN_BYTES 16384 // of a file's name as a person sees it: four for each byte that a path can have

// Compilers that can hold a call's values to its words do so.
#ifdef __GNUC__
#define PRINTS(words, values) __attribute__((format(printf, words, values)))
#else
#define PRINTS(words, values)
#endif

#define ROWS_WORDS (DOORTUMBLE_MOST_ROWS * DOORTUMBLE_ROW_WORDS) // always enough for a chunk's rows

struct counts {
    uint64_t chunks; // places for a chunk, the file's rest too
    uint64_t empty;  // those that are all zeros
    uint64_t live;
    uint64_t carved;
    uint64_t refused;
    uint64_t unread; // records, live and carved, whose event is refused; only show reads them
};

// Which records are shown.
struct filter {
    int by_id;
    uint64_t id;
    uint64_t from; // ticks, the first and the last
    uint64_t to;
};

struct reader; // what show reads records with (show.h)

// Of one file at a time; all of it is there from the start, so that no log is too large for it.
struct job {
    const struct view *view;
    int recovery; // carve old records too
    int tokens;   // show tokens instead of fields
    int several;  // more than one file was named
    int headed;   // something stands on the output already

    const char *file;       // as it was named, for JSON and CSV
    char name[SHOWN_BYTES]; // for a person
    doortumble_file_header_fields header;
    struct counts counts;
    struct filter filter;

    struct form form;
    struct input input;
    struct out out;
    struct progress progress;
    uint64_t zeros_from; // where the chunks of zeros begin that are not told yet
    struct reader *reader;
    uint64_t rows[ROWS_WORDS]; // lent for a chunk's rows
};

// A chunk of the file, or what stands in its place.
struct piece {
    const uint8_t *bytes;
    size_t length;       // less than a chunk's only where the file ends
    uint64_t offset;     // in the file
    uint64_t zeros_from; // where the chunks of zeros begin that stand before it and are not told; else its own offset
    int empty;           // it is a chunk of zeros itself
};

// What a subcommand prints of a file: it is called for the file's header, for each chunk in order, and at the end. It counts in
// job->counts what it is handed, but for chunks and empty ones, which are counted before.
struct view {
    const char *verb;
    const char *const *names; // of the fields, for JSON and CSV
    void (*begin)(struct job *job);
    void (*empty)(struct job *job, uint64_t offset, uint64_t chunks); // chunks of zeros, one after the other
    void (*refused)(struct job *job, uint64_t offset, unsigned number, uint64_t place, const char *why);
    void (*chunk)(struct job *job, uint64_t offset, const uint8_t *chunk, uint64_t rows); // its rows stand in job->rows
    void (*end)(struct job *job);
    const char *next; // where a person finds what was refused
    int reads;        // it reads what records say, takes the options for that, and counts what is unread
};

extern const struct view list_view;
extern const struct view info_view;
extern const struct view show_view;

// Goes through one file, standard input where it is "-".
enum status read_file(struct job *job, const char *file);

// The file's next piece, which stays until the one after it is asked for. 0 where there is none, or the read failed: a read that
// fails in the middle of a chunk leaves that chunk unlisted, since it is not known to be cut.
int next_piece(struct job *job, struct piece *piece);

// Prints what a piece says that is not empty, and what was not told before it.
void read_piece(struct job *job, const struct piece *piece);

// What several subcommands print alike: a record's line, or the first fields of its row; what was refused; chunks of zeros; and the
// counts that end a file.
void print_record(struct job *job, uint64_t chunk, doortumble_row row);
void begin_record(struct job *job, uint64_t chunk, doortumble_row row);
void print_refused(struct job *job, uint64_t chunk, unsigned number, uint64_t place, const char *why);
void print_empty(struct job *job, uint64_t offset, uint64_t chunks);
void print_counts(struct job *job);

// Says a line on stderr, after what was printed before it.
void tell(struct job *job, const char *words, ...) PRINTS(2, 3);

#endif
