// form: rows of named fields, as JSON (an object a line) or as CSV (a line of names first). Text for a person is not made here.
#ifndef FORM_H
#define FORM_H

#include <stdint.h>

#include "moment.h"
#include "out.h"

enum form_kind {
    FORM_TEXT,
    FORM_JSON,
    FORM_CSV
};

struct form {
    enum form_kind kind;
    const char *const *names; // of all fields that a row can have, in their order; ends in a null pointer
    unsigned next;            // the first field of names that the row under way has not had
    struct out *out;
    struct moment moment;
};

// The line of names, where the form is CSV.
void form_head(struct form *form);

// A row: its beginning, then its fields in the order of names, each at most once, then its end. A field that is not given is
// left out in JSON and empty in CSV.
void form_row(struct form *form, const char *file, const char *what);
void form_number(struct form *form, const char *name, uint64_t number);
void form_text(struct form *form, const char *name, const char *text);
void form_time(struct form *form, const char *name, const char *exact, uint64_t ticks); // two fields: readable, and the ticks
void form_open(struct form *form, const char *name); // a field that whoever calls writes itself
void form_end(struct form *form);

#endif
