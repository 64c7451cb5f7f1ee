// units: UTF-16, two bytes a unit and the low one first, as UTF-8. What would harm a line, could be taken for something else, or
// cannot be written is escaped; a lone surrogate, which is no text, by its number, as \uD800.
#ifndef UNITS_H
#define UNITS_H

#include <stddef.h>
#include <stdint.h>

#include "out.h"

enum units_style {
    UNITS_QUOTED, // between quotes, for a person and in JSON alike
    UNITS_CSV,    // between quotes of CSV, where a quote is doubled
    UNITS_IN_CSV, // between quotes as in JSON, inside those of CSV
    UNITS_LABEL,  // between brackets in a path
    UNITS_NAME    // a name in a path: of ASCII only letters, digits and - . : _ stand for themselves
};

#define UNIT_BYTES 12 // the most bytes that one unit becomes

// Writes them, without the quotes. Not 0 where they are not well-formed.
int units_out(struct out *out, const uint8_t *units, size_t count, enum units_style style);

// The same at a place that has UNIT_BYTES for each; answers where the text ends.
char *units_put(char *to, const uint8_t *units, size_t count, enum units_style style);

#endif
