// spell: a field's type and value in words and digits, so that the value can be had back from them.
#ifndef SPELL_H
#define SPELL_H

#include "event.h"
#include "moment.h"
#include "out.h"

#define SPELL_BYTES 4096 // room for any value that is neither text nor bytes

enum spelled {
    SPELLED_NOTHING, // no value at all, or null
    SPELLED_TEXT,    // text: the units of the field's content
    SPELLED_TEXTS,   // an array of texts, each ended by a zero unit
    SPELLED_BYTES,   // bytes: those of the field's content, in hex
    SPELLED_SHORT    // what was written
};

struct spelling {
    enum spelled how;
    int is_time; // ticks are told beside it
    uint64_t ticks;
    char *text;           // what was written
    size_t length;        // and how long that is
    struct moment moment; // the last one
    char room[SPELL_BYTES];
};

// The type in a word or two.
const char *spell_type(const struct field *field);

// What the value is, and its text where that is short, written at a place that has SPELL_BYTES. In an entity's name characters may
// be escaped, as in a path.
void spell_value(struct spelling *spelling, char *to, struct event *event, const struct field *field);

// The exact bits in hex: of a number its digits, as many as its width has; of all else the bytes as they stand. References, nulls and
// values that hold a body have none.
int spell_has_bits(const struct field *field);
void spell_bits(struct out *out, const struct event *event, const struct field *field);

// The content as text, between the quotes of its style; and as texts, between brackets. Not 0 where something in it is not well-formed.
int spell_text(struct out *out, const struct event *event, const struct field *field, enum units_style style);
int spell_texts(struct out *out, const struct event *event, const struct field *field, enum units_style style);

void spell_hex(struct out *out, const uint8_t *bytes, size_t length);

#endif
