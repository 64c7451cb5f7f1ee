// quote: a text of any bytes, such as a file's name, so that it harms nothing where it is printed.
#ifndef QUOTE_H
#define QUOTE_H

#include <stddef.h>

#include "out.h"

// For a person: UTF-8 as it is; control characters, and bytes that are no UTF-8, as \x and two digits. Ends in a zero, and in
// three dots where the room is too short.
void quote_shown(char *to, size_t room, const char *text);

// A JSON string with its quotes. A byte that is no UTF-8 becomes \udc80 to \udcff, as Python's surrogateescape has it: the name
// can be had back.
void quote_json(struct out *out, const char *text);

// A CSV field by RFC 4180: in quotes where it holds a quote, a comma or a line's end. Bytes stay what they are.
void quote_csv(struct out *out, const char *text);

#endif
