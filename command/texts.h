// texts: which element stands in which. The text of a body is its own tokens, or those of its instance's definition; its owner
// table is doortumble_body's. Definitions are shared by many records of a chunk, so a text is kept while the chunk lasts.
#ifndef TEXTS_H
#define TEXTS_H

#include <stddef.h>
#include <stdint.h>

#include "doortumble.h"

#define TEXTS 1024                                 // kept at once
#define TEXT_TOKENS (2 * DOORTUMBLE_MOST_TOKENS)   // tokens of all that are kept
#define TEXT_PLACES (DOORTUMBLE_CHUNK_BYTES + 1)   // where a text can start
#define TEXT_DEPTH 64                              // elements, each in the one before

struct text {
    uint32_t start;
    uint32_t length;
    int dependencies;
    uint32_t first; // its first token among those that are kept
    uint32_t count;
};

// What is noted of a token by whoever asks for the text; all 0 when the text is new.
struct note {
    uint32_t above;  // of its path (event.h): what stands above
    uint32_t start;  // where it is kept
    uint32_t length; // 0: it is not kept
    uint8_t asked;   // whether it is the Name of a Data is known
    uint8_t is_name; // and that it is
};

struct texts {
    const uint8_t *chunk;
    unsigned count;
    uint32_t tokens;
    struct text texts[TEXTS];
    uint16_t kept[2][TEXT_PLACES]; // by dependencies and start, the number of the text if it is kept; else that of any text
    uint32_t owners[TEXT_TOKENS];
    uint32_t names[TEXT_TOKENS];
    struct note notes[TEXT_TOKENS];
    uint64_t sheet[DOORTUMBLE_MOST_TOKENS * DOORTUMBLE_SHEET_WORDS]; // lent
    uint32_t table[DOORTUMBLE_MOST_TOKENS];                          // lent
};

// Forgets all, for another chunk.
void texts_start(struct texts *texts, const uint8_t *chunk);

// The text that stands there, until the next one is asked for; a null pointer where none does.
const struct text *text_at(struct texts *texts, uint32_t start, uint32_t length, int dependencies);

// The text of an instance's definition, by the place of the instance's token.
const struct text *text_of_instance(struct texts *texts, uint32_t place);

// The element in which an element stands, plus 1; 0 where it is the root, or the text has no such element.
uint32_t text_owner(const struct texts *texts, const struct text *text, uint32_t element);

// What is noted of a token; a null pointer where the text has no such token, or is none.
struct note *text_note(struct texts *texts, const struct text *text, uint32_t token);

// The offset of an element's name.
uint32_t text_name(const struct texts *texts, const struct text *text, uint32_t element);

// The offsets of the names from the root's to that of an element, and the elements' numbers. Answers how many they are; 0 where
// the text has no such element.
unsigned text_chain(const struct texts *texts, const struct text *text, uint32_t element, uint32_t *names, uint32_t *elements);

#endif
