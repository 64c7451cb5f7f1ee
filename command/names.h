// names: the names of a chunk as they stand in a path, each read once by doortumble_name and kept while the chunk lasts. Where no
// name can be read, or its hash is another's, that is said in its place and nothing is guessed.
#ifndef NAMES_H
#define NAMES_H

#include <stddef.h>
#include <stdint.h>

#include "doortumble.h"
#include "units.h"

#define NAME_UNITS 256                        // a longer name is told by its length and its place
#define NAME_BYTES (NAME_UNITS * UNIT_BYTES)  // the most bytes that a name's text has
#define NAMES_BYTES (64 * NAME_BYTES)         // of the texts that are kept

struct name {
    const char *text;
    size_t length;
};

struct names {
    const uint8_t *chunk;
    unsigned count;                       // names that are kept
    size_t used;                          // bytes of the texts
    uint16_t offsets[DOORTUMBLE_CHUNK_BYTES]; // where they stand in the chunk
    uint32_t kept[DOORTUMBLE_CHUNK_BYTES]; // of each offset where its text stands, plus 1; 0: it is not kept
    uint16_t lengths[DOORTUMBLE_CHUNK_BYTES];
    char texts[NAMES_BYTES];
    char odd[NAME_BYTES]; // of an offset past the chunk
};

// Forgets all, for another chunk.
void names_start(struct names *names, const uint8_t *chunk);

// The name at an offset; it stays until the next one is asked for.
struct name name_at(struct names *names, uint32_t offset);

int name_is(struct name name, const char *ascii);

#endif
