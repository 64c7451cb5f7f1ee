#include "names.h"

#include <inttypes.h>
#include <stdio.h>
#include <string.h>

void names_start(struct names *names, const uint8_t *chunk)
{
    names->chunk = chunk;
    names->used = 0;
    while (names->count > 0)
        names->kept[names->offsets[--names->count]] = 0;
}

// A name of XML has no parentheses: what stands in them is no name.
static char *put_odd(char *to, const char *what, uint32_t offset)
{
    return to + sprintf(to, "(%s at %" PRIu32 ")", what, offset);
}

static char *put_name(const uint8_t *chunk, char *to, uint32_t offset)
{
    uint64_t word;
    doortumble_units units;

    if (doortumble_refused(doortumble_name(chunk, DOORTUMBLE_CHUNK_BYTES, offset, 0, &word, 1)))
        return put_odd(to, "no name", offset);
    units = doortumble_units_of(word);
    if (!units.hash_right)
        return put_odd(to, "overwritten name", offset);
    if (units.count == 0)
        return put_odd(to, "empty name", offset);
    if (units.count > NAME_UNITS)
        return put_odd(to, "long name", offset);
    return units_put(to, chunk + units.start, units.count, UNITS_NAME);
}

// Where the texts are full, all are forgotten: whoever asks has copied those that it had.
static void keep(struct names *names, uint32_t offset)
{
    char *end;

    if (NAMES_BYTES - names->used < NAME_BYTES)
        names_start(names, names->chunk);
    end = put_name(names->chunk, names->texts + names->used, offset);
    names->offsets[names->count++] = (uint16_t)offset;
    names->kept[offset] = (uint32_t)names->used + 1;
    names->lengths[offset] = (uint16_t)(end - names->texts - (ptrdiff_t)names->used);
    names->used = (size_t)(end - names->texts);
}

struct name name_at(struct names *names, uint32_t offset)
{
    struct name name;

    if (offset >= DOORTUMBLE_CHUNK_BYTES) {
        name.text = names->odd;
        name.length = (size_t)(put_name(names->chunk, names->odd, offset) - names->odd);
        return name;
    }
    if (names->kept[offset] == 0)
        keep(names, offset);
    name.text = names->texts + names->kept[offset] - 1;
    name.length = names->lengths[offset];
    return name;
}

int name_is(struct name name, const char *ascii)
{
    return name.length == strlen(ascii) && memcmp(name.text, ascii, name.length) == 0;
}
