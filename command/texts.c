#include "texts.h"

static void forget(struct texts *texts)
{
    texts->count = 0;
    texts->tokens = 0;
}

void texts_start(struct texts *texts, const uint8_t *chunk)
{
    texts->chunk = chunk;
    forget(texts);
}

static const struct text *keep(struct texts *texts, uint32_t start, uint32_t length, int dependencies, uint32_t count)
{
    static const struct note none;
    struct text *text;
    uint32_t n;

    if (texts->count == TEXTS || TEXT_TOKENS - texts->tokens < count)
        forget(texts);
    text = &texts->texts[texts->count++];
    text->start = start;
    text->length = length;
    text->dependencies = dependencies;
    text->first = texts->tokens;
    text->count = count;
    for (n = 0; n < count; n++) {
        texts->owners[text->first + n] = texts->table[n];
        texts->names[text->first + n] = doortumble_token_at(texts->sheet, n).name;
        texts->notes[text->first + n] = none;
    }
    texts->tokens += count;
    texts->kept[dependencies][start] = (uint16_t)(text - texts->texts);
    return text;
}

static const struct text *find(const struct texts *texts, uint32_t start, uint32_t length, int dependencies)
{
    unsigned number = texts->kept[dependencies][start];
    const struct text *text = &texts->texts[number];

    return number < texts->count && text->start == start && text->length == length && text->dependencies == dependencies ? text : NULL;
}

const struct text *text_at(struct texts *texts, uint32_t start, uint32_t length, int dependencies)
{
    const struct text *text;
    uint64_t answer;

    if (start >= TEXT_PLACES)
        return NULL;
    text = find(texts, start, length, dependencies);
    if (text != NULL)
        return text;
    answer = doortumble_body(texts->chunk, DOORTUMBLE_CHUNK_BYTES, start, length, (uint32_t)dependencies, 0, texts->sheet,
                             sizeof texts->sheet / sizeof *texts->sheet, texts->table, DOORTUMBLE_MOST_TOKENS);
    return doortumble_refused(answer) ? NULL : keep(texts, start, length, dependencies, (uint32_t)doortumble_count(answer));
}

// The word is start * 2^32 + length.
const struct text *text_of_instance(struct texts *texts, uint32_t place)
{
    uint64_t word;

    if (doortumble_refused(doortumble_definition(texts->chunk, DOORTUMBLE_CHUNK_BYTES, place, &word, 1)))
        return NULL;
    return text_at(texts, (uint32_t)(word >> 32), (uint32_t)word, 1);
}

uint32_t text_owner(const struct texts *texts, const struct text *text, uint32_t element)
{
    return element < text->count ? texts->owners[text->first + element] : 0;
}

struct note *text_note(struct texts *texts, const struct text *text, uint32_t token)
{
    return text != NULL && token < text->count ? &texts->notes[text->first + token] : NULL;
}

uint32_t text_name(const struct texts *texts, const struct text *text, uint32_t element)
{
    return texts->names[text->first + element];
}

// Elements are at most 64 deep, and an owner's number is less than that of what it owns.
unsigned text_chain(const struct texts *texts, const struct text *text, uint32_t element, uint32_t *names, uint32_t *elements)
{
    const uint32_t *owners = texts->owners + text->first;
    unsigned depth = 0;
    unsigned n;
    uint32_t at;

    if (element >= text->count)
        return 0;
    for (at = element; doortumble_has_owner(owners[at]) && depth < TEXT_DEPTH; at = doortumble_owner(owners[at]))
        depth++;
    for (n = depth, at = element;; n--, at = doortumble_owner(owners[at])) {
        names[n] = texts->names[text->first + at];
        elements[n] = at;
        if (n == 0)
            return depth + 1;
    }
}
