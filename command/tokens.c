// tokens: a record's tokens, each below the token that owns it, those of a body in a value below its instance.
#include <string.h>

#include "show.h"

// By their numbers.
static const char *const kinds[] = {"unknown",   "instance",   "open",      "close-start", "close-empty", "close-element", "value",
                                    "attribute", "entity-ref", "pi-target", "pi-data",     "cdata",       "char-ref",
                                    "substitution"};

// How many owners stand above a token. It comes to an end, since an owner's number is less than that of what it owns.
static unsigned depth_of(const uint32_t *owners, uint64_t n)
{
    unsigned depth = 0;

    while (doortumble_has_owner(owners[n])) {
        n = doortumble_owner(owners[n]);
        depth++;
    }
    return depth;
}

static void print_part(struct out *out, const char *name, uint64_t number)
{
    out_text(out, name);
    out_number(out, number);
}

// The name's offset, and the number and the flag of the kinds that have them.
static void print_rest(struct out *out, doortumble_token token)
{
    if (doortumble_has_name(token))
        print_part(out, " name ", token.name);
    if (token.announced)
        out_text(out, " announced");
    if (token.kind == DOORTUMBLE_KIND_OPEN && token.flag)
        print_part(out, " dependency ", token.number);
    else if (token.kind == DOORTUMBLE_KIND_CHAR_REF)
        print_part(out, " char ", token.number);
    else if (token.kind == DOORTUMBLE_KIND_SUBSTITUTION)
        print_part(out, " number ", token.number);
    if (token.kind == DOORTUMBLE_KIND_SUBSTITUTION && token.flag)
        out_text(out, " optional");
}

static void print_token(const struct shown *shown, const uint64_t *sheet, const uint32_t *owners, uint64_t n)
{
    struct out *out = &shown->job->out;
    doortumble_token token = doortumble_token_at(sheet, n);
    unsigned indent = 2 * (depth_of(owners, n) + token.level);

    show_margin(shown);
    memset(out_room(out, indent), ' ', indent);
    out_took(out, out_room(out, indent) + indent);
    out_text(out, kinds[token.kind < sizeof kinds / sizeof *kinds ? token.kind : 0]);
    print_part(out, " ", n);
    print_part(out, " place ", token.place);
    print_part(out, " length ", token.length);
    if (doortumble_has_owner(owners[n]))
        print_part(out, " owner ", doortumble_owner(owners[n]));
    else
        out_text(out, " owner -");
    print_rest(out, token);
    out_text(out, "\n");
}

uint64_t show_tokens(const struct shown *shown)
{
    struct texts *texts = &shown->event->texts; // its words are free
    uint64_t answer = doortumble_bodies(texts->chunk, DOORTUMBLE_CHUNK_BYTES, doortumble_payload_start(shown->row),
                                        doortumble_payload_length(shown->row), 0, 0, texts->sheet,
                                        sizeof texts->sheet / sizeof *texts->sheet, texts->table, DOORTUMBLE_MOST_TOKENS);
    uint64_t n;

    for (n = 0; !doortumble_refused(answer) && n < doortumble_count(answer); n++)
        print_token(shown, texts->sheet, texts->table, n);
    return answer;
}
