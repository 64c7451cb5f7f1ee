// kept: bring a kept sheet of the old layout, one word a token, to the layout of two words a token, and take it back.
//
// The example of doortumble_widen and doortumble_narrow. A kept sheet is only as good as its stream: both calls read the stream
// again and refuse a sheet that is not its own, with the number of the first word that is not. So the stream is kept beside the
// sheet, with the start, the length and the flags that the sheet was made with.
#include <inttypes.h>
#include <stdio.h>

#include "doortumble.h"

// An element without content, as a record's payload begins: it announces attributes, has one, and ends.
static const uint8_t stream[] = {
    0x41, 0x30, 0, 0, 0, 0x00, 0x02, 0, 0, 0x0F, 0, 0, 0, // open, its name at 512; the bytes of its attributes are announced
    0x06, 0x40, 0x02, 0, 0,                               // attribute, its name at 576
    0x05, 0x01, 0x01, 0, 0x41, 0,                         // value: the text "A"
    0x03, 0x00,                                           // close empty, and the end
};

// Its sheet as a year ago.
static const uint64_t year_ago[] = {
    UINT64_C(0x2000000034000000),
    UINT64_C(0x7000680014000000),
    UINT64_C(0x6000900018000000),
    UINT64_C(0x4000C00004000000),
};

#define TOKENS 4

// Says why, for a person, and that it did not go well.
static int refused(const char *what, uint64_t answer)
{
    const unsigned number = doortumble_number(answer);

    printf("%s: refused %u %s %" PRIu64 ": %s\n", what, number, doortumble_place_is(number), doortumble_place(answer),
           doortumble_why(number));
    return 1;
}

static uint64_t widen(const uint64_t *old, size_t old_len, uint64_t *sheet, size_t sheet_len)
{
    return doortumble_widen(stream, sizeof stream, 0, sizeof stream, 0, 0, old, old_len, sheet, sheet_len);
}

static uint64_t narrow(const uint64_t *sheet, size_t sheet_len, uint64_t *old, size_t old_len)
{
    return doortumble_narrow(stream, sizeof stream, 0, sizeof stream, 0, 0, sheet, sheet_len, old, old_len);
}

static void print_tokens(const uint64_t *sheet, uint64_t count)
{
    for (uint64_t n = 0; n < count; n++) {
        const doortumble_token token = doortumble_token_at(sheet, n);

        printf("token %" PRIu64 ": kind %u place %" PRIu32 " length %" PRIu32, n, token.kind, token.place, token.length);
        if (doortumble_has_name(token))
            printf(" name %" PRIu32, token.name);
        puts(token.announced ? " announced" : "");
    }
}

int main(void)
{
    uint64_t sheet[TOKENS * DOORTUMBLE_SHEET_WORDS];
    uint64_t old[TOKENS];
    uint64_t damaged[TOKENS];
    uint64_t answer = widen(year_ago, TOKENS, sheet, TOKENS * DOORTUMBLE_SHEET_WORDS);

    if (doortumble_refused(answer))
        return refused("widen", answer);
    print_tokens(sheet, doortumble_count(answer));

    // The new sheet, without words behind its last token's, gives the old one back.
    answer = narrow(sheet, doortumble_count(answer) * DOORTUMBLE_SHEET_WORDS, old, TOKENS);
    if (doortumble_refused(answer))
        return refused("narrow", answer);
    for (int n = 0; n < TOKENS; n++) {
        if (old[n] != year_ago[n])
            return printf("word %d came back as another one\n", n), 1;
    }
    printf("narrow: %" PRIu64 " words came back equal\n", doortumble_count(answer));

    // A word that was changed on the disk, and a sheet that was cut, are refused, and nothing is written.
    for (int n = 0; n < TOKENS; n++)
        damaged[n] = year_ago[n];
    damaged[2] ^= 1;
    refused("one bit changed", widen(damaged, TOKENS, sheet, TOKENS * DOORTUMBLE_SHEET_WORDS));
    refused("one word cut off", widen(year_ago, TOKENS - 1, sheet, TOKENS * DOORTUMBLE_SHEET_WORDS));
    refused("too few words lent", widen(year_ago, TOKENS, sheet, TOKENS));
    return 0;
}
