// event: print what the records of a chunk say: each value with the element and the attribute on which it hangs.
//
// The example of doortumble_event and doortumble_name, made to be copied. It reads nothing of the format itself: which value hangs on which
// element, and where names and values stand, is what the calls say.
#include <inttypes.h>
#include <stdio.h>
#include <string.h>

#include "doortumble.h"

#ifndef ITEMS_LEN
#define ITEMS_LEN 6144 // words for 1,024 rows; a record that needs more is told so, with how many
#endif

static uint8_t chunk[DOORTUMBLE_CHUNK_BYTES + 1];
static uint64_t rows[DOORTUMBLE_MOST_ROWS * DOORTUMBLE_ROW_WORDS];
static uint64_t items[ITEMS_LEN];

// UTF-16 units, between quotes: what is no plain ASCII character by its number, so that nothing is guessed.
static void print_units(uint32_t start, uint32_t count)
{
    uint32_t n;

    for (n = 0; n < count; n++) {
        unsigned unit = chunk[start + 2 * n] | (unsigned)chunk[start + 2 * n + 1] << 8;

        if (unit >= 0x20 && unit < 0x7F && unit != '"' && unit != '\\')
            putchar((int)unit);
        else
            printf("\\u%04X", unit);
    }
}

static void print_name(uint32_t offset)
{
    uint64_t word;
    uint64_t answer = doortumble_name(chunk, DOORTUMBLE_CHUNK_BYTES, offset, 0, &word, 1);

    if (doortumble_refused(answer)) {
        printf("(no name at %" PRIu32 ")", offset);
        return;
    }
    print_units(doortumble_units_of(word).start, doortumble_units_of(word).count);
}

static void print_bytes(doortumble_item item)
{
    uint32_t n;

    for (n = 0; n < item.length; n++)
        printf("%02X", chunk[item.start + n]);
}

// A number by its bits, as its type says; all else as bytes.
static void print_value(doortumble_item item)
{
    double real;

    switch (item.type) {
    case 0x00:
        fputs("nothing", stdout);
        break;
    case 0x01:
        putchar('"');
        print_units(item.start, item.length / 2);
        putchar('"');
        break;
    case 0x03:
    case 0x05:
    case 0x07:
    case 0x09:
        printf("%" PRId64, (int64_t)item.bits);
        break;
    case 0x04:
    case 0x06:
    case 0x08:
    case 0x0A:
    case 0x0D:
    case 0x11:
        printf("%" PRIu64, item.bits);
        break;
    case 0x0C:
        memcpy(&real, &item.bits, sizeof real);
        printf("%.17g", real);
        break;
    default:
        print_bytes(item);
        break;
    }
    printf(" (type %02X)", item.type);
}

static void print_content(doortumble_item item)
{
    switch (item.kind) {
    case DOORTUMBLE_KIND_CHAR_REF:
        printf("char %u", item.value);
        break;
    case DOORTUMBLE_KIND_ENTITY_REF:
        fputs("entity ", stdout);
        print_name(item.start);
        break;
    default:
        print_value(item);
        break;
    }
}

static void print_item(doortumble_item item)
{
    printf("  body %" PRIu32 " ", item.body);
    print_name(item.element_name);
    if (item.in_attribute) {
        fputs("/@", stdout);
        print_name(item.attribute_name);
    }
    fputs(" = ", stdout);
    print_content(item);
    putchar('\n');
}

static void print_record(doortumble_row row)
{
    uint64_t answer = doortumble_event(chunk, DOORTUMBLE_CHUNK_BYTES, doortumble_payload_start(row), doortumble_payload_length(row), 0,
                                       items, ITEMS_LEN);
    uint64_t n;

    printf("%s id %" PRIu64 "\n", row.item == DOORTUMBLE_ROW_LIVE ? "live" : "carved", row.id);
    if (doortumble_refused(answer)) {
        printf("  refused %u, %s %" PRIu64 ": %s\n", doortumble_number(answer), doortumble_place_is(doortumble_number(answer)),
               doortumble_place(answer), doortumble_why(doortumble_number(answer)));
        return;
    }
    for (n = 0; n < doortumble_count(answer); n++)
        print_item(doortumble_item_at(items, n));
}

int main(int argc, char **argv)
{
    FILE *in = argc == 2 ? fopen(argv[1], "rb") : NULL;
    size_t length = in == NULL ? 0 : fread(chunk, 1, sizeof chunk, in);
    uint64_t answer = doortumble_list(chunk, length, 1, rows, sizeof rows / sizeof *rows);
    uint64_t n;

    if (in != NULL)
        fclose(in);
    if (doortumble_refused(answer)) {
        fputs("event: it takes the name of a file that is one chunk of a log, 65,536 bytes that begin with \"ElfChnk\".\n", stderr);
        return 2;
    }
    for (n = 0; n < doortumble_count(answer); n++)
        if (doortumble_row_at(rows, n).item != DOORTUMBLE_ROW_REFUSED)
            print_record(doortumble_row_at(rows, n));
    return fflush(stdout) == 0 && !ferror(stdout) ? 0 : 4;
}
