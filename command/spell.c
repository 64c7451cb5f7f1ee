#include "spell.h"

#include <inttypes.h>
#include <stdio.h>
#include <string.h>

#include "real.h"

// Types of values.
enum {
    TYPE_NULL = 0x00,
    TYPE_STRING = 0x01,
    TYPE_INT8 = 0x03,
    TYPE_UINT8 = 0x04,
    TYPE_INT16 = 0x05,
    TYPE_UINT16 = 0x06,
    TYPE_INT32 = 0x07,
    TYPE_UINT32 = 0x08,
    TYPE_INT64 = 0x09,
    TYPE_UINT64 = 0x0A,
    TYPE_REAL32 = 0x0B,
    TYPE_REAL64 = 0x0C,
    TYPE_BOOL = 0x0D,
    TYPE_GUID = 0x0F,
    TYPE_SIZE_T = 0x10,
    TYPE_FILETIME = 0x11,
    TYPE_SYSTEMTIME = 0x12,
    TYPE_SID = 0x13,
    TYPE_HEX_INT32 = 0x14,
    TYPE_HEX_INT64 = 0x15,
    TYPE_BIN_XML = 0x21,
    TYPE_STRING_ARRAY = 0x81,
    TYPE_ARRAY = 0x80 // plus the type of its elements
};

static const char *const types[] = {"Null",   "String",  "AnsiString", "Int8",   "UInt8",  "Int16",    "UInt16",     "Int32",
                                    "UInt32", "Int64",   "UInt64",     "Real32", "Real64", "Boolean",  "Binary",     "GUID",
                                    "SizeT",  "FILETIME", "SYSTEMTIME", "SID",    "HexInt32", "HexInt64"};
static const char *const arrays[] = {"Null array",   "String array",   "AnsiString array", "Int8 array",     "UInt8 array",
                                     "Int16 array",  "UInt16 array",   "Int32 array",      "UInt32 array",   "Int64 array",
                                     "UInt64 array", "Real32 array",   "Real64 array",     "Boolean array",  "Binary array",
                                     "GUID array",   "SizeT array",    "FILETIME array",   "SYSTEMTIME array", "SID array",
                                     "HexInt32 array", "HexInt64 array"};

#define TYPES (sizeof types / sizeof *types)

const char *spell_type(const struct field *field)
{
    unsigned type = field->item.type;

    if (field->item.kind == DOORTUMBLE_KIND_CHAR_REF)
        return "character";
    if (field->item.kind == DOORTUMBLE_KIND_ENTITY_REF)
        return "entity";
    if (field->stands_for_nothing)
        return "none";
    if (type < TYPES)
        return types[type];
    if (type == TYPE_BIN_XML)
        return "BinXml";
    return type >= TYPE_ARRAY && type - TYPE_ARRAY < TYPES ? arrays[type - TYPE_ARRAY] : "other";
}

// -------------------------------------------------------------------------------------------------------------- numbers

static uint64_t little(const uint8_t *bytes, size_t length)
{
    uint64_t number = 0;

    while (length > 0)
        number = number << 8 | bytes[--length];
    return number;
}

// Sizes and hex numbers are handed out as bytes; the other numbers by their bits.
static int is_stored_number(const doortumble_item *item)
{
    return (item->type == TYPE_SIZE_T || item->type == TYPE_HEX_INT32 || item->type == TYPE_HEX_INT64) && item->length <= 8;
}

static int is_number(const doortumble_item *item)
{
    return (item->type >= TYPE_INT8 && item->type <= TYPE_BOOL) || item->type == TYPE_FILETIME || is_stored_number(item);
}

static char *put_signed(char *to, uint64_t bits)
{
    if (bits >> 63 == 0)
        return put_number(to, bits);
    *to++ = '-';
    return put_number(to, 0 - bits);
}

// What is neither 0 nor 1 is told by its number.
static char *put_bool(char *to, uint64_t bits)
{
    if (bits > 1)
        return put_number(to, bits);
    return put_left(to, bits == 0 ? "false" : "true", 0);
}

static char *put_nan(char *to, uint64_t bits, unsigned digits)
{
    return to + sprintf(to, " (bits %0*" PRIX64 ")", (int)digits, bits);
}

// All numbers that are no number have the same name: their bits are told beside it.
static char *put_real(char *to, const doortumble_item *item)
{
    char *end = item->type == TYPE_REAL32 ? put_real32(to, (uint32_t)item->bits) : put_real64(to, item->bits);

    return *to == 'N' ? put_nan(end, item->bits, item->type == TYPE_REAL32 ? 8 : 16) : end;
}

// ---------------------------------------------------------------------------------------------------------------- times

// A SYSTEMTIME has eight numbers of two bytes: year, month, day of the week, day, hour, minute, second and thousandth. Not 0 where
// they are a time.
static int systemtime_ticks(const uint8_t *bytes, uint64_t *ticks)
{
    struct date date;

    date.year = little(bytes, 2);
    date.month = little(bytes + 2, 2);
    date.day = little(bytes + 6, 2);
    date.hour = little(bytes + 8, 2);
    date.minute = little(bytes + 10, 2);
    date.second = little(bytes + 12, 2);
    date.tick = little(bytes + 14, 2) * 10000;
    return moment_of(&date, ticks);
}

static char *put_time(struct spelling *spelling, uint64_t ticks)
{
    spelling->is_time = 1;
    spelling->ticks = ticks;
    return moment_put(&spelling->moment, spelling->text, ticks);
}

// ------------------------------------------------------------------------------------------------------- GUIDs and SIDs

static char *put_guid(char *to, const uint8_t *bytes)
{
    *to++ = '{';
    to = put_hex(to, little(bytes, 4), 8);
    *to++ = '-';
    to = put_hex(to, little(bytes + 4, 2), 4);
    *to++ = '-';
    to = put_hex(to, little(bytes + 6, 2), 4);
    *to++ = '-';
    to = put_hex_bytes(to, bytes + 8, 2);
    *to++ = '-';
    to = put_hex_bytes(to, bytes + 10, 6);
    *to++ = '}';
    return to;
}

// The authority has six bytes, the high one first; from 2^32 on it is written in hex.
static char *put_sid(char *to, const uint8_t *bytes)
{
    unsigned n;

    *to++ = 'S';
    *to++ = '-';
    to = put_number(to, bytes[0]);
    *to++ = '-';
    if (bytes[2] == 0 && bytes[3] == 0)
        to = put_number(to, (uint64_t)bytes[4] << 24 | (uint64_t)bytes[5] << 16 | (uint64_t)bytes[6] << 8 | bytes[7]);
    else
        to = put_hex_bytes(put_left(to, "0x", 2), bytes + 2, 6);
    for (n = 0; n < bytes[1]; n++) {
        *to++ = '-';
        to = put_number(to, little(bytes + 8 + 4 * n, 4));
    }
    return to;
}

// ---------------------------------------------------------------------------------------------------------- the spelling

// A value by its type; a null pointer where it is told by its bytes.
static char *put_value(struct spelling *spelling, const uint8_t *bytes, const struct field *field)
{
    const doortumble_item *item = &field->item;
    char *to = spelling->text;
    uint64_t ticks;

    switch (item->type) {
    case TYPE_INT8:
    case TYPE_INT16:
    case TYPE_INT32:
    case TYPE_INT64:
        return put_signed(to, item->bits);
    case TYPE_UINT8:
    case TYPE_UINT16:
    case TYPE_UINT32:
    case TYPE_UINT64:
        return put_number(to, item->bits);
    case TYPE_REAL32:
    case TYPE_REAL64:
        return put_real(to, item);
    case TYPE_BOOL:
        return put_bool(to, item->bits);
    case TYPE_GUID:
        return item->length == 16 ? put_guid(to, bytes) : NULL;
    case TYPE_SIZE_T:
        return is_stored_number(item) ? put_number(to, little(bytes, item->length)) : NULL;
    case TYPE_HEX_INT32:
    case TYPE_HEX_INT64:
        return is_stored_number(item) ? put_hex(put_left(to, "0x", 2), little(bytes, item->length), 2 * item->length) : NULL;
    case TYPE_FILETIME:
        return put_time(spelling, item->bits);
    case TYPE_SYSTEMTIME:
        return item->length == 16 && systemtime_ticks(bytes, &ticks) ? put_time(spelling, ticks) : NULL;
    case TYPE_SID:
        return item->length >= 8 && item->length == 8 + 4u * bytes[1] ? put_sid(to, bytes) : NULL;
    case TYPE_BIN_XML:
        return field->inner == 0 ? NULL : put_number(put_left(to, "body ", 0), field->inner);
    default:
        return NULL;
    }
}

// A reference is written as in XML.
static char *put_reference(char *to, struct event *event, const doortumble_item *item)
{
    struct name name;

    if (item->kind == DOORTUMBLE_KIND_CHAR_REF)
        return to + sprintf(to, "&#%u;", item->value);
    name = name_at(&event->names, item->start);
    *to++ = '&';
    memcpy(to, name.text, name.length);
    to += name.length;
    *to++ = ';';
    return to;
}

static int is_reference(const doortumble_item *item)
{
    return item->kind == DOORTUMBLE_KIND_CHAR_REF || item->kind == DOORTUMBLE_KIND_ENTITY_REF;
}

// Whether all texts of an array are ended; else it is told by its bytes.
static int are_texts(const uint8_t *bytes, size_t length)
{
    return length % 2 == 0 && (length == 0 || (bytes[length - 1] == 0 && bytes[length - 2] == 0));
}

// How a value is told that is not short.
static enum spelled spelled_long(const uint8_t *bytes, const doortumble_item *item)
{
    switch (item->type) {
    case TYPE_NULL:
        return SPELLED_NOTHING;
    case TYPE_STRING:
        return SPELLED_TEXT;
    case TYPE_STRING_ARRAY:
        return are_texts(bytes, item->length) ? SPELLED_TEXTS : SPELLED_BYTES;
    default:
        return SPELLED_BYTES;
    }
}

void spell_value(struct spelling *spelling, char *to, struct event *event, const struct field *field)
{
    char *end;

    spelling->is_time = 0;
    spelling->text = to;
    spelling->length = 0;
    spelling->how = SPELLED_SHORT;
    if (is_reference(&field->item))
        end = put_reference(spelling->text, event, &field->item);
    else if (field->item.type == TYPE_NULL)
        end = NULL;
    else
        end = put_value(spelling, event->chunk + field->item.start, field);
    if (end != NULL)
        spelling->length = (size_t)(end - spelling->text);
    else
        spelling->how = spelled_long(event->chunk + field->item.start, &field->item);
}

// --------------------------------------------------------------------------------------------------------- text and texts

static int quoted(struct out *out, const uint8_t *units, size_t count, enum units_style style)
{
    size_t quotes = style == UNITS_IN_CSV ? 2 : 1;
    int unsound;

    out_bytes(out, "\"\"", quotes);
    unsound = units_out(out, units, count, style);
    out_bytes(out, "\"\"", quotes);
    return unsound;
}

int spell_text(struct out *out, const struct event *event, const struct field *field, enum units_style style)
{
    return quoted(out, event->chunk + field->item.start, field->item.length / 2, style);
}

int spell_texts(struct out *out, const struct event *event, const struct field *field, enum units_style style)
{
    const uint8_t *units = event->chunk + field->item.start;
    size_t count = field->item.length / 2;
    int unsound = 0;
    size_t first = 0;
    size_t n;

    out_text(out, "[");
    for (n = 0; n < count; n++)
        if (units[2 * n] == 0 && units[2 * n + 1] == 0) {
            out_text(out, first == 0 ? "" : ",");
            unsound |= quoted(out, units + 2 * first, n - first, style);
            first = n + 1;
        }
    out_text(out, "]");
    return unsound;
}

// ----------------------------------------------------------------------------------------------------------------- bits

void spell_hex(struct out *out, const uint8_t *bytes, size_t length)
{
    while (length > 0) {
        size_t part = length < OUT_ROOM / 2 ? length : OUT_ROOM / 2;

        out_took(out, put_hex_bytes(out_room(out, 2 * part), bytes, part));
        bytes += part;
        length -= part;
    }
}

int spell_has_bits(const struct field *field)
{
    return !is_reference(&field->item) && field->item.type != TYPE_NULL && field->inner == 0;
}

void spell_bits(struct out *out, const struct event *event, const struct field *field)
{
    const doortumble_item *item = &field->item;

    if (!spell_has_bits(field))
        return;
    if (!is_number(item) || item->length > 8)
        spell_hex(out, event->chunk + item->start, item->length);
    else
        out_took(out, put_hex(out_room(out, 16), is_stored_number(item) ? little(event->chunk + item->start, item->length) : item->bits,
                              2 * item->length));
}
