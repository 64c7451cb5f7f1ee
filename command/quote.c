#include "quote.h"

#include <string.h>

// How many bytes the UTF-8 character here has; 0 where it is none: a wrong byte, one that is cut, one longer than it need be, a
// surrogate, or one past 10FFFF. The text ends in a zero, which continues no character.
static size_t utf8_length(const unsigned char *text)
{
    static const unsigned char lowest[] = {0xE0, 0xA0, 0xF0, 0x90};  // a first byte, and the least that may follow it
    static const unsigned char highest[] = {0xED, 0x9F, 0xF4, 0x8F}; // the same, and the most
    size_t length = text[0] < 0x80 ? 1 : text[0] < 0xC2 ? 0 : text[0] < 0xE0 ? 2 : text[0] < 0xF0 ? 3 : text[0] < 0xF5 ? 4 : 0;
    size_t n;

    for (n = 1; n < length; n++)
        if ((text[n] & 0xC0) != 0x80)
            return 0;
    for (n = 0; n < 4; n += 2)
        if ((text[0] == lowest[n] && text[1] < lowest[n + 1]) || (text[0] == highest[n] && text[1] > highest[n + 1]))
            return 0;
    return length;
}

// What would end a line for some readers, or is a control character: the number to escape it by; 0: it stands as it is.
static unsigned escape_of(const unsigned char *from)
{
    if (from[0] < 0x20 || from[0] == 0x7F)
        return from[0];
    if (from[0] == 0xC2 && from[1] < 0xA0)
        return from[1];
    return from[0] == 0xE2 && from[1] == 0x80 && (from[2] == 0xA8 || from[2] == 0xA9) ? 0x2000u + from[2] - 0x80 : 0;
}

static char *put_byte(char *to, unsigned byte)
{
    static const char digits[] = "0123456789abcdef";

    *to++ = digits[byte >> 4];
    *to++ = digits[byte & 15];
    return to;
}

void quote_shown(char *to, size_t room, const char *text)
{
    const unsigned char *from = (const unsigned char *)text;
    const char *last = to + room - 8; // a character takes 4 bytes at most; then the dots and the zero

    while (*from != 0 && to < last) {
        size_t length = utf8_length(from);

        if (length == 0 || escape_of(from) != 0) {
            *to++ = '\\';
            *to++ = 'x';
            to = put_byte(to, *from++);
        } else {
            memcpy(to, from, length);
            to += length;
            from += length;
        }
    }
    strcpy(to, *from == 0 ? "" : "...");
}

// One character of a JSON string; answers how many bytes of the text it took.
static size_t json_character(struct out *out, const unsigned char *from)
{
    size_t length = utf8_length(from);
    unsigned escape = length == 0 ? 0xDC00u + *from : escape_of(from);
    char *to = out_room(out, 8);

    if (escape != 0) {
        memcpy(to, "\\u", 2);
        to = put_byte(put_byte(to + 2, escape >> 8), escape & 0xFF);
    } else {
        if (*from == '"' || *from == '\\')
            *to++ = '\\';
        memcpy(to, from, length);
        to += length;
    }
    out_took(out, to);
    return length == 0 ? 1 : length;
}

// How many bytes go into a JSON string as they are.
static size_t json_plain(const unsigned char *from)
{
    size_t n = 0;

    while (from[n] >= 0x20 && from[n] < 0x7F && from[n] != '"' && from[n] != '\\')
        n++;
    return n;
}

void quote_json(struct out *out, const char *text)
{
    const unsigned char *from = (const unsigned char *)text;

    out_text(out, "\"");
    while (*from != 0) {
        size_t plain = json_plain(from);

        out_bytes(out, (const char *)from, plain);
        from += plain;
        if (*from != 0)
            from += json_character(out, from);
    }
    out_text(out, "\"");
}

void quote_csv(struct out *out, const char *text)
{
    if (text[strcspn(text, "\",\r\n")] == 0) {
        out_text(out, text);
        return;
    }
    out_text(out, "\"");
    for (; *text != 0; text++)
        out_bytes(out, *text == '"' ? "\"\"" : text, *text == '"' ? 2 : 1);
    out_text(out, "\"");
}
