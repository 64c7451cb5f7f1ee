#include "units.h"

#include <string.h>

#define AT_ONCE (OUT_ROOM / UNIT_BYTES) // units that go into the room of one call

static unsigned unit_at(const uint8_t *units, size_t n)
{
    return units[2 * n] | (unsigned)units[2 * n + 1] << 8;
}

static int is_high(unsigned unit)
{
    return unit >= 0xD800 && unit < 0xDC00;
}

static int is_low(unsigned unit)
{
    return unit >= 0xDC00 && unit < 0xE000;
}

static char *put_escape(char *to, unsigned unit)
{
    static const char digits[] = "0123456789ABCDEF";
    int shift;

    *to++ = '\\';
    *to++ = 'u';
    for (shift = 12; shift >= 0; shift -= 4)
        *to++ = digits[unit >> shift & 15];
    return to;
}

// An ASCII character that does not stand for itself.
static char *put_special(char *to, unsigned unit, enum units_style style)
{
    static const char named[] = "\tt\nn\rr\\\\\"\"";
    size_t n;

    if (style == UNITS_LABEL || style == UNITS_NAME)
        return put_escape(to, unit);
    if (unit == '"' && style != UNITS_QUOTED)
        return put_left(to, style == UNITS_CSV ? "\"\"" : "\\\"\"", 0);
    for (n = 0; n + 1 < sizeof named; n += 2)
        if ((unsigned)named[n] == unit) {
            *to++ = '\\';
            *to++ = named[n + 1];
            return to;
        }
    return put_escape(to, unit);
}

// Which ASCII characters stand for themselves, a bit for each style.
#define TEXT (1 << UNITS_QUOTED | 1 << UNITS_CSV | 1 << UNITS_IN_CSV)
#define LABEL (TEXT | 1 << UNITS_LABEL)
#define ALL (LABEL | 1 << UNITS_NAME)
static const uint8_t plain[256] = {
    0,     0,     0,     0,     0,     0,     0,     0,     0,     0,     0,     0,     0,     0,     0,     0,     // controls
    0,     0,     0,     0,     0,     0,     0,     0,     0,     0,     0,     0,     0,     0,     0,     0,     //
    LABEL, LABEL, 0,     LABEL, LABEL, LABEL, LABEL, LABEL, LABEL, LABEL, LABEL, LABEL, LABEL, ALL,   ALL,   LABEL, // to /
    ALL,   ALL,   ALL,   ALL,   ALL,   ALL,   ALL,   ALL,   ALL,   ALL,   ALL,   LABEL, LABEL, LABEL, LABEL, LABEL, // 0 to ?
    LABEL, ALL,   ALL,   ALL,   ALL,   ALL,   ALL,   ALL,   ALL,   ALL,   ALL,   ALL,   ALL,   ALL,   ALL,   ALL,   // @ to O
    ALL,   ALL,   ALL,   ALL,   ALL,   ALL,   ALL,   ALL,   ALL,   ALL,   ALL,   TEXT,  0,     TEXT,  LABEL, ALL,   // P to _
    LABEL, ALL,   ALL,   ALL,   ALL,   ALL,   ALL,   ALL,   ALL,   ALL,   ALL,   ALL,   ALL,   ALL,   ALL,   ALL,   // ` to o
    ALL,   ALL,   ALL,   ALL,   ALL,   ALL,   ALL,   ALL,   ALL,   ALL,   ALL,   LABEL, LABEL, LABEL, LABEL, 0,     // p to DEL
};

// What a person would not see, or see elsewhere than it stands: controls, ends of lines and paragraphs, marks of direction and of
// byte order.
static int is_hidden(unsigned unit)
{
    return unit < 0xA0 || unit == 0xAD || unit == 0x61C || (unit >= 0x200B && unit <= 0x200F) || (unit >= 0x2028 && unit <= 0x202E) ||
           (unit >= 0x2060 && unit <= 0x206F) || unit == 0xFEFF || unit >= 0xFFF9;
}

static char *put_utf8(char *to, unsigned code)
{
    unsigned more = code < 0x800 ? 1 : code < 0x10000 ? 2 : 3; // bytes behind the first
    unsigned n;

    *to++ = (char)((0xFF00u >> (more + 1) & 0xFF) | code >> 6 * more);
    for (n = more; n > 0; n--)
        *to++ = (char)(0x80 | (code >> 6 * (n - 1) & 0x3F));
    return to;
}

// A character beyond ASCII; answers how many units it took. A lone surrogate is told in unsound.
static size_t put_wide(char **to, const uint8_t *units, size_t left, int *unsound)
{
    unsigned unit = unit_at(units, 0);

    if (is_high(unit) && left > 1 && is_low(unit_at(units, 1))) {
        *to = put_utf8(*to, 0x10000 + ((unit - 0xD800) << 10) + (unit_at(units, 1) - 0xDC00));
        return 2;
    }
    if (is_high(unit) || is_low(unit))
        *unsound = 1;
    *to = is_high(unit) || is_low(unit) || is_hidden(unit) ? put_escape(*to, unit) : put_utf8(*to, unit);
    return 1;
}

// One character that does not stand for itself; answers how many units it took.
static size_t put_other(char **to, const uint8_t *units, size_t left, enum units_style style, int *unsound)
{
    unsigned unit = unit_at(units, 0);

    if (unit >= 0x7F)
        return put_wide(to, units, left, unsound);
    *to = put_special(*to, unit, style);
    return 1;
}

// Four units that stand for themselves, as most do. Not 0 where they are that.
static int put_four(char *to, const uint8_t *units, unsigned bit)
{
    to[0] = (char)units[0];
    to[1] = (char)units[2];
    to[2] = (char)units[4];
    to[3] = (char)units[6];
    return (units[1] | units[3] | units[5] | units[7]) == 0 &&
           (plain[units[0]] & plain[units[2]] & plain[units[4]] & plain[units[6]] & bit) != 0;
}

// The units up to end, of so many that there are; the last may take one more. Answers how far it came.
static size_t put_some(char **to, const uint8_t *units, size_t n, size_t end, size_t count, enum units_style style, int *unsound)
{
    unsigned bit = 1u << style;
    char *at = *to;

    while (n < end) {
        for (; end - n >= 4 && put_four(at, units + 2 * n, bit); n += 4)
            at += 4;
        if (n < end && units[2 * n + 1] == 0 && (plain[units[2 * n]] & bit) != 0)
            *at++ = (char)units[2 * n++];
        else if (n < end)
            n += put_other(&at, units + 2 * n, count - n, style, unsound);
    }
    *to = at;
    return n;
}

char *units_put(char *to, const uint8_t *units, size_t count, enum units_style style)
{
    int unsound = 0;

    put_some(&to, units, 0, count, count, style, &unsound);
    return to;
}

int units_out(struct out *out, const uint8_t *units, size_t count, enum units_style style)
{
    int unsound = 0;
    size_t n = 0;

    while (n < count) {
        char *to = out_room(out, AT_ONCE * UNIT_BYTES);

        n = put_some(&to, units, n, count - n < AT_ONCE ? count : n + AT_ONCE, count, style, &unsound);
        out_took(out, to);
    }
    return unsound;
}
