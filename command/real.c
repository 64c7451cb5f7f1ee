#include "real.h"

#include <stdio.h>
#include <stdlib.h>
#include <string.h>

#include "out.h"

// Of a width: how many digits any decimal may have so that it is told from its bits, and how many tell any number.
struct width {
    int sure;
    int most;
    uint64_t exponent; // the bits of the exponent
    uint64_t fraction; // and those below
    int (*reads_back)(const char *text, uint64_t bits);
};

static int reads_back64(const char *text, uint64_t bits)
{
    double real = strtod(text, NULL);

    return memcmp(&real, &bits, sizeof real) == 0;
}

static int reads_back32(const char *text, uint64_t bits)
{
    float real = strtof(text, NULL);
    uint32_t low = (uint32_t)bits;

    return memcmp(&real, &low, sizeof real) == 0;
}

static const struct width wide = {15, 17, UINT64_C(0x7FF) << 52, (UINT64_C(1) << 52) - 1, reads_back64};
static const struct width narrow = {6, 9, UINT64_C(0xFF) << 23, (UINT64_C(1) << 23) - 1, reads_back32};

// The decimal one above in its last digit, of a text like -1.25e+07. Not 0 where there is one with as many digits.
static int raise_last(char *text)
{
    char *digit;

    for (digit = strchr(text, 'e') - 1; digit >= text && *digit != '-'; digit--) {
        if (*digit >= '0' && *digit <= '8') {
            (*digit)++;
            return 1;
        }
        if (*digit == '9')
            *digit = '0';
    }
    return 0;
}

// So many digits, if they give the bits back. Numbers lie closer together below a power of two than above it: there the decimal
// above may be the one that does, although it is not the nearest.
static int fits(char *text, double real, int digits, const struct width *width, uint64_t bits)
{
    snprintf(text, REAL_BYTES, "%.*e", digits - 1, real);
    if (width->reads_back(text, bits))
        return 1;
    return (bits & width->fraction) == 0 && raise_last(text) && width->reads_back(text, bits);
}

// The digits without point and the zeros at their end, and the exponent of the first one.
static int take_apart(const char *text, char *digits)
{
    const char *e = strchr(text, 'e');
    size_t count = 0;

    for (; text < e; text++)
        if (*text >= '0' && *text <= '9')
            digits[count++] = *text;
    while (count > 1 && digits[count - 1] == '0')
        count--;
    digits[count] = 0;
    return atoi(e + 1);
}

// As most people and programs write it: 48.5, 0.001, 1e+21.
static char *put_digits(char *to, const char *digits, int exponent)
{
    int count = (int)strlen(digits);

    if (exponent < -5 || exponent > 20)
        return to + sprintf(to, "%c%s%se%+03d", digits[0], count > 1 ? "." : "", digits + 1, exponent);
    if (exponent < 0)
        return to + sprintf(to, "0.%.*s%s", -exponent - 1, "00000", digits);
    if (count <= exponent + 1)
        return to + sprintf(to, "%s%.*s", digits, exponent + 1 - count, "000000000000000000000");
    return to + sprintf(to, "%.*s.%s", exponent + 1, digits, digits + exponent + 1);
}

#define MOST_PLACES 18 // behind the point: ten to the power of them is exact
#define FEW_PLACES 4   // as most have

// Whether a number is a decimal of at most 15 digits, with these places or more: with as many as that leaves it is one then, too.
static int is_decimal(double size, double power, int places)
{
    for (; places < MOST_PLACES && size * (power * 10) < 1e15; places++)
        power *= 10;
    return (double)(uint64_t)(size * power + 0.5) / power == size;
}

// A decimal of at most 15 digits, which most numbers are that a person ever typed. Both parts of the division are exact, so it gives the
// bits back exactly where reading the decimal does; and there is one such decimal at most with so many places.
static char *put_short(char *to, double real, uint64_t bits)
{
    double size = real < 0 ? -real : real;
    double power = 1;
    int places;

    for (places = 0; places <= MOST_PLACES && size * power < 1e15; places++, power *= 10) {
        uint64_t whole = (uint64_t)(size * power + 0.5);

        if (places == FEW_PLACES && !is_decimal(size, power, places))
            return NULL;
        if ((double)whole / power != size)
            continue;
        if (bits >> 63 != 0)
            *to++ = '-';
        to = put_number(to, whole / (uint64_t)power);
        if (places == 0)
            return to;
        *to++ = '.';
        return put_padded(to, whole % (uint64_t)power, (unsigned)places);
    }
    return NULL;
}

// Digits with a point before the last so many, without zeros at the end.
static char *put_pointed(char *to, uint64_t digits, uint64_t power, unsigned places)
{
    to = put_number(to, digits / power);
    *to++ = '.';
    to = put_padded(to, digits % power, places);
    while (to[-1] == '0')
        to--;
    return to;
}

#ifdef __SIZEOF_INT128__
__extension__ typedef unsigned __int128 wide_number;

// A number that put_short has found no decimal for, with 16 digits or else 17, by whole numbers: it is fraction * 2^-shift; times ten to the
// power of places it has 17 digits before the point, and decimals read back as it that are at most half a step away, at just half if the
// fraction is even. Below a power of two the steps are others: a null pointer, as for what is too large or too small.
static char *put_long(char *to, double real, uint64_t bits)
{
    double size = real < 0 ? -real : real;
    uint64_t fraction = (bits & wide.fraction) | (wide.fraction + 1);
    unsigned shift = 1075 - (unsigned)(bits >> 52 & 0x7FF);
    uint64_t power = 10;
    unsigned places = 1;
    wide_number exact, tens, away;
    uint64_t whole;

    if (!(size >= 1e-3 && size < 1e14) || (bits & wide.fraction) == 0)
        return NULL;
    for (exact = (wide_number)fraction * power; exact >> shift < UINT64_C(10000000000000000); places++)
        exact = (wide_number)fraction * (power *= 10);
    whole = (uint64_t)(exact >> shift);
    tens = (wide_number)((whole + 5) / 10 * 10) << shift;
    away = tens < exact ? exact - tens : tens - exact;
    if (bits >> 63 != 0)
        *to++ = '-';
    if (away < power / 2 || (away == power / 2 && fraction % 2 == 0))
        return put_pointed(to, (whole + 5) / 10, power / 10, places - 1);
    return put_pointed(to, whole + (uint64_t)(exact >> (shift - 1) & 1), power, places);
}
#else
static char *put_long(char *to, double real, uint64_t bits)
{
    (void)to, (void)real, (void)bits;
    return NULL;
}
#endif

// A number so small that it has fewer bits has fewer digits too.
static char *put_real(char *to, double real, const struct width *width, uint64_t bits)
{
    char text[REAL_BYTES];
    char digits[REAL_BYTES];
    int count = (bits & width->exponent) == 0 ? 1 : width->sure;
    int exponent;

    while (!fits(text, real, count, width, bits) && count < width->most)
        count++;
    if (text[0] == '-')
        *to++ = '-';
    exponent = take_apart(text, digits);
    return put_digits(to, digits, exponent);
}

static char *put_word(char *to, const char *word)
{
    return to + sprintf(to, "%s", word);
}

// What is no number has more bits than its name tells.
char *put_real64(char *to, uint64_t bits)
{
    double real;
    char *end;

    memcpy(&real, &bits, sizeof real);
    end = put_short(to, real, bits);
    if (end == NULL)
        end = put_long(to, real, bits);
    if (end != NULL)
        return end;
    if ((bits & wide.exponent) != wide.exponent)
        return put_real(to, real, &wide, bits);
    if ((bits & wide.fraction) != 0)
        return put_word(to, "NaN");
    return put_word(to, real < 0 ? "-Infinity" : "Infinity");
}

char *put_real32(char *to, uint32_t bits)
{
    float real;

    memcpy(&real, &bits, sizeof real);
    if ((bits & narrow.exponent) != narrow.exponent)
        return put_real(to, real, &narrow, bits);
    if ((bits & narrow.fraction) != 0)
        return put_word(to, "NaN");
    return put_word(to, real < 0 ? "-Infinity" : "Infinity");
}
