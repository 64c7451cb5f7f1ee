#include "when.h"

#include <string.h>

#include "moment.h"

static int is_digit(char sign)
{
    return sign >= '0' && sign <= '9';
}

int read_number(const char *text, uint64_t *number)
{
    uint64_t sum = 0;

    if (*text == 0)
        return 0;
    for (; is_digit(*text); text++) {
        unsigned digit = (unsigned)(*text - '0');

        if (sum > (UINT64_MAX - digit) / 10)
            return 0;
        sum = 10 * sum + digit;
    }
    *number = sum;
    return *text == 0;
}

// So many digits behind one of these signs; answers where the text goes on, a null pointer where they do not stand there.
static const char *take(const char *text, const char *signs, unsigned digits, uint64_t *number)
{
    if (*signs != 0 && (*text == 0 || strchr(signs, *text++) == NULL))
        return NULL;
    for (*number = 0; digits > 0; digits--) {
        if (!is_digit(*text))
            return NULL;
        *number = 10 * *number + (unsigned)(*text++ - '0');
    }
    return text;
}

// The part of a second behind a point, one digit to seven. Answers as take; each digit makes the span ten times as short.
static const char *take_part(const char *text, uint64_t *tick, uint64_t *length)
{
    if (*text++ != '.' || !is_digit(*text))
        return NULL;
    for (; is_digit(*text) && *length > 1; text++) {
        *length /= 10;
        *tick += *length * (unsigned)(*text - '0');
    }
    return text;
}

// The time of day, as far as it is given; length is how many ticks are meant.
static const char *take_time(const char *text, struct date *date, uint64_t *length)
{
    text = take(text, "T t", 2, &date->hour);
    if (text != NULL)
        text = take(text, ":", 2, &date->minute);
    *length = 600000000;
    if (text == NULL || *text != ':')
        return text;
    text = take(text, ":", 2, &date->second);
    *length = 10000000;
    return text != NULL && *text == '.' ? take_part(text, &date->tick, length) : text;
}

int read_span(const char *text, struct span *span)
{
    struct date date = {0, 0, 0, 0, 0, 0, 0};
    uint64_t length = UINT64_C(864000000000);

    if (read_number(text, &span->first)) {
        span->last = span->first;
        return 1;
    }
    text = take(text, "", 4, &date.year);
    if (text != NULL)
        text = take(text, "-", 2, &date.month);
    if (text != NULL)
        text = take(text, "-", 2, &date.day);
    if (text != NULL && *text != 0 && *text != 'Z')
        text = take_time(text, &date, &length);
    if (text == NULL || text[*text == 'Z'] != 0 || !moment_of(&date, &span->first))
        return 0;
    span->last = span->first + length - 1;
    return 1;
}
