#include "moment.h"

#include <string.h>

#include "out.h"

#define TICKS_A_SECOND 10000000
#define SECONDS_A_DAY 86400
#define DAYS_IN_400_YEARS 146097 // the calendar repeats after these
#define DAYS_IN_100_YEARS 36524  // one more in the last hundred of the four
#define DAYS_IN_4_YEARS 1461     // one fewer in the last four of a hundred, but for the last of 400

// The days before each month; the last line for a leap year.
static const unsigned before_month[2][13] = {
    {0, 31, 59, 90, 120, 151, 181, 212, 243, 273, 304, 334, 365},
    {0, 31, 60, 91, 121, 152, 182, 213, 244, 274, 305, 335, 366},
};

static int is_leap(uint64_t year)
{
    return year % 4 == 0 && (year % 100 != 0 || year % 400 == 0);
}

// The date of a day counted from 1 January 1601, the first day of 400 years.
static char *put_date(char *to, uint64_t day)
{
    uint64_t year = 1601 + 400 * (day / DAYS_IN_400_YEARS);
    unsigned rest = (unsigned)(day % DAYS_IN_400_YEARS);
    unsigned hundreds = rest / DAYS_IN_100_YEARS < 3 ? rest / DAYS_IN_100_YEARS : 3;
    unsigned fours, ones, month;
    const unsigned *before;

    rest -= hundreds * DAYS_IN_100_YEARS;
    fours = rest / DAYS_IN_4_YEARS;
    rest -= fours * DAYS_IN_4_YEARS;
    ones = rest / 365 < 3 ? rest / 365 : 3;
    rest -= ones * 365;
    year += 100 * hundreds + 4 * fours + ones;
    before = before_month[is_leap(year)];
    for (month = 1; before[month] <= rest; month++)
        ;
    to = year < 10000 ? put_padded(to, year, 4) : put_number(to, year);
    *to++ = '-';
    to = put_padded(to, month, 2);
    *to++ = '-';
    to = put_padded(to, rest - before[month - 1] + 1, 2);
    *to++ = 'T';
    return to;
}

static void set_second(struct moment *moment, uint64_t second)
{
    uint64_t day = second / SECONDS_A_DAY;
    unsigned rest = (unsigned)(second % SECONDS_A_DAY);
    char *to;

    if (moment->day != day + 1) {
        moment->length = (unsigned)(put_date(moment->text, day) - moment->text) + 9;
        moment->day = day + 1;
    }
    to = moment->text + moment->length - 9;
    to = put_padded(to, rest / 3600, 2);
    *to++ = ':';
    to = put_padded(to, rest / 60 % 60, 2);
    *to++ = ':';
    to = put_padded(to, rest % 60, 2);
    *to = '.';
    moment->second = second + 1;
}

char *moment_put(struct moment *moment, char *to, uint64_t ticks)
{
    uint64_t second = ticks / TICKS_A_SECOND;

    if (moment->second != second + 1)
        set_second(moment, second);
    memcpy(to, moment->text, moment->length);
    to = put_padded(to + moment->length, ticks % TICKS_A_SECOND, 7);
    *to++ = 'Z';
    return to;
}

int moment_of(const struct date *date, uint64_t *ticks)
{
    const unsigned *before = before_month[is_leap(date->year)];
    uint64_t years = date->year - 1601;
    uint64_t days;

    if (date->year < 1601 || date->year > 30827 || date->month < 1 || date->month > 12 || date->day < 1 ||
        date->day > before[date->month] - before[date->month - 1] || date->hour > 23 || date->minute > 59 || date->second > 59 ||
        date->tick >= TICKS_A_SECOND)
        return 0;
    days = 365 * years + years / 4 - years / 100 + years / 400 + before[date->month - 1] + date->day - 1;
    *ticks = (((days * 24 + date->hour) * 60 + date->minute) * 60 + date->second) * TICKS_A_SECOND + date->tick;
    return 1;
}
