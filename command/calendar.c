#include "calendar.h"

#include <string.h>

#define SECOND UINT64_C(1000000000)
#define DAY UINT64_C(86400)

/* Days from 0000-03-01 to 1970-01-01: counting from March puts the leap day at a year's end. */
#define DAYS_TO_1970 719468
#define DAYS_OF_400_YEARS 146097

static bool is_digit(char c)
{
    return c >= '0' && c <= '9';
}

static bool is_leap(unsigned year)
{
    return year % 4 == 0 && (year % 100 != 0 || year % 400 == 0);
}

static unsigned days_of_month(unsigned year, unsigned month)
{
    static const unsigned char days[] = {31, 28, 31, 30, 31, 30, 31, 31, 30, 31, 30, 31};
    return month == 2 && is_leap(year) ? 29 : days[month - 1];
}

/* Days since 1970-01-01 of a date from 1970 on. */
static uint64_t days_of_date(unsigned year, unsigned month, unsigned day)
{
    unsigned from_march = (month + 9) % 12;
    uint64_t years = year - (month <= 2);
    uint64_t days_before_month = (153 * from_march + 2) / 5;
    return years * 365 + years / 4 - years / 100 + years / 400 + days_before_month + day - 1 - DAYS_TO_1970;
}

static void date_of_days(uint64_t days, unsigned *year, unsigned *month, unsigned *day)
{
    uint64_t since = days + DAYS_TO_1970;
    uint64_t era = since / DAYS_OF_400_YEARS;
    unsigned of_era = (unsigned)(since % DAYS_OF_400_YEARS);
    unsigned years = (of_era - of_era / 1460 + of_era / 36524 - of_era / 146096) / 365;
    unsigned of_year = of_era - (365 * years + years / 4 - years / 100);
    unsigned from_march = (5 * of_year + 2) / 153;
    *day = of_year - (153 * from_march + 2) / 5 + 1;
    *month = from_march < 10 ? from_march + 3 : from_march - 9;
    *year = (unsigned)(era * 400) + years + (*month <= 2);
}

/* Reads exactly so many digits and the byte after them, and steps past both. */
static bool take(const char **at, int digits, char after, unsigned *value)
{
    *value = 0;
    for (int i = 0; i < digits; i++, ++*at) {
        if (!is_digit(**at))
            return false;
        *value = *value * 10 + (unsigned)(**at - '0');
    }
    return *(*at)++ == after;
}

/* Reads the end of a date: an optional point with one to nine digits, then Z. */
static bool take_fraction(const char *at, uint64_t *nanoseconds)
{
    uint64_t unit = SECOND;
    *nanoseconds = 0;
    if (*at == '.') {
        for (at++; is_digit(*at) && unit > 1; at++) {
            unit /= 10;
            *nanoseconds += unit * (uint64_t)(*at - '0');
        }
        if (unit == SECOND)
            return false;
    }
    return strcmp(at, "Z") == 0;
}

static bool parse_nanoseconds(const char *text, uint64_t *time)
{
    uint64_t value = 0;
    for (; is_digit(*text); text++) {
        unsigned digit = (unsigned)(*text - '0');
        if (value > (UINT64_MAX - digit) / 10)
            return false;
        value = value * 10 + digit;
    }
    *time = value;
    return *text == '\0';
}

static bool parse_date(const char *text, uint64_t *time)
{
    unsigned year, month, day, hour, minute, second;
    uint64_t nanoseconds;
    if (!take(&text, 4, '-', &year) || !take(&text, 2, '-', &month) || !take(&text, 2, 'T', &day))
        return false;
    if (year < 1970 || month < 1 || month > 12 || day < 1 || day > days_of_month(year, month))
        return false;
    if (!take(&text, 2, ':', &hour) || !take(&text, 2, ':', &minute) || hour > 23 || minute > 59)
        return false;
    /* The seconds have no fixed byte after them, so the text is cut by hand. */
    if (!is_digit(text[0]) || !is_digit(text[1]) || !take_fraction(text + 2, &nanoseconds))
        return false;
    second = (unsigned)(text[0] - '0') * 10 + (unsigned)(text[1] - '0');
    if (second > 59)
        return false;
    uint64_t seconds = days_of_date(year, month, day) * DAY + hour * 3600 + minute * 60 + second;
    if (seconds > (UINT64_MAX - nanoseconds) / SECOND)
        return false;
    *time = seconds * SECOND + nanoseconds;
    return true;
}

bool calendar_parse(const char *text, uint64_t *time)
{
    if (!is_digit(*text))
        return false;
    return parse_nanoseconds(text, time) || parse_date(text, time);
}

/* Writes so many decimal digits and the byte after them; gives the next position back. */
static char *put(char *at, uint64_t value, int digits, char after)
{
    for (int i = digits; i-- > 0; value /= 10)
        at[i] = (char)('0' + value % 10);
    at[digits] = after;
    return at + digits + 1;
}

void calendar_format(uint64_t time, char text[CALENDAR_TEXT])
{
    uint64_t seconds = time / SECOND;
    uint64_t of_day = seconds % DAY;
    unsigned year, month, day;
    date_of_days(seconds / DAY, &year, &month, &day);
    text = put(text, year, 4, '-');
    text = put(text, month, 2, '-');
    text = put(text, day, 2, 'T');
    text = put(text, of_day / 3600, 2, ':');
    text = put(text, of_day / 60 % 60, 2, ':');
    text = put(text, of_day % 60, 2, '.');
    text = put(text, time % SECOND, 9, 'Z');
    *text = '\0';
}
