/* Lines of numbers, read and written. A line is read whole, so that only a request that is there as a whole is answered, and an answer is
   flushed at its end: whoever waits for it gets it, and a call that crashes takes no earlier answer with it. */
#include "form.h"
#include <stdarg.h>
#include <stdio.h>
#include <stdlib.h>

enum {
    MOST_DIGITS = 10,
    MOST_WORD = MOST_DIGITS + 2,                        /* a minus and a blank */
    MOST_LINE = 2 * (MOST_NUMBERS + 3) * MOST_WORD,     /* Rebuild has two lists */
    MOST_WRITTEN = 22                                   /* a blank, a minus and the 20 digits of 64 bits */
};

static char line[MOST_LINE];
static const char *next;
static bool is_read;        /* the line, up to its end */
static bool is_begun;       /* the answer */

void stop(const char *format, ...)
{
    va_list values;
    va_start(values, format);
    vprintf(format, values);
    va_end(values);
    putchar('\n');
    fflush(stdout);
    exit(1);
}

void stop_at_bad_request(void)
{
    stop("bad request");
}

bool next_request(void)
{
    next = line;
    is_read = false;
    return fgets(line, sizeof line, stdin) != NULL;
}

/* The digits of the next number, as far as there are not too many of them. */
static int64_t read_digits(void)
{
    int64_t value = 0;
    for (const char *end = next + MOST_DIGITS; next < end && *next >= '0' && *next <= '9'; next++)
        value = 10 * value + (*next - '0');
    return value;
}

/* Whether the digits up to `next` are a number in plain decimal: at least one, no leading zero, no minus before 0. */
static bool is_plain(const char *first, bool negative)
{
    return next > first && (*first != '0' || (next == first + 1 && !negative));
}

/* Behind a number stands a blank, and behind the last one the line end; nothing is read beyond it. */
static int64_t read_within(int64_t least, int64_t most)
{
    if (is_read)
        stop_at_bad_request();
    bool negative = *next == '-';
    if (negative)
        next++;
    const char *first = next;
    int64_t value = read_digits() * (negative ? -1 : 1);
    is_read = *next == '\n';
    if (!is_plain(first, negative) || !(is_read || *next == ' ') || value < least || value > most)
        stop_at_bad_request();
    next++;
    return value;
}

int32_t read_number(void)
{
    return (int32_t)read_within(INT32_MIN, INT32_MAX);
}

size_t read_count(size_t most)
{
    return (size_t)read_within(0, (int64_t)most);
}

void end_request(void)
{
    if (!is_read)
        stop_at_bad_request();
}

static void write_word(bool negative, uint64_t magnitude)
{
    char word[MOST_WRITTEN], *first = word + MOST_WRITTEN;
    do
        *--first = (char)('0' + magnitude % 10);
    while (magnitude /= 10);
    if (negative)
        *--first = '-';
    if (is_begun)
        *--first = ' ';
    is_begun = true;
    fwrite(first, 1, (size_t)(word + MOST_WRITTEN - first), stdout);
}

void write_natural(uint64_t value)
{
    write_word(false, value);
}

void write_number(int32_t value)
{
    int64_t wide = value;
    write_word(wide < 0, (uint64_t)(wide < 0 ? -wide : wide));
}

void write_list(const int32_t *numbers, size_t count)
{
    write_natural(count);
    for (size_t i = 0; i < count; i++)
        write_number(numbers[i]);
}

void end_answer(void)
{
    is_begun = false;
    putchar('\n');
    if (fflush(stdout) != 0)
        exit(2);
}
