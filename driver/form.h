/* The form of second/FORM.md: a request is a line of numbers on standard input, an answer one on standard output. */
#ifndef FORM_H
#define FORM_H
#include <stdbool.h>
#include <stddef.h>
#include <stdint.h>

/* The most numbers of a list or a room. */
enum { MOST_NUMBERS = 140000 };

/* Ends the run with a line of its own, which is no answer, so that a comparison stops there and shows the request. */
_Noreturn void stop(const char *format, ...);
_Noreturn void stop_at_bad_request(void);

/* The next request; false at the end of the input. Then its numbers, one by one, and its end. What is no request ends the run. */
bool next_request(void);
int32_t read_number(void);
size_t read_count(size_t most);
void end_request(void);

/* The numbers of an answer, one by one, and its end. A list is its count and its numbers. */
void write_natural(uint64_t value);
void write_number(int32_t value);
void write_list(const int32_t *numbers, size_t count);
void end_answer(void);

#endif
