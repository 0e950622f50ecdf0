/* The lists and rooms that a call is lent. Each stands between two zones of known bytes, which no call may write, and is known as it was
   before the call. What is broken ends the run with a line that says what and where. */
#ifndef LENT_H
#define LENT_H
#include "form.h"

enum { ZONE = 64 };     /* numbers, and so 256 bytes */

struct lent {
    const char *name;
    bool is_room;                                       /* a list is only read */
    size_t size;                                        /* in bytes */
    int32_t before[MOST_NUMBERS];
    int32_t space[ZONE + MOST_NUMBERS + ZONE];          /* a zone, what is lent, and the other zone right behind it */
};

int32_t *numbers_of(struct lent *lent);
size_t length_of(const struct lent *lent);
uint8_t *bytes_of(struct lent *lent);

/* A list or a room as two parameters of a call. */
#define NUMBERS(lent) numbers_of(lent), length_of(lent)
#define BYTES(lent) bytes_of(lent), (lent)->size

/* Takes all back, before the next request. */
void take_back(void);

/* Parts of the request. */
struct lent *lend_list(const char *name);
struct lent *lend_bytes(const char *name);
struct lent *lend_room(const char *name);

/* What no request has: numbers that a call left, and a room of so many bytes. */
struct lent *lend_copy(const char *name, const int32_t *numbers, size_t length);
struct lent *lend_blank(const char *name, size_t size);

/* After a call: every zone and every list is as before; and so is a room behind a result of `count` things of `unit` bytes. */
void check_lent(void);
void check_behind(struct lent *room, size_t count, size_t unit);

/* Every room of the request, up to the last number that is not as before. */
void write_rooms(void);

/* The first byte in which two parts of memory differ; their size where they do not. */
size_t first_difference(const uint8_t *one, const uint8_t *other, size_t size);

#endif
