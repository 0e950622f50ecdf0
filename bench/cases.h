/* The rows of the table: a grain or a picture, and a call that is made with it. */
#ifndef CASES_H
#define CASES_H
#include "calls.h"

enum call { ORDER, HULL, VERDICT, REPORT, FIGURES, REBUILD, READ };

/* What a call is lent. Lengths count numbers, two for each point. Rooms are given by length only: whoever makes the call has them. */
struct task {
    const int32_t *list;
    size_t length;
    const int32_t *missing_list;    /* for Rebuild, whose list holds the corners */
    size_t missing_list_length;
    const uint8_t *bytes;           /* for Read */
    size_t bytes_length;
    size_t ordered_length, corners_length, missing_length;
};

/* The greatest lengths that rooms have in a task. The ordered list is also the room for the points of Rebuild and of a picture. */
enum { ORDERED_ROOM = GRAIN_LIST_LENGTH, CORNERS_ROOM = GRAIN_LIST_LENGTH, MISSING_ROOM = 600000 };

struct row {
    const char *subject;
    enum call call;
    void (*make)(struct task *task);
    uint32_t number;                /* that the call must give: 0, or the refusal that the row is for */
};

size_t number_of_rows(void);
struct row row_at(size_t place);
const char *name_of(enum call call);

/* The task of a row, in space that the next one takes over. */
struct task task_of(struct row row);

/* A fixed sequence of numbers, each below n; it starts again from any seed but 0. */
void seed(uint64_t start);
uint32_t below(uint32_t n);

#endif
