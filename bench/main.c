/* The benchmark's program:
       benchmark agree                    holds the versions to each other; status 1 if they differ
       benchmark rows                     prints the table's rows: subject, call
       benchmark ROW VERSION REPETITIONS  makes the call of a row so many times and once more, for counting instructions: what only a
                                          first call does, as the C library's sort asking for the size of memory, is then in every count
       benchmark ROW VERSION time         prints how many nanoseconds the call takes: the median of several runs */
#define _POSIX_C_SOURCE 200809L
#include "versions.h"
#include <stdio.h>
#include <stdlib.h>
#include <string.h>
#include <time.h>

#define VERSION_OF(version) \
    {#version, version##_order, version##_hull, version##_verdict, version##_report, version##_figures, version##_rebuild, \
        version##_read_picture}

#define library_order grain_order
#define library_hull grain_hull
#define library_verdict grain_verdict
#define library_report grain_report
#define library_figures grain_figures
#define library_rebuild grain_rebuild
#define library_read_picture grain_read_picture

const struct version versions[VERSIONS] = {VERSION_OF(library), VERSION_OF(plain), VERSION_OF(tuned)};

/* A loop for each call, so that nothing but the call is in it. */
void repeat(const struct version *version, enum call call, const struct task *task, struct rooms *rooms, unsigned long times)
{
    const struct task t = *task;
    switch (call) {
    case ORDER:
        while (times-- > 0)
            version->order(t.list, t.length, rooms->ordered, t.ordered_length);
        return;
    case HULL:
        while (times-- > 0)
            version->hull(t.list, t.length, rooms->ordered, t.ordered_length, rooms->corners, t.corners_length);
        return;
    case VERDICT:
        while (times-- > 0)
            version->verdict(t.list, t.length, rooms->ordered, t.ordered_length, rooms->corners, t.corners_length);
        return;
    case REPORT:
        while (times-- > 0)
            version->report(t.list, t.length, rooms->ordered, t.ordered_length, rooms->corners, t.corners_length, rooms->missing,
                t.missing_length);
        return;
    case FIGURES:
        while (times-- > 0)
            version->figures(t.list, t.length, rooms->ordered, t.ordered_length, rooms->corners, t.corners_length);
        return;
    case REBUILD:
        while (times-- > 0)
            version->rebuild(t.list, t.length, t.missing_list, t.missing_list_length, rooms->ordered, t.ordered_length);
        return;
    case READ:
        while (times-- > 0)
            version->read(t.bytes, t.bytes_length, rooms->ordered);
        return;
    }
}

/* Time */

enum { RUNS = 11 };

static double now(void)
{
    struct timespec time;
    clock_gettime(CLOCK_MONOTONIC, &time);
    return 1e9 * (double)time.tv_sec + (double)time.tv_nsec;
}

static int by_size(const void *a, const void *b)
{
    double v = *(const double *)a, w = *(const double *)b;
    return (v > w) - (v < w);
}

static double time_of(const struct version *version, enum call call, const struct task *task, struct rooms *rooms, unsigned long times)
{
    double begin = now();
    repeat(version, call, task, rooms, times);
    return now() - begin;
}

/* The median of several runs, each of as many calls as take some milliseconds. */
static double median_time(const struct version *version, enum call call, const struct task *task, struct rooms *rooms)
{
    double runs[RUNS];
    unsigned long times = 1;
    while (time_of(version, call, task, rooms, times) < 3e6)
        times *= 2;
    for (size_t i = 0; i < RUNS; i++)
        runs[i] = time_of(version, call, task, rooms, times) / (double)times;
    qsort(runs, RUNS, sizeof runs[0], by_size);
    return runs[RUNS / 2];
}

/* Words */

static int print_rows(void)
{
    for (size_t i = 0; i < number_of_rows(); i++)
        printf("%s|%s\n", row_at(i).subject, name_of(row_at(i).call));
    return 0;
}

static int usage(void)
{
    fprintf(stderr, "usage: benchmark agree | rows | ROW VERSION REPETITIONS | ROW VERSION time\n");
    return 2;
}

static const struct version *version_named(const char *name)
{
    for (size_t i = 0; i < VERSIONS; i++)
        if (strcmp(versions[i].name, name) == 0)
            return &versions[i];
    return NULL;
}

int main(int words, char **word)
{
    static struct rooms rooms;
    if (words == 2 && strcmp(word[1], "agree") == 0)
        return versions_agree() ? 0 : 1;
    if (words == 2 && strcmp(word[1], "rows") == 0)
        return print_rows();
    const struct version *version = words == 4 ? version_named(word[2]) : NULL;
    size_t place = words == 4 ? strtoul(word[1], NULL, 10) : 0;
    if (version == NULL || place >= number_of_rows())
        return usage();
    struct row row = row_at(place);
    struct task task = task_of(row);

    if (strcmp(word[3], "time") == 0)
        printf("%.1f\n", median_time(version, row.call, &task, &rooms));
    else
        repeat(version, row.call, &task, &rooms, 1 + strtoul(word[3], NULL, 10));
    return 0;
}
