/* Makes the grains and pictures of the table, the same on every run: a bench gives its points in no order, so every list is shuffled. */
#include "cases.h"
#include <stdbool.h>
#include <stdlib.h>
#include <string.h>

enum { RANDOM_SIDE = 512, MOST_STEPS = 2500, GREATEST_STEP = 40 };

static int32_t list[GRAIN_LIST_LENGTH + 2], missing_list[MISSING_ROOM];
static uint8_t bytes[GRAIN_PICTURE_LENGTH];
static size_t points;

/* Numbers */

static uint64_t state;

void seed(uint64_t start)
{
    state = start;
}

/* Marsaglia's xorshift with a multiplication at its end. */
uint32_t below(uint32_t n)
{
    state ^= state >> 12;
    state ^= state << 25;
    state ^= state >> 27;
    uint64_t number = state * 2685821657736338717u >> 32;
    return (uint32_t)(number * n >> 32);
}

/* Points */

static void start(void)
{
    points = 0;
    seed(20261115);
}

static void add(int32_t x, int32_t y)
{
    list[2 * points] = x;
    list[2 * points + 1] = y;
    points++;
}

static void swap_points(int32_t *numbers, size_t i, size_t j)
{
    for (size_t k = 0; k < 2; k++) {
        int32_t kept = numbers[2 * i + k];
        numbers[2 * i + k] = numbers[2 * j + k];
        numbers[2 * j + k] = kept;
    }
}

static void shuffle(void)
{
    for (size_t i = points; i > 1; i--)
        swap_points(list, i - 1, below((uint32_t)i));
}

/* The list and rooms that are large enough for everything. */
static void lend(struct task *task)
{
    task->list = list;
    task->length = 2 * points;
    task->ordered_length = ORDERED_ROOM;
    task->corners_length = CORNERS_ROOM;
    task->missing_length = MISSING_ROOM;
}

/* Grains */

static void make_random(struct task *task)
{
    static bool taken[RANDOM_SIDE][RANDOM_SIDE];
    memset(taken, 0, sizeof taken);
    start();
    while (points < GRAIN_MOST_POINTS) {
        uint32_t x = below(RANDOM_SIDE), y = below(RANDOM_SIDE);
        if (taken[y][x])
            continue;
        taken[y][x] = true;
        add((int32_t)x, (int32_t)y);
    }
    lend(task);
}

static void add_disc(int32_t centre, int32_t radius)
{
    for (int32_t y = -radius; y <= radius; y++)
        for (int32_t x = -radius; x <= radius; x++)
            if (x * x + y * y <= radius * radius)
                add(centre + x, centre + y);
}

static void make_disc(struct task *task)
{
    start();
    add_disc(100, 36);
    shuffle();
    lend(task);
}

static void make_chipped(struct task *task)
{
    make_disc(task);
    points -= 200;
    lend(task);
}

/* Of the 63 points of an ellipse that lies aslant, 60. */
static void make_small(struct task *task)
{
    start();
    for (int32_t y = -10; y <= 10; y++)
        for (int32_t x = -10; x <= 10; x++)
            if (3 * x * x - 2 * x * y + 4 * y * y <= 64)
                add(x, y);
    shuffle();
    points = 60;
    lend(task);
}

/* 2,048 rows of two points: the lattice points of a strip that goes 7 columns in 5 rows, so nothing is missing. */
static void make_needle(struct task *task)
{
    start();
    for (int32_t row = 0; row < 2048; row++) {
        int32_t x = -8191 + (7 * row + 4) / 5;
        add(x, -8192 + row);
        add(x + 1, -8192 + row);
    }
    shuffle();
    lend(task);
}

/* A point in every fourth of nearly all rows, beside a line that goes 5 columns in 7 rows. */
static void make_sparse_needle(struct task *task)
{
    start();
    for (int32_t i = 0; i < GRAIN_MOST_POINTS; i++)
        add(-8191 + 20 * i / 7 + (int32_t)below(2), -8192 + 4 * i);
    shuffle();
    lend(task);
}

static void make_one(struct task *task)
{
    start();
    add(5, 5);
    lend(task);
}

/* Corners */

struct step {
    int32_t x, y;
};

static int32_t common_divisor(int32_t a, int32_t b)
{
    return b == 0 ? abs(a) : common_divisor(b, a % b);
}

/* By angle, from the direction of x on all round. */
static int by_angle(const void *a, const void *b)
{
    const struct step *s = a, *t = b;
    int half_s = s->y < 0 || (s->y == 0 && s->x < 0), half_t = t->y < 0 || (t->y == 0 && t->x < 0);
    int32_t turn = s->x * t->y - s->y * t->x;
    return half_s != half_t ? half_s - half_t : (turn < 0) - (turn > 0);
}

/* A polygon of many corners: the shortest steps in all directions that have one with x² + y² up to a limit, by angle. */
static void add_polygon(int32_t limit, int32_t x, int32_t y)
{
    static struct step steps[MOST_STEPS];
    size_t count = 0;
    for (int32_t v = -GREATEST_STEP; v <= GREATEST_STEP; v++)
        for (int32_t u = -GREATEST_STEP; u <= GREATEST_STEP; u++)
            if (u * u + v * v <= limit && common_divisor(u, v) == 1)
                steps[count++] = (struct step){u, v};
    qsort(steps, count, sizeof steps[0], by_angle);
    for (size_t i = 0; i < count; i++) {
        add(x, y);
        x += steps[i].x;
        y += steps[i].y;
    }
}

static void make_polygon(struct task *task)
{
    start();
    add_polygon(128, 300, 0);
    shuffle();
    lend(task);
}

/* As many corners as there is room for in the range, nearly. */
static void make_great_polygon(struct task *task)
{
    start();
    add_polygon(1160, 0, -8192);
    shuffle();
    lend(task);
}

/* Declined lists */

static void make_odd(struct task *task)
{
    make_random(task);
    task->length--;
}

static void make_too_many(struct task *task)
{
    make_random(task);
    add(1000, 1000);
    lend(task);
}

static void make_outside(struct task *task)
{
    make_random(task);
    list[GRAIN_LIST_LENGTH - 1] = GREATEST + 1;
}

static void make_repeated(struct task *task)
{
    make_random(task);
    list[GRAIN_LIST_LENGTH - 2] = list[0];
    list[GRAIN_LIST_LENGTH - 1] = list[1];
}

/* One pair fewer than the result has; the odd number behind it is never used. */
static size_t too_small(size_t pairs)
{
    return 2 * pairs - 1;
}

static int32_t corner_list[CORNERS_ROOM];

/* The report of a grain; its corners and missing points are kept. */
static struct grain_reported report_of(const struct task *task)
{
    static int32_t room[ORDERED_ROOM];
    return plain_report(task->list, task->length, room, ORDERED_ROOM, corner_list, CORNERS_ROOM, missing_list, MISSING_ROOM);
}

static void make_small_ordered(struct task *task)
{
    make_random(task);
    task->ordered_length = too_small(points);
}

static void make_small_corners(struct task *task)
{
    make_random(task);
    task->corners_length = too_small(report_of(task).corners);
}

static void make_small_missing(struct task *task)
{
    make_random(task);
    task->missing_length = too_small(report_of(task).missing);
}

/* Corners and missing points for Rebuild */

/* The grain's report takes the place of the grain. */
static void report_instead(struct task *task)
{
    struct grain_reported report = report_of(task);
    task->list = corner_list;
    task->length = 2 * report.corners;
    task->missing_list = missing_list;
    task->missing_list_length = 2 * report.missing;
}

static void make_report_of_chipped(struct task *task)
{
    make_chipped(task);
    report_instead(task);
}

static void make_no_corner_list(struct task *task)
{
    make_report_of_chipped(task);
    swap_points(corner_list, task->length / 2 - 2, task->length / 2 - 1);
}

static void make_not_in_row_order(struct task *task)
{
    make_report_of_chipped(task);
    swap_points(missing_list, task->missing_list_length / 2 - 2, task->missing_list_length / 2 - 1);
}

static void make_misplaced(struct task *task)
{
    make_report_of_chipped(task);
    missing_list[task->missing_list_length - 2] = GREATEST;
}

static void make_too_many_result(struct task *task)
{
    make_polygon(task);
    report_instead(task);
    task->missing_list_length = 0;
}

static void make_small_points(struct task *task)
{
    make_report_of_chipped(task);
    task->ordered_length = too_small(points);
}

/* Pictures */

static void write_text(struct task *task, const char *text)
{
    size_t length = strlen(text);
    memcpy(bytes + task->bytes_length, text, length);
    task->bytes_length += length;
}

static bool is_black(int32_t x, int32_t y)
{
    return (x - 90) * (x - 90) + (y - 90) * (y - 90) <= 36 * 36;
}

/* As Netpbm writes it: a line end after 70 digits and after each row. */
static void make_netpbm(struct task *task)
{
    task->bytes = bytes;
    task->ordered_length = ORDERED_ROOM;
    write_text(task, "P1\n200 200\n");
    for (int32_t y = 0; y < 200; y++)
        for (int32_t x = 0; x < 200; x++) {
            write_text(task, is_black(x, y) ? "1" : "0");
            if (x % 70 == 69 || x == 199)
                write_text(task, "\n");
        }
}

/* As ImageMagick writes it: a comment, a blank after every digit, a row on one line. At two bytes a pixel 200 x 200 would be refused. */
static void make_imagemagick(struct task *task)
{
    task->bytes = bytes;
    task->ordered_length = ORDERED_ROOM;
    write_text(task, "P1\n#disc\n180 180\n");
    for (int32_t y = 0; y < 180; y++) {
        for (int32_t x = 0; x < 180; x++)
            write_text(task, is_black(x, y) ? "1 " : "0 ");
        write_text(task, "\n");
    }
}

/* Rows */

#define FOUR_CALLS(subject, make) \
    {subject, ORDER, make, 0}, {subject, HULL, make, 0}, {subject, VERDICT, make, 0}, {subject, FIGURES, make, 0}

#define ALL_CALLS(subject, make) FOUR_CALLS(subject, make), {subject, REPORT, make, 0}, {subject, REBUILD, make, 0}

static const struct row rows[] = {
    ALL_CALLS("random 4,096 in 512 x 512", make_random),
    ALL_CALLS("disc of 4,053", make_disc),
    ALL_CALLS("disc, 200 knocked out", make_chipped),
    ALL_CALLS("needle, 2,048 rows", make_needle),
    ALL_CALLS("sparse needle, 16,381 rows", make_sparse_needle),
    ALL_CALLS("60 pixels", make_small),
    ALL_CALLS("one pixel", make_one),
    ALL_CALLS("240 corners only", make_polygon),
    FOUR_CALLS("2,240 corners only", make_great_polygon),
    {"declined 1, odd", REPORT, make_odd, 1},
    {"declined 2, 4,097 points", REPORT, make_too_many, 2},
    {"declined 3, last point", REPORT, make_outside, 3},
    {"declined 4, first and last", REPORT, make_repeated, 4},
    {"declined 5, random", REPORT, make_small_ordered, 5},
    {"declined 6, random", REPORT, make_small_corners, 6},
    {"declined 7, random", REPORT, make_small_missing, 7},
    {"declined 7, 2,240 corners", REPORT, make_great_polygon, 7},
    {"declined 8, last corners", REBUILD, make_no_corner_list, 8},
    {"declined 9, last point", REBUILD, make_not_in_row_order, 9},
    {"declined 10, last point", REBUILD, make_misplaced, 10},
    {"declined 11, 240 corners", REBUILD, make_too_many_result, 11},
    {"declined 12, disc", REBUILD, make_small_points, 12},
    {"Netpbm's 200 x 200", READ, make_netpbm, 0},
    {"ImageMagick's 180 x 180", READ, make_imagemagick, 0},
};

size_t number_of_rows(void)
{
    return sizeof rows / sizeof rows[0];
}

struct row row_at(size_t place)
{
    return rows[place];
}

const char *name_of(enum call call)
{
    static const char *const names[] = {"Order", "Hull", "Verdict", "Report", "Figures", "Rebuild", "Read"};
    return names[call];
}

struct task task_of(struct row row)
{
    struct task task = {0};
    row.make(&task);
    if (row.call == REBUILD && task.missing_list == NULL)
        report_instead(&task);
    return task;
}
