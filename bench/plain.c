/* The plain version: the calls as a C programmer writes them at first. The C library's qsort puts the points in row order, Andrew's scan
   passes all of them, each row's stretch of the hull comes from the two edges that cross it, by a division each, and a walk goes through
   the stretches column by column. Points are sorted as 64-bit words, row above column above place: one comparison orders two of them. */
#include "calls.h"
#include <stdbool.h>
#include <stdlib.h>

struct point {
    int32_t x, y;
};

struct refusal {
    uint32_t number;
    size_t place;
};

static const struct refusal no_refusal = {0, 0};

static struct refusal refused(uint32_t number, size_t place)
{
    return (struct refusal){number, place};
}

static struct point point_at(const int32_t *list, size_t place)
{
    return (struct point){list[2 * place], list[2 * place + 1]};
}

static bool before(struct point a, struct point b)
{
    return a.y < b.y || (a.y == b.y && a.x < b.x);
}

static bool in_range(struct point p)
{
    return LEAST <= p.x && p.x <= GREATEST && LEAST <= p.y && p.y <= GREATEST;
}

/* Fits 32 bits: each product is below 2^28 by magnitude. */
static int32_t turn(struct point a, struct point b, struct point c)
{
    return (b.x - a.x) * (c.y - a.y) - (b.y - a.y) * (c.x - a.x);
}

static size_t first_outside(const int32_t *list, size_t count)
{
    size_t place = 0;
    while (place < count && in_range(point_at(list, place)))
        place++;
    return place;
}

static void write_points(const struct point *points, size_t count, int32_t *room)
{
    for (size_t i = 0; i < count; i++) {
        room[2 * i] = points[i].x;
        room[2 * i + 1] = points[i].y;
    }
}

/* Order */

static uint64_t word_of(struct point p, size_t place)
{
    return (uint64_t)(p.y - LEAST) << 26 | (uint64_t)(p.x - LEAST) << 12 | place;
}

static struct point point_of(uint64_t word)
{
    return (struct point){(int32_t)(word >> 12 & 16383) + LEAST, (int32_t)(word >> 26) + LEAST};
}

static int by_row_order(const void *a, const void *b)
{
    uint64_t v = *(const uint64_t *)a, w = *(const uint64_t *)b;
    return (v > w) - (v < w);
}

/* The least place of a point equal to an earlier one, GRAIN_MOST_POINTS if there is none: words of one point stand together, by place. */
static size_t first_repeat(const uint64_t *words, size_t count)
{
    size_t least = GRAIN_MOST_POINTS;
    for (size_t i = 1; i < count; i++) {
        size_t place = words[i] & 4095;
        if (words[i] >> 12 == words[i - 1] >> 12 && place < least)
            least = place;
    }
    return least;
}

/* Refusals 1 to 4, or the points of the list in row order. */
static struct refusal find_points(const int32_t *list, size_t length, struct point points[GRAIN_MOST_POINTS])
{
    size_t count = length / 2;
    if (length % 2 == 1)
        return refused(GRAIN_ODD_LENGTH, 0);
    if (count > GRAIN_MOST_POINTS)
        return refused(GRAIN_TOO_MANY, 0);
    size_t outside = first_outside(list, count);
    if (outside < count)
        return refused(GRAIN_OUT_OF_RANGE, outside);

    uint64_t words[GRAIN_MOST_POINTS];
    for (size_t i = 0; i < count; i++)
        words[i] = word_of(point_at(list, i), i);
    qsort(words, count, sizeof words[0], by_row_order);
    size_t repeat = first_repeat(words, count);
    if (repeat < GRAIN_MOST_POINTS)
        return refused(GRAIN_REPEATED, repeat);
    for (size_t i = 0; i < count; i++)
        points[i] = point_of(words[i]);
    return no_refusal;
}

struct grain_ordered plain_order(const int32_t *list, size_t length, int32_t *room, size_t room_length)
{
    struct point points[GRAIN_MOST_POINTS];
    struct refusal refusal = find_points(list, length, points);
    size_t count = length / 2;
    if (refusal.number == 0 && room_length / 2 < count)
        refusal = refused(GRAIN_ORDERED_TOO_SMALL, 0);
    if (refusal.number != 0)
        return (struct grain_ordered){.number = refusal.number, .place = refusal.place};
    write_points(points, count, room);
    return (struct grain_ordered){.points = count};
}

/* Hull */

/* Pops what does not turn left to p any more, and pushes p. The point at `base` stays. */
static size_t push(struct point *stack, size_t base, size_t top, struct point p)
{
    while (top > base + 1 && turn(stack[top - 2], stack[top - 1], p) <= 0)
        top--;
    stack[top] = p;
    return top + 1;
}

/* Andrew's scan: up along the right side, down along the left. */
static size_t find_corners(const struct point *points, size_t count, struct point *corners)
{
    size_t top = 0;
    for (size_t i = 0; i < count; i++)
        top = push(corners, 0, top, points[i]);
    if (count < 2)
        return count;
    size_t base = top - 1;
    for (size_t i = count - 1; i > 0; i--)
        top = push(corners, base, top, points[i - 1]);
    return top - 1;
}

struct grain {
    size_t count, corner_count;
    struct point points[GRAIN_MOST_POINTS], corners[GRAIN_LIST_LENGTH];
};

/* Refusals 1 to 6, or points and corners. Writes no room. */
static struct refusal find_hull(const int32_t *list, size_t length, size_t ordered_length, size_t corners_length, struct grain *grain)
{
    struct refusal refusal = find_points(list, length, grain->points);
    if (refusal.number != 0)
        return refusal;
    grain->count = length / 2;
    if (ordered_length / 2 < grain->count)
        return refused(GRAIN_ORDERED_TOO_SMALL, 0);
    grain->corner_count = find_corners(grain->points, grain->count, grain->corners);
    if (corners_length / 2 < grain->corner_count)
        return refused(GRAIN_CORNERS_TOO_SMALL, 0);
    return no_refusal;
}

static void write_hull(const struct grain *grain, int32_t *ordered, int32_t *corners)
{
    write_points(grain->points, grain->count, ordered);
    write_points(grain->corners, grain->corner_count, corners);
}

struct grain_hulled plain_hull(const int32_t *list, size_t length, int32_t *ordered, size_t ordered_length, int32_t *corners,
    size_t corners_length)
{
    struct grain grain;
    struct refusal refusal = find_hull(list, length, ordered_length, corners_length, &grain);
    if (refusal.number != 0)
        return (struct grain_hulled){.number = refusal.number, .place = refusal.place};
    write_hull(&grain, ordered, corners);
    return (struct grain_hulled){.points = grain.count, .corners = grain.corner_count};
}

/* The rows of a hull */

/* The corners, and the edges that cross the row in hand: one rises from the corner at `right` to the next, one falls to the corner at
   `left` from the one before. The place behind the last corner is the first corner's again. */
struct outline {
    const struct point *corners;
    size_t count, right, left;
};

struct stretch {
    int32_t from, to;
};

static struct outline outline_of(const struct point *corners, size_t count)
{
    return (struct outline){corners, count, 0, count};
}

static struct point corner_at(const struct outline *outline, size_t place)
{
    return outline->corners[place < outline->count ? place : 0];
}

static int32_t last_row(const struct point *corners, size_t count)
{
    int32_t last = corners[0].y;
    for (size_t i = 1; i < count; i++)
        if (corners[i].y > last)
            last = corners[i].y;
    return last;
}

/* C divides towards 0, and a row's end is wanted downwards. */
static int32_t floor_of(int32_t a, int32_t b)
{
    return a / b - (a % b < 0);
}

static int32_t ceiling_of(int32_t a, int32_t b)
{
    return a / b + (a % b > 0);
}

static int32_t right_end(struct point low, struct point high, int32_t y)
{
    if (low.y == high.y)
        return high.x;
    return low.x + floor_of((high.x - low.x) * (y - low.y), high.y - low.y);
}

static int32_t left_end(struct point low, struct point high, int32_t y)
{
    if (low.y == high.y)
        return low.x;
    return low.x + ceiling_of((high.x - low.x) * (y - low.y), high.y - low.y);
}

/* The columns of row y that lie in the hull. Rows are asked for from the first on upwards. */
static struct stretch stretch_of(struct outline *outline, int32_t y)
{
    while (corner_at(outline, outline->right + 1).y < y)
        outline->right++;
    while (outline->corners[outline->left - 1].y < y)
        outline->left--;
    return (struct stretch){
        left_end(corner_at(outline, outline->left), outline->corners[outline->left - 1], y),
        right_end(outline->corners[outline->right], corner_at(outline, outline->right + 1), y),
    };
}

static uint64_t count_lattice(const struct point *corners, size_t count)
{
    uint64_t total = 0;
    if (count == 0)
        return 0;
    struct outline outline = outline_of(corners, count);
    int32_t last = last_row(corners, count);
    for (int32_t y = corners[0].y; y <= last; y++) {
        struct stretch row = stretch_of(&outline, y);
        if (row.from <= row.to)
            total += (uint64_t)(row.to - row.from + 1);
    }
    return total;
}

/* The first lattice point of the hull that a list in row order lacks. */
static bool first_lacking(const struct point *corners, size_t count, const struct point *points, size_t point_count, struct point *first)
{
    if (count == 0)
        return false;
    struct outline outline = outline_of(corners, count);
    int32_t last = last_row(corners, count);
    size_t i = 0;
    for (int32_t y = corners[0].y; y <= last; y++) {
        struct stretch row = stretch_of(&outline, y);
        for (int32_t x = row.from; x <= row.to; x++, i++)
            if (i == point_count || points[i].y != y || points[i].x != x) {
                *first = (struct point){x, y};
                return true;
            }
    }
    return false;
}

/* All of them, written to the room; how many. */
static size_t write_lacking(const struct point *corners, size_t count, const int32_t *list, size_t list_count, int32_t *room)
{
    size_t i = 0, written = 0;
    if (count == 0)
        return 0;
    struct outline outline = outline_of(corners, count);
    int32_t last = last_row(corners, count);
    for (int32_t y = corners[0].y; y <= last; y++) {
        struct stretch row = stretch_of(&outline, y);
        for (int32_t x = row.from; x <= row.to; x++) {
            if (i < list_count && list[2 * i] == x && list[2 * i + 1] == y) {
                i++;
            } else {
                room[2 * written] = x;
                room[2 * written + 1] = y;
                written++;
            }
        }
    }
    return written;
}

/* Verdict and Report */

struct grain_judged plain_verdict(const int32_t *list, size_t length, int32_t *ordered, size_t ordered_length, int32_t *corners,
    size_t corners_length)
{
    struct grain grain;
    struct refusal refusal = find_hull(list, length, ordered_length, corners_length, &grain);
    if (refusal.number != 0)
        return (struct grain_judged){.number = refusal.number, .place = refusal.place, .verdict = GRAIN_NEITHER};
    write_hull(&grain, ordered, corners);
    struct grain_judged answer = {.points = grain.count, .corners = grain.corner_count, .verdict = GRAIN_YES};
    struct point first;
    if (first_lacking(grain.corners, grain.corner_count, grain.points, grain.count, &first)) {
        answer.verdict = GRAIN_NO;
        answer.x = first.x;
        answer.y = first.y;
    }
    return answer;
}

struct grain_reported plain_report(const int32_t *list, size_t length, int32_t *ordered, size_t ordered_length, int32_t *corners,
    size_t corners_length, int32_t *missing, size_t missing_length)
{
    struct grain grain;
    struct refusal refusal = find_hull(list, length, ordered_length, corners_length, &grain);
    if (refusal.number == 0 && missing_length / 2 < count_lattice(grain.corners, grain.corner_count) - grain.count)
        refusal = refused(GRAIN_MISSING_TOO_SMALL, 0);
    if (refusal.number != 0)
        return (struct grain_reported){.number = refusal.number, .place = refusal.place, .verdict = GRAIN_NEITHER};
    write_hull(&grain, ordered, corners);
    struct grain_reported answer = {.points = grain.count, .corners = grain.corner_count, .verdict = GRAIN_YES};
    answer.missing = write_lacking(grain.corners, grain.corner_count, ordered, grain.count, missing);
    if (answer.missing > 0) {
        answer.verdict = GRAIN_NO;
        answer.x = missing[0];
        answer.y = missing[1];
    }
    return answer;
}

/* Figures */

struct grain_figured plain_figures(const int32_t *list, size_t length, int32_t *ordered, size_t ordered_length, int32_t *corners,
    size_t corners_length)
{
    struct grain grain;
    struct refusal refusal = find_hull(list, length, ordered_length, corners_length, &grain);
    if (refusal.number != 0)
        return (struct grain_figured){.number = refusal.number, .place = refusal.place};
    if (grain.count == 0)
        return (struct grain_figured){.given = 0};
    write_hull(&grain, ordered, corners);
    int32_t sum_x = 0, sum_y = 0;
    for (size_t i = 0; i < grain.count; i++) {
        sum_x += grain.points[i].x;
        sum_y += grain.points[i].y;
    }
    double count = (double)grain.count;
    return (struct grain_figured){
        .given = 1,
        .x = sum_x / count,
        .y = sum_y / count,
        .solidity = count / (double)count_lattice(grain.corners, grain.corner_count),
    };
}

/* Rebuild */

/* Neighbours alone do not tell, as a star turns left at every corner: each corner must also lie to the left as the first one sees it. */
static bool is_corner_list(const struct point *corners, size_t count)
{
    for (size_t i = 1; i < count; i++) {
        if (!before(corners[0], corners[i]))
            return false;
        if (i < 2)
            continue;
        if (turn(corners[0], corners[i - 1], corners[i]) <= 0 || turn(corners[i - 2], corners[i - 1], corners[i]) <= 0)
            return false;
    }
    return true;
}

static bool is_corner(const struct point *corners, size_t count, struct point p)
{
    for (size_t i = 0; i < count; i++)
        if (corners[i].x == p.x && corners[i].y == p.y)
            return true;
    return false;
}

static size_t first_not_in_order(const int32_t *list, size_t count)
{
    size_t place = 1;
    while (place < count && before(point_at(list, place - 1), point_at(list, place)))
        place++;
    return place < count ? place : count;
}

/* The first point of a list in row order that is outside the hull or is a corner. Only the ends of a row's stretch can be corners. */
static size_t first_misplaced(const struct point *corners, size_t count, const int32_t *list, size_t list_count)
{
    if (count == 0)
        return 0;
    struct outline outline = outline_of(corners, count);
    struct stretch row = {0, -1};
    int32_t last = last_row(corners, count), y = corners[0].y - 1;
    for (size_t place = 0; place < list_count; place++) {
        struct point p = point_at(list, place);
        if (p.y < corners[0].y || last < p.y)
            return place;
        if (p.y != y) {
            y = p.y;
            row = stretch_of(&outline, y);
        }
        if (p.x < row.from || row.to < p.x)
            return place;
        if ((p.x == row.from || p.x == row.to) && is_corner(corners, count, p))
            return place;
    }
    return list_count;
}

/* Refusals 1 to 3 of both lists. */
static struct refusal check_lists(const int32_t *corners, size_t corners_length, const int32_t *missing, size_t missing_length)
{
    if (corners_length % 2 == 1 || missing_length % 2 == 1)
        return refused(GRAIN_ODD_LENGTH, 0);
    if (corners_length / 2 > GRAIN_MOST_POINTS)
        return refused(GRAIN_TOO_MANY, 0);
    size_t outside = first_outside(corners, corners_length / 2);
    if (outside < corners_length / 2)
        return refused(GRAIN_OUT_OF_RANGE, outside);
    outside = first_outside(missing, missing_length / 2);
    if (outside < missing_length / 2)
        return refused(GRAIN_OUT_OF_RANGE, outside);
    return no_refusal;
}

/* Refusals 8 to 10. */
static struct refusal check_points(const struct point *corners, size_t count, const int32_t *missing, size_t missing_count)
{
    if (!is_corner_list(corners, count))
        return refused(GRAIN_NO_CORNER_LIST, 0);
    size_t place = first_not_in_order(missing, missing_count);
    if (place < missing_count)
        return refused(GRAIN_MISSING_NOT_ORDERED, place);
    place = first_misplaced(corners, count, missing, missing_count);
    if (place < missing_count)
        return refused(GRAIN_MISSING_MISPLACED, place);
    return no_refusal;
}

static struct grain_rebuilt not_rebuilt(struct refusal refusal)
{
    return (struct grain_rebuilt){.number = refusal.number, .place = refusal.place};
}

struct grain_rebuilt plain_rebuild(const int32_t *corners, size_t corners_length, const int32_t *missing, size_t missing_length,
    int32_t *room, size_t room_length)
{
    struct refusal refusal = check_lists(corners, corners_length, missing, missing_length);
    if (refusal.number != 0)
        return not_rebuilt(refusal);
    struct point points[GRAIN_MOST_POINTS];
    size_t count = corners_length / 2, missing_count = missing_length / 2;
    for (size_t i = 0; i < count; i++)
        points[i] = point_at(corners, i);
    refusal = check_points(points, count, missing, missing_count);
    if (refusal.number != 0)
        return not_rebuilt(refusal);
    uint64_t result = count_lattice(points, count) - missing_count;
    if (result > GRAIN_MOST_POINTS)
        return not_rebuilt(refused(GRAIN_TOO_MANY_RESULT, 0));
    if (result > room_length / 2)
        return not_rebuilt(refused(GRAIN_POINTS_TOO_SMALL, 0));
    return (struct grain_rebuilt){.points = write_lacking(points, count, missing, missing_count, room)};
}
