/* Holds the versions to each other: every answer, and every number of every room, the unused ones too. */
#include "versions.h"
#include <stdio.h>
#include <string.h>

/* An answer of any call, each field under its name; what a call does not answer is 0. */
struct answer {
    uint32_t number, given, verdict;
    size_t place, points, corners, missing, width, height;
    int32_t x, y;
    double mean_x, mean_y, solidity;
};

static struct answer answer_of_order(const struct version *version, const struct task *t, struct rooms *rooms)
{
    struct grain_ordered a = version->order(t->list, t->length, rooms->ordered, t->ordered_length);
    return (struct answer){.number = a.number, .place = a.place, .points = a.points};
}

static struct answer answer_of_hull(const struct version *version, const struct task *t, struct rooms *rooms)
{
    struct grain_hulled a =
        version->hull(t->list, t->length, rooms->ordered, t->ordered_length, rooms->corners, t->corners_length);
    return (struct answer){.number = a.number, .place = a.place, .points = a.points, .corners = a.corners};
}

static struct answer answer_of_verdict(const struct version *version, const struct task *t, struct rooms *rooms)
{
    struct grain_judged a =
        version->verdict(t->list, t->length, rooms->ordered, t->ordered_length, rooms->corners, t->corners_length);
    return (struct answer){.number = a.number, .place = a.place, .points = a.points, .corners = a.corners, .verdict = a.verdict,
        .x = a.x, .y = a.y};
}

static struct answer answer_of_report(const struct version *version, const struct task *t, struct rooms *rooms)
{
    struct grain_reported a = version->report(t->list, t->length, rooms->ordered, t->ordered_length, rooms->corners, t->corners_length,
        rooms->missing, t->missing_length);
    return (struct answer){.number = a.number, .place = a.place, .points = a.points, .corners = a.corners, .missing = a.missing,
        .verdict = a.verdict, .x = a.x, .y = a.y};
}

static struct answer answer_of_figures(const struct version *version, const struct task *t, struct rooms *rooms)
{
    struct grain_figured a =
        version->figures(t->list, t->length, rooms->ordered, t->ordered_length, rooms->corners, t->corners_length);
    return (struct answer){.number = a.number, .given = a.given, .place = a.place, .mean_x = a.x, .mean_y = a.y, .solidity = a.solidity};
}

static struct answer answer_of_rebuild(const struct version *version, const struct task *t, struct rooms *rooms)
{
    struct grain_rebuilt a =
        version->rebuild(t->list, t->length, t->missing_list, t->missing_list_length, rooms->ordered, t->ordered_length);
    return (struct answer){.number = a.number, .place = a.place, .points = a.points};
}

static struct answer answer_of_read(const struct version *version, const struct task *t, struct rooms *rooms)
{
    struct grain_picture a = version->read(t->bytes, t->bytes_length, rooms->ordered);
    return (struct answer){.number = a.number, .place = a.place, .points = a.points, .width = a.width, .height = a.height};
}

static struct answer answer_of(const struct version *version, enum call call, const struct task *task, struct rooms *rooms)
{
    switch (call) {
    case ORDER: return answer_of_order(version, task, rooms);
    case HULL: return answer_of_hull(version, task, rooms);
    case VERDICT: return answer_of_verdict(version, task, rooms);
    case REPORT: return answer_of_report(version, task, rooms);
    case FIGURES: return answer_of_figures(version, task, rooms);
    case REBUILD: return answer_of_rebuild(version, task, rooms);
    case READ: break;
    }
    return answer_of_read(version, task, rooms);
}

/* Doubles are compared by their bits. */
static bool equal_doubles(double a, double b)
{
    return memcmp(&a, &b, sizeof a) == 0;
}

static bool equal_answers(const struct answer *a, const struct answer *b)
{
    return a->number == b->number && a->given == b->given && a->verdict == b->verdict && a->place == b->place && a->points == b->points
        && a->corners == b->corners && a->missing == b->missing && a->width == b->width && a->height == b->height && a->x == b->x
        && a->y == b->y && equal_doubles(a->mean_x, b->mean_x) && equal_doubles(a->mean_y, b->mean_y)
        && equal_doubles(a->solidity, b->solidity);
}

/* As much of a room as the call is lent, and a number behind it, which no call may touch. */
static size_t looked_at(size_t length, size_t most)
{
    return length < most ? length + 1 : most;
}

static void fill(int32_t *room, size_t count)
{
    for (size_t i = 0; i < count; i++)
        room[i] = (int32_t)(1000000 + i);
}

static void fill_rooms(const struct task *task, struct rooms *rooms)
{
    fill(rooms->ordered, looked_at(task->ordered_length, ORDERED_ROOM));
    fill(rooms->corners, looked_at(task->corners_length, CORNERS_ROOM));
    fill(rooms->missing, looked_at(task->missing_length, MISSING_ROOM));
}

static bool equal_room(const int32_t *a, const int32_t *b, size_t count)
{
    return memcmp(a, b, count * sizeof a[0]) == 0;
}

static bool equal_rooms(const struct task *task, const struct rooms *a, const struct rooms *b)
{
    return equal_room(a->ordered, b->ordered, looked_at(task->ordered_length, ORDERED_ROOM))
        && equal_room(a->corners, b->corners, looked_at(task->corners_length, CORNERS_ROOM))
        && equal_room(a->missing, b->missing, looked_at(task->missing_length, MISSING_ROOM));
}

static struct rooms of_library, of_other;
static unsigned long outcomes[32];

/* Whether the other versions do as the library does. */
static bool agree(const char *subject, enum call call, const struct task *task)
{
    fill_rooms(task, &of_library);
    struct answer first = answer_of(&versions[0], call, task, &of_library);
    outcomes[first.number]++;
    for (size_t i = 1; i < VERSIONS; i++) {
        fill_rooms(task, &of_other);
        struct answer other = answer_of(&versions[i], call, task, &of_other);
        bool answers = equal_answers(&first, &other);
        if (answers && equal_rooms(task, &of_library, &of_other))
            continue;
        printf("%s, %s: %s and %s differ in %s; numbers %u and %u, places %zu and %zu\n", subject, name_of(call), versions[0].name,
            versions[i].name, answers ? "a room" : "the answer", first.number, other.number, first.place, other.place);
        return false;
    }
    return true;
}

static bool agree_on_row(struct row row)
{
    struct task task = task_of(row);
    uint32_t number = answer_of(&versions[0], row.call, &task, &of_library).number;
    if (number == row.number)
        return agree(row.subject, row.call, &task);
    printf("%s, %s: number %u, not %u\n", row.subject, name_of(row.call), number, row.number);
    return false;
}

/* Small lists, so that refusals and thin hulls come up often: few columns and rows, seldom one out of range. */

static int32_t coordinate(uint32_t spread)
{
    return below(400) == 0 ? GREATEST + 1 : (int32_t)below(spread) - 2;
}

static size_t make_list(int32_t *list, size_t most, uint32_t spread)
{
    size_t length = 2 * below((uint32_t)most + 1);
    for (size_t i = 0; i < length; i++)
        list[i] = coordinate(spread);
    return below(100) == 0 ? length + 1 : length;
}

/* A length around that of the exact result. */
static size_t around(size_t pairs)
{
    size_t length = 2 * pairs + below(4);
    return below(8) == 0 && length >= 2 ? length - 2 : length;
}

/* A list, with room for everything. */
static struct task lent(const int32_t *list, size_t length)
{
    return (struct task){.list = list, .length = length, .ordered_length = ORDERED_ROOM, .corners_length = CORNERS_ROOM,
        .missing_length = MISSING_ROOM};
}

static bool agree_on_list(void)
{
    static int32_t list[402];
    struct task task = lent(list, make_list(list, below(20) == 0 ? 200 : 12, 2 + below(20)));
    struct answer report = answer_of(&versions[0], REPORT, &task, &of_library);
    task.ordered_length = around(report.points);
    task.corners_length = around(report.corners);
    task.missing_length = around(report.missing);
    for (enum call call = ORDER; call <= FIGURES; call++)
        if (!agree("small list", call, &task))
            return false;
    return true;
}

/* The report of a list, often with a point changed. */
static bool agree_on_report(void)
{
    static int32_t list[26], corners[26], missing[802];
    struct task task = lent(list, make_list(list, 12, 2 + below(15)) / 2 * 2);
    struct answer report = answer_of(&versions[0], REPORT, &task, &of_library);
    memcpy(corners, of_library.corners, 2 * report.corners * sizeof corners[0]);
    memcpy(missing, of_library.missing, 2 * report.missing * sizeof missing[0]);
    if (report.missing > 0 && below(3) == 0)
        missing[below(2 * (uint32_t)report.missing)] = coordinate(17);
    if (report.corners > 0 && below(3) == 0)
        corners[below(2 * (uint32_t)report.corners)] = coordinate(17);
    task = (struct task){.list = corners, .length = 2 * report.corners + (below(100) == 0), .missing_list = missing,
        .missing_list_length = 2 * report.missing + (below(100) == 0), .ordered_length = around(report.points)};
    return agree("small report", REBUILD, &task);
}

/* A few digits at a time with white space behind them, as people write pictures; seldom a byte that does not belong there. */
static size_t make_pixels(uint8_t *bytes, size_t length)
{
    static const char white[] = " \n\r\t", strange[] = "#7P2";
    size_t end = length + below(200), digits = below(3) == 0 ? 1 : 1 + below(30);
    for (size_t i = 1; length < end; i++) {
        bytes[length++] = (uint8_t)('0' + below(2));
        if (i % digits == 0)
            bytes[length++] = (uint8_t)white[below(4) * below(2)];
        if (below(300) == 0)
            bytes[length++] = (uint8_t)strange[below(4)];
    }
    return length;
}

static bool agree_on_picture(void)
{
    static const char *const headers[] = {"P1\n%u %u\n", "P1#c\r%u #\n%u ", "P1 %u#\n0%u#\n", "P1\n\n%u\t%u\r\n"};
    static uint8_t bytes[260];
    size_t length = (size_t)sprintf((char *)bytes, headers[below(4)], below(20), below(12));
    struct task task = {.bytes = bytes, .bytes_length = make_pixels(bytes, length), .ordered_length = ORDERED_ROOM};
    if (below(10) == 0)
        task.bytes_length = below((uint32_t)task.bytes_length + 1);
    return agree("small picture", READ, &task);
}

static void print_outcomes(void)
{
    printf("equal answers and rooms, by number:");
    for (size_t number = 0; number < sizeof outcomes / sizeof outcomes[0]; number++)
        if (outcomes[number] > 0)
            printf(" %zu: %lu", number, outcomes[number]);
    printf("\n");
}

bool versions_agree(void)
{
    for (size_t i = 0; i < number_of_rows(); i++)
        if (!agree_on_row(row_at(i)))
            return false;
    seed(1);
    for (unsigned i = 0; i < 10000; i++)
        if (!agree_on_list() || !agree_on_report() || !agree_on_picture())
            return false;
    print_outcomes();
    return true;
}
