/* Answers requests by the functions of include/grain.h, as C has them, in the form of second/FORM.md: driver/run builds it. */
#include "grain.h"
#include "lent.h"
#include "picture.h"
#include <stdio.h>
#include <string.h>

static void write_counts(uint32_t number, size_t place, size_t points)
{
    write_natural(number);
    write_natural(place);
    write_natural(points);
}

static void write_verdict(uint32_t verdict, int32_t x, int32_t y)
{
    write_natural(verdict);
    write_number(x);
    write_number(y);
}

static void answer_order(void)
{
    struct lent *list = lend_list("list"), *ordered = lend_room("ordered room");
    end_request();
    struct grain_ordered answer = grain_order(NUMBERS(list), NUMBERS(ordered));
    check_lent();
    write_counts(answer.number, answer.place, answer.points);
    write_rooms();
}

static void answer_hull(void)
{
    struct lent *list = lend_list("list"), *ordered = lend_room("ordered room"), *corners = lend_room("corner room");
    end_request();
    struct grain_hulled answer = grain_hull(NUMBERS(list), NUMBERS(ordered), NUMBERS(corners));
    check_lent();
    write_counts(answer.number, answer.place, answer.points);
    write_natural(answer.corners);
    write_rooms();
}

static void answer_verdict(void)
{
    struct lent *list = lend_list("list"), *ordered = lend_room("ordered room"), *corners = lend_room("corner room");
    end_request();
    struct grain_judged answer = grain_verdict(NUMBERS(list), NUMBERS(ordered), NUMBERS(corners));
    check_lent();
    write_counts(answer.number, answer.place, answer.points);
    write_natural(answer.corners);
    write_verdict(answer.verdict, answer.x, answer.y);
    write_rooms();
}

static void answer_report(void)
{
    struct lent *list = lend_list("list"), *ordered = lend_room("ordered room"), *corners = lend_room("corner room");
    struct lent *missing = lend_room("missing room");
    end_request();
    struct grain_reported answer = grain_report(NUMBERS(list), NUMBERS(ordered), NUMBERS(corners), NUMBERS(missing));
    check_lent();
    write_counts(answer.number, answer.place, answer.points);
    write_natural(answer.corners);
    write_natural(answer.missing);
    write_verdict(answer.verdict, answer.x, answer.y);
    write_rooms();
}

static struct grain_ends asked_ends(struct lent *list)
{
    int32_t y = read_number();
    end_request();
    struct grain_ends ends = grain_row_ends(NUMBERS(list), y);
    check_lent();
    return ends;
}

static void answer_row_ends(void)
{
    struct grain_ends ends = asked_ends(lend_list("list"));
    write_natural(ends.begin);
    write_natural(ends.end);
}

/* C has no function for Row: the part is what stands between the ends. */
static void answer_row(void)
{
    struct lent *list = lend_list("list");
    struct grain_ends ends = asked_ends(list);
    if (ends.begin > ends.end || ends.end > length_of(list) / 2)
        stop("broken: row ends %zu and %zu in a list of %zu numbers", ends.begin, ends.end, length_of(list));
    write_list(numbers_of(list) + 2 * ends.begin, 2 * (ends.end - ends.begin));
}

static void answer_rebuild(void)
{
    struct lent *corners = lend_list("corner list"), *missing = lend_list("missing list"), *points = lend_room("point room");
    end_request();
    struct grain_rebuilt answer = grain_rebuild(NUMBERS(corners), NUMBERS(missing), NUMBERS(points));
    check_lent();
    write_counts(answer.number, answer.place, answer.points);
    write_rooms();
}

static uint64_t bits(double value)
{
    uint64_t all;
    memcpy(&all, &value, sizeof all);
    return all;
}

/* What the form does not show: an accepted call has place 0, only an accepted one is given, and else all three doubles are 0.0. */
static void check_figures(const struct grain_figured *answer)
{
    bool is_declined = answer->number != GRAIN_ACCEPTED;
    bool is_zero = (bits(answer->x) | bits(answer->y) | bits(answer->solidity)) == 0;
    if (answer->given > 1 || (is_declined && answer->given) || (!is_declined && answer->place > 0) || (!answer->given && !is_zero))
        stop("broken: figures with number %u, place %zu, given %u, %g, %g, %g", answer->number, answer->place, answer->given, answer->x,
            answer->y, answer->solidity);
}

static void write_figures(const struct grain_figured *answer)
{
    if (answer->number != GRAIN_ACCEPTED) {
        write_counts(0, answer->number, answer->place);
        return;
    }
    write_natural(1 + answer->given);
    if (answer->given) {
        write_natural(bits(answer->x));
        write_natural(bits(answer->y));
        write_natural(bits(answer->solidity));
    }
}

static void answer_figures(void)
{
    struct lent *list = lend_list("list"), *ordered = lend_room("ordered room"), *corners = lend_room("corner room");
    end_request();
    struct grain_figured answer = grain_figures(NUMBERS(list), NUMBERS(ordered), NUMBERS(corners));
    check_lent();
    check_figures(&answer);
    write_figures(&answer);
    write_rooms();
}

static void (*const answers[])(void) = {answer_order, answer_hull, answer_verdict, answer_report, answer_row_ends, answer_row,
    answer_rebuild, answer_figures, answer_picture};

int main(void)
{
    enum { CALLS = sizeof answers / sizeof answers[0], BUFFER = 65536 };
    setvbuf(stdin, NULL, _IOFBF, BUFFER);
    setvbuf(stdout, NULL, _IOFBF, BUFFER);
    while (next_request()) {
        size_t call = read_count(CALLS);
        if (call == 0)
            stop_at_bad_request();
        take_back();
        answers[call - 1]();
        end_answer();
    }
    return ferror(stdin) ? 2 : 0;
}
