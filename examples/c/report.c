/* The report of a grain, from C: ./run X Y X Y .., without numbers that of the grain (0,0) (3,0) (0,3). */
#include <stdio.h>
#include <stdlib.h>

#include "grain.h"

enum { MISSING_LENGTH = 2 * 65536 };

static int32_t list[GRAIN_LIST_LENGTH + 1], ordered[GRAIN_LIST_LENGTH], corners[GRAIN_LIST_LENGTH], missing[MISSING_LENGTH];

static void print_points(const char *name, const int32_t *points, size_t count)
{
    printf("%s:", name);
    for (size_t i = 0; i < count; i++)
        printf(" (%d,%d)", points[2 * i], points[2 * i + 1]);
    printf("\n");
}

static size_t read_list(int words, char **word)
{
    static const int32_t example[] = {0, 0, 3, 0, 0, 3};
    size_t length = 0;
    if (words == 0)
        while (length < 6) {
            list[length] = example[length];
            length++;
        }
    while (length < (size_t)words && length < GRAIN_LIST_LENGTH + 1) {
        list[length] = atoi(word[length]);
        length++;
    }
    return length;
}

/* The way back: corners and missing points tell the grain. */
static void print_way_back(size_t corner_count, size_t missing_count)
{
    static int32_t points[GRAIN_LIST_LENGTH];
    struct grain_rebuilt rebuilt = grain_rebuild(corners, 2 * corner_count, missing, 2 * missing_count, points, GRAIN_LIST_LENGTH);
    if (rebuilt.number == GRAIN_ACCEPTED)
        print_points("the way back", points, rebuilt.points);
    else
        printf("no way back: number %u, place %zu\n", rebuilt.number, rebuilt.place);
}

static void print_figures(size_t length)
{
    struct grain_figured figures = grain_figures(list, length, ordered, GRAIN_LIST_LENGTH, corners, GRAIN_LIST_LENGTH);
    if (figures.given)
        printf("centroid: (%.3f,%.3f), solidity: %.3f\n", figures.x, figures.y, figures.solidity);
}

int main(int words, char **word)
{
    size_t length = read_list(words - 1, word + 1);
    struct grain_reported report =
        grain_report(list, length, ordered, GRAIN_LIST_LENGTH, corners, GRAIN_LIST_LENGTH, missing, MISSING_LENGTH);
    if (report.number != GRAIN_ACCEPTED) {
        printf("refused: number %u, place %zu\n", report.number, report.place);
        return 0;
    }
    print_points("points", ordered, report.points);
    print_points("corners", corners, report.corners);
    printf("convex: %s\n", report.verdict == GRAIN_YES ? "yes" : "no");
    if (report.verdict == GRAIN_NO)
        printf("first missing: (%d,%d)\n", report.x, report.y);
    print_points("missing", missing, report.missing);
    print_figures(length);
    print_way_back(report.corners, report.missing);
    return 0;
}
