/* The convexity columns of a grain report, for C: link target/staticlib/libgrain.a (crate grain_c; x86-64, Linux).

   Lists. A grain is a list of numbers x, y, x, y, ..; each list is lent as a pointer and a length, and a length counts numbers, two for
   each point. A pointer is not NULL, also where the length is 0, and lists lent to one call do not overlap. A call reads and writes
   nothing else, allocates nothing, keeps nothing, and needs less than half a megabyte of stack.

   Every call takes every list and every room of numbers, and ends. An accepted call has number 0 and place 0: each room begins with its
   result, and the rest of it reads as before. A declined call has the number and the place of the table below, all counts 0, and every
   room reads as before.

   Limits. A list has at most 4,096 points, Rebuild's corner list at most 4,096 corners; its missing list may be longer. A coordinate is
   from -8192 to 8191. A picture has at most 65,536 bytes, 1,024 columns and 1,024 rows.

   Words. Row order: by y, then by x. The corner list starts with the corner that is first in row order and goes round so that any three
   corners in list order have a positive turn. A missing point is a lattice point of the hull that is no point of the grain; missing points
   are listed in row order. A grain is convex if nothing is missing. */
#ifndef GRAIN_H
#define GRAIN_H

#include <stddef.h>
#include <stdint.h>

#ifdef __cplusplus
extern "C" {
#endif

/* Numbers of a declined call, looked for in this order as far as the call has the list or the room. Places count points from 0; for a
   picture, bytes. */
enum grain_number {
    GRAIN_ACCEPTED = 0,
    GRAIN_ODD_LENGTH = 1,           /* a list given has an odd length; place 0 */
    GRAIN_TOO_MANY = 2,             /* more than 4,096 points, or corners for Rebuild; place 0 */
    GRAIN_OUT_OF_RANGE = 3,         /* a coordinate out of range; the first such point in its list. Rebuild looks at its corners first */
    GRAIN_REPEATED = 4,             /* a point equal to an earlier one; the first such point */
    GRAIN_ORDERED_TOO_SMALL = 5,    /* the ordered list has fewer pairs than the grain has points; place 0 */
    GRAIN_CORNERS_TOO_SMALL = 6,    /* the corner list has fewer pairs than there are corners; place 0 */
    GRAIN_MISSING_TOO_SMALL = 7,    /* the missing list has fewer pairs than points are missing; place 0 */
    GRAIN_NO_CORNER_LIST = 8,       /* Rebuild: the corners are no corner list; place 0 */
    GRAIN_MISSING_NOT_ORDERED = 9,  /* Rebuild: missing points not strictly in row order; the first that doesn't follow the one before */
    GRAIN_MISSING_MISPLACED = 10,   /* Rebuild: a missing point is outside the corners' hull, or is a corner; the first such point */
    GRAIN_TOO_MANY_RESULT = 11,     /* Rebuild: more than 4,096 points result; place 0 */
    GRAIN_POINTS_TOO_SMALL = 12,    /* Rebuild: the point list has fewer pairs than points result; place 0 */
    GRAIN_PICTURE_TOO_LONG = 20,    /* longer than 65,536 bytes; place 65,536 */
    GRAIN_PICTURE_NO_P1 = 21,       /* does not begin with P1; place 0 */
    GRAIN_PICTURE_HEADER = 22,      /* bad header; the first byte that can't continue one, the file's length if it ended, the first
                                       digit of a size out of range */
    GRAIN_PICTURE_BAD_BYTE = 23,    /* a byte among the pixels that is neither 0, 1 nor white space; that byte */
    GRAIN_PICTURE_ENDS_EARLY = 24,  /* too few pixels; the file's length */
    GRAIN_PICTURE_LEFT_OVER = 25    /* something other than white space after the last pixel; that byte */
};

/* Is the grain convex? A declined call says neither. */
enum grain_verdict { GRAIN_NO = 0, GRAIN_YES = 1, GRAIN_NEITHER = 2 };

enum {
    GRAIN_MOST_POINTS = 4096,      /* points or corners in a list given */
    GRAIN_LIST_LENGTH = 8192,      /* numbers of a list of so many points: enough for an ordered list and for a corner list, always */
    GRAIN_MOST_MISSING = 8192,     /* missing points for which `grain_respond` has room */
    GRAIN_PICTURE_LENGTH = 65536,  /* bytes of a picture */
    GRAIN_TEXT_LENGTH = 253979     /* bytes: enough for the text of any grain with at most GRAIN_MOST_MISSING missing points */
};

/* Order: the points of `list` in row order, in `ordered`. Numbers 1 to 5. */
struct grain_ordered {
    uint32_t number;
    size_t place;
    size_t points;
};
struct grain_ordered grain_order(const int32_t *list, size_t list_length, int32_t *ordered, size_t ordered_length);

/* Row ends: for a list of at most 4,096 points in range, strictly in row order, the part with the points of row y goes from point `begin`
   to before point `end`, counted from the list's start; both are the place where they would stand if the row is empty. For any other list
   0 and 0. Any y is taken. The part that Row hands back in other languages starts at list + 2 * begin. */
struct grain_ends {
    size_t begin;
    size_t end;
};
struct grain_ends grain_row_ends(const int32_t *list, size_t list_length, int32_t y);

/* Hull: the points in row order, in `ordered`, and the corner list, in `corners`. Numbers 1 to 6. */
struct grain_hulled {
    uint32_t number;
    size_t place;
    size_t points;
    size_t corners;
};
struct grain_hulled grain_hull(
    const int32_t *list, size_t list_length, int32_t *ordered, size_t ordered_length, int32_t *corners, size_t corners_length);

/* Verdict: as Hull; and is the grain convex? For GRAIN_NO, (x, y) is the first missing point; else (0, 0). Numbers 1 to 6. */
struct grain_judged {
    uint32_t number;
    size_t place;
    size_t points;
    size_t corners;
    uint32_t verdict;
    int32_t x;
    int32_t y;
};
struct grain_judged grain_verdict(
    const int32_t *list, size_t list_length, int32_t *ordered, size_t ordered_length, int32_t *corners, size_t corners_length);

/* Report: as Verdict; and all missing points, in `missing`. Numbers 1 to 7. */
struct grain_reported {
    uint32_t number;
    size_t place;
    size_t points;
    size_t corners;
    size_t missing;
    uint32_t verdict;
    int32_t x;
    int32_t y;
};
struct grain_reported grain_report(
    const int32_t *list, size_t list_length, int32_t *ordered, size_t ordered_length, int32_t *corners, size_t corners_length,
    int32_t *missing, size_t missing_length);

/* Rebuild: from a corner list and missing points back to the points of the grain in row order, in `points`. Numbers 1, 2, 3, 8 to 12. A
   full report's lists are always accepted, given room, and yield its grain; no two grains share a report. */
struct grain_rebuilt {
    uint32_t number;
    size_t place;
    size_t points;
};
struct grain_rebuilt grain_rebuild(
    const int32_t *corners, size_t corners_length, const int32_t *missing, size_t missing_length, int32_t *points, size_t points_length);

/* Figures: as Hull; and if `given` is 1 the centroid (x, y), the sums of the coordinates divided by the number of points, and the
   solidity, the number of points divided by the number of lattice points in the hull, 1.0 exactly if the grain is convex. Each double is
   one exact quotient, rounded once. `given` is 0 and all three are 0.0 for the empty list and for a declined call. Numbers 1 to 6. */
struct grain_figured {
    uint32_t number;
    uint32_t given;
    size_t place;
    double x;
    double y;
    double solidity;
};
struct grain_figured grain_figures(
    const int32_t *list, size_t list_length, int32_t *ordered, size_t ordered_length, int32_t *corners, size_t corners_length);

/* Reads a picture, a plain PBM: the black pixel in column x and row y is the point (x, y); the points stand in row order at the front of
   `list`. Numbers 20, 21, then the first fault from the left among 22 to 25, then 2. */
struct grain_picture {
    uint32_t number;
    size_t place;
    size_t points;
    size_t width;
    size_t height;
};
struct grain_picture grain_read_picture(const uint8_t *bytes, size_t length, int32_t list[GRAIN_LIST_LENGTH]);

/* Writes the CSV text of a report: heading, corners, missing points, and a line with the number of points and of missing points. The
   answer is how many bytes it has, 0 if it does not fit; the room then holds as much of it as fits. Lengths count numbers; an odd last
   number is not used. */
size_t grain_write_report(
    const int32_t *corners, size_t corners_length, const int32_t *missing, size_t missing_length, size_t points, uint8_t *text,
    size_t text_length);

/* Writes the line of a declined picture: refused, number, place. The answer as above. */
size_t grain_write_refused(uint32_t number, size_t place, uint8_t *text, size_t text_length);

/* All that the report program writes for the bytes of a picture: its report, or the line of its refusal, 7 among them for more than 8,192
   missing points. The answer is how many bytes. */
size_t grain_respond(const uint8_t *bytes, size_t length, uint8_t text[GRAIN_TEXT_LENGTH]);

#ifdef __cplusplus
}
#endif

#endif
