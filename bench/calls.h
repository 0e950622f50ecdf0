/* What the versions have in common, and no code: the calls of include/grain.h under other names, and limits that it does not name. */
#ifndef CALLS_H
#define CALLS_H

#include "grain.h"

enum {
    LEAST = -8192, GREATEST = 8191,    /* a coordinate */
    SIDE = 16384,                      /* values that it has */
    GREATEST_SIZE = 1024               /* width or height of a picture */
};

#define DECLARE_VERSION(version) \
    struct grain_ordered version##_order(const int32_t *list, size_t length, int32_t *ordered, size_t ordered_length); \
    struct grain_hulled version##_hull(const int32_t *list, size_t length, int32_t *ordered, size_t ordered_length, \
        int32_t *corners, size_t corners_length); \
    struct grain_judged version##_verdict(const int32_t *list, size_t length, int32_t *ordered, size_t ordered_length, \
        int32_t *corners, size_t corners_length); \
    struct grain_reported version##_report(const int32_t *list, size_t length, int32_t *ordered, size_t ordered_length, \
        int32_t *corners, size_t corners_length, int32_t *missing, size_t missing_length); \
    struct grain_rebuilt version##_rebuild(const int32_t *corners, size_t corners_length, const int32_t *missing, size_t missing_length, \
        int32_t *points, size_t points_length); \
    struct grain_figured version##_figures(const int32_t *list, size_t length, int32_t *ordered, size_t ordered_length, \
        int32_t *corners, size_t corners_length); \
    struct grain_picture version##_read_picture(const uint8_t *bytes, size_t length, int32_t list[GRAIN_LIST_LENGTH]);

DECLARE_VERSION(plain)
DECLARE_VERSION(tuned)

#endif
