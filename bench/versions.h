/* The three versions, and what is done with them. */
#ifndef VERSIONS_H
#define VERSIONS_H
#include "cases.h"
#include <stdbool.h>

struct version {
    const char *name;
    struct grain_ordered (*order)(const int32_t *, size_t, int32_t *, size_t);
    struct grain_hulled (*hull)(const int32_t *, size_t, int32_t *, size_t, int32_t *, size_t);
    struct grain_judged (*verdict)(const int32_t *, size_t, int32_t *, size_t, int32_t *, size_t);
    struct grain_reported (*report)(const int32_t *, size_t, int32_t *, size_t, int32_t *, size_t, int32_t *, size_t);
    struct grain_figured (*figures)(const int32_t *, size_t, int32_t *, size_t, int32_t *, size_t);
    struct grain_rebuilt (*rebuild)(const int32_t *, size_t, const int32_t *, size_t, int32_t *, size_t);
    struct grain_picture (*read)(const uint8_t *, size_t, int32_t *);
};

enum { VERSIONS = 3 };
extern const struct version versions[VERSIONS];

/* The rooms that calls are lent. */
struct rooms {
    int32_t ordered[ORDERED_ROOM], corners[CORNERS_ROOM], missing[MISSING_ROOM];
};

/* Whether all versions give equal answers and leave equal rooms: in every row, and for many small lists and pictures. Says where not. */
bool versions_agree(void);

/* A call, several times over. */
void repeat(const struct version *version, enum call call, const struct task *task, struct rooms *rooms, unsigned long times);

#endif
