/* Memory lent to calls, and looked at after them. */
#include "lent.h"
#include <string.h>

enum {
    MOST_LENT = 10,                             /* of a picture's request, which goes through several calls */
    ZONE_SIZE = ZONE * sizeof(int32_t),
    GUARD = 0xA5, BLANK = 0xEE                  /* bytes of a zone and of a blank room: no text has them, no coordinate is made of them */
};

static struct lent all[MOST_LENT];
static size_t lent_count;

int32_t *numbers_of(struct lent *lent)
{
    return lent->space + ZONE;
}

size_t length_of(const struct lent *lent)
{
    return lent->size / sizeof lent->before[0];
}

uint8_t *bytes_of(struct lent *lent)
{
    return (uint8_t *)numbers_of(lent);
}

void take_back(void)
{
    lent_count = 0;
}

static struct lent *next_lent(const char *name, bool is_room, size_t size)
{
    struct lent *lent = &all[lent_count++];
    lent->name = name;
    lent->is_room = is_room;
    lent->size = size;
    return lent;
}

/* Puts what stands in `before` between its zones. */
static struct lent *guarded(struct lent *lent)
{
    uint8_t *bytes = bytes_of(lent);
    memset(bytes - ZONE_SIZE, GUARD, ZONE_SIZE);
    memcpy(bytes, lent->before, lent->size);
    memset(bytes + lent->size, GUARD, ZONE_SIZE);
    return lent;
}

struct lent *lend_list(const char *name)
{
    size_t length = read_count(MOST_NUMBERS);
    struct lent *list = next_lent(name, false, length * sizeof list->before[0]);
    for (size_t i = 0; i < length; i++)
        list->before[i] = read_number();
    return guarded(list);
}

struct lent *lend_bytes(const char *name)
{
    struct lent *list = next_lent(name, false, read_count(MOST_NUMBERS));
    for (size_t i = 0; i < list->size; i++)
        ((uint8_t *)list->before)[i] = (uint8_t)read_count(UINT8_MAX);
    return guarded(list);
}

struct lent *lend_room(const char *name)
{
    size_t length = read_count(MOST_NUMBERS);
    int64_t first = read_number();
    if (length > 0 && first + (int64_t)length - 1 > INT32_MAX)
        stop_at_bad_request();
    struct lent *room = next_lent(name, true, length * sizeof room->before[0]);
    for (size_t i = 0; i < length; i++)
        room->before[i] = (int32_t)(first + (int64_t)i);
    return guarded(room);
}

struct lent *lend_copy(const char *name, const int32_t *numbers, size_t length)
{
    struct lent *list = next_lent(name, false, length * sizeof list->before[0]);
    memcpy(list->before, numbers, list->size);
    return guarded(list);
}

struct lent *lend_blank(const char *name, size_t size)
{
    struct lent *room = next_lent(name, true, size);
    memset(room->before, BLANK, size);
    return guarded(room);
}

size_t first_difference(const uint8_t *one, const uint8_t *other, size_t size)
{
    if (memcmp(one, other, size) == 0)
        return size;
    size_t at = 0;
    while (one[at] == other[at])
        at++;
    return at;
}

static void check_zone(const struct lent *lent, const uint8_t *zone, const char *side)
{
    uint8_t whole[ZONE_SIZE];
    memset(whole, GUARD, ZONE_SIZE);
    size_t at = first_difference(zone, whole, ZONE_SIZE);
    if (at < ZONE_SIZE)
        stop("broken: the zone %s the %s, at its byte %zu of %d", side, lent->name, at, (int)ZONE_SIZE);
}

/* That bytes from a place on are as before. */
static void check_from(struct lent *lent, size_t from, const char *what)
{
    size_t at = from + first_difference(bytes_of(lent) + from, (const uint8_t *)lent->before + from, lent->size - from);
    if (at < lent->size)
        stop("broken: the %s, %s, at its byte %zu of %zu", lent->name, what, at, lent->size);
}

void check_lent(void)
{
    for (struct lent *lent = all; lent < all + lent_count; lent++) {
        check_zone(lent, bytes_of(lent) - ZONE_SIZE, "before");
        check_zone(lent, bytes_of(lent) + lent->size, "behind");
        if (!lent->is_room)
            check_from(lent, 0, "which is only read");
    }
}

void check_behind(struct lent *room, size_t count, size_t unit)
{
    if (count > room->size / unit)
        stop("broken: the %s of %zu bytes, for a result of %zu times %zu", room->name, room->size, count, unit);
    check_from(room, count * unit, "behind its result");
}

static void write_room(struct lent *room)
{
    const int32_t *numbers = numbers_of(room);
    size_t changed = length_of(room);
    while (changed > 0 && numbers[changed - 1] == room->before[changed - 1])
        changed--;
    write_list(numbers, changed);
}

void write_rooms(void)
{
    for (struct lent *lent = all; lent < all + lent_count; lent++)
        if (lent->is_room)
            write_room(lent);
}
