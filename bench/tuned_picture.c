/* The tuned version reads a picture eight bytes at a time, where these are eight pixels, or four with a blank behind each: so people write
   them. Whatever else comes is read byte by byte. Points are gathered in an array of its own, and copied once the picture is known to be
   sound: a declined one leaves the list as it was. */
#include "calls.h"
#include <stdbool.h>
#include <string.h>

enum { AT_ONCE = 8 };

static bool is_white(uint8_t byte)
{
    return byte == ' ' || (byte <= '\r' && (byte == '\t' || byte == '\n' || byte == '\r'));
}

static size_t skip_white(const uint8_t *bytes, size_t length, size_t at)
{
    while (at < length && is_white(bytes[at]))
        at++;
    return at;
}

/* Header */

/* A comment is read as its line end. */
static size_t behind_comment(const uint8_t *bytes, size_t length, size_t at)
{
    if (at < length && bytes[at] == '#')
        while (at < length && bytes[at] != '\n' && bytes[at] != '\r')
            at++;
    return at;
}

static bool white_at(const uint8_t *bytes, size_t length, size_t at)
{
    return at < length && is_white(bytes[at]);
}

struct header {
    bool sound;
    size_t at;    /* behind the header, or where it breaks */
    size_t sizes[2];
};

/* White space and one of the two sizes. */
static struct header read_size(const uint8_t *bytes, size_t length, struct header header, size_t which)
{
    size_t size = 0, at = behind_comment(bytes, length, header.at);
    header.sound = white_at(bytes, length, at);
    while (white_at(bytes, length, at))
        at = behind_comment(bytes, length, at + 1);
    header.at = at;
    if (!header.sound)
        return header;
    for (; at < length && (uint8_t)(bytes[at] - '0') < 10; at++) {
        size = 10 * size + (size_t)(bytes[at] - '0');
        size = size > GREATEST_SIZE ? GREATEST_SIZE + 1 : size;
    }
    header.sizes[which] = size;
    header.sound = size - 1 < GREATEST_SIZE;
    if (header.sound)
        header.at = at;
    return header;
}

static struct header read_header(const uint8_t *bytes, size_t length)
{
    struct header header = {.at = 2};
    for (size_t which = 0; which < 2; which++) {
        header = read_size(bytes, length, header, which);
        if (!header.sound)
            return header;
    }
    header.at = behind_comment(bytes, length, header.at);
    header.sound = white_at(bytes, length, header.at);
    header.at += header.sound;
    return header;
}

/* Pixels */

/* What has been read: the place of the next byte, the column of the next pixel, and how many black pixels there are. */
struct reading {
    size_t at, x, black;
};

/* Pixels whose bits stand `apart` bits apart. Each is put down, and stays if it is black. */
static inline struct reading take(struct reading reading, uint64_t bits, size_t pixels, size_t apart, size_t y, int32_t *points)
{
    if (bits != 0)
        for (size_t i = 0; i < pixels; i++) {
            points[2 * reading.black] = (int32_t)(reading.x + i);
            points[2 * reading.black + 1] = (int32_t)y;
            reading.black += bits >> (apart * i) & 1;
        }
    reading.x += pixels;
    return reading;
}

/* How many of eight bytes are pixels, up to the first that is none, where `wrong` has a bit. */
static inline size_t pixels_before(uint64_t wrong)
{
    return wrong == 0 ? AT_ONCE : (size_t)__builtin_ctzll(wrong) / 8;
}

/* As many pixels of row y as can be taken from eight bytes at a time. */
static inline struct reading read_quickly(const uint8_t *bytes, size_t length, size_t width, size_t y, struct reading reading,
    int32_t *points)
{
    while (reading.at + AT_ONCE <= length && reading.black <= GRAIN_MOST_POINTS) {
        uint64_t word;
        memcpy(&word, bytes + reading.at, sizeof word);
        uint64_t bits = word & 0x0101010101010101, wrong = (word & 0xfefefefefefefefe) ^ 0x3030303030303030;
        size_t left = width - reading.x;
        if (wrong == 0 && left >= 8) {
            reading = take(reading, bits, 8, 8, y, points);
            reading.at += 8;
        } else if ((word & 0xfffefffefffefffe) == 0x2030203020302030 && left >= 4) {
            reading = take(reading, bits, 4, 16, y, points);
            reading.at += 8;
        } else {
            size_t pixels = pixels_before(wrong);
            pixels = pixels < left ? pixels : left;
            if (pixels == 0)
                break;
            reading = take(reading, bits, pixels, 8, y, points);
            reading.at += pixels;
        }
    }
    return reading;
}

/* One pixel of row y. */
static inline struct reading read_one(uint8_t bit, size_t y, struct reading reading, int32_t *points)
{
    if (reading.black <= GRAIN_MOST_POINTS) {
        reading = take(reading, bit, 1, 0, y, points);
    } else {
        reading.black += bit;
        reading.x++;
    }
    reading.at++;
    return reading;
}

/* The pixels, from a place on: 0, or the number of the fault at the place reached. */
static uint32_t read_pixels(const uint8_t *bytes, size_t length, const size_t sizes[2], struct reading *result, int32_t *points)
{
    struct reading reading = *result;
    for (size_t y = 0; y < sizes[1]; y++)
        for (reading.x = 0; reading.x < sizes[0];) {
            size_t at = result->at = reading.at = skip_white(bytes, length, reading.at);
            reading = read_quickly(bytes, length, sizes[0], y, reading, points);
            if (reading.at > at)
                continue;
            if (at == length)
                return GRAIN_PICTURE_ENDS_EARLY;
            uint8_t bit = bytes[at] - '0';
            if (bit > 1)
                return GRAIN_PICTURE_BAD_BYTE;
            reading = read_one(bit, y, reading, points);
        }
    reading.at = skip_white(bytes, length, reading.at);
    *result = reading;
    return reading.at < length ? GRAIN_PICTURE_LEFT_OVER : 0;
}

static struct grain_picture refused(uint32_t number, size_t place)
{
    return (struct grain_picture){.number = number, .place = place};
}

struct grain_picture tuned_read_picture(const uint8_t *bytes, size_t length, int32_t list[GRAIN_LIST_LENGTH])
{
    if (length > GRAIN_PICTURE_LENGTH)
        return refused(GRAIN_PICTURE_TOO_LONG, GRAIN_PICTURE_LENGTH);
    if (length < 2 || bytes[0] != 'P' || bytes[1] != '1')
        return refused(GRAIN_PICTURE_NO_P1, 0);
    struct header header = read_header(bytes, length);
    if (!header.sound)
        return refused(GRAIN_PICTURE_HEADER, header.at);
    int32_t points[2 * (GRAIN_MOST_POINTS + AT_ONCE)];
    struct reading reading = {.at = header.at};
    uint32_t fault = read_pixels(bytes, length, header.sizes, &reading, points);
    if (fault != 0)
        return refused(fault, reading.at);
    if (reading.black > GRAIN_MOST_POINTS)
        return refused(GRAIN_TOO_MANY, 0);
    memcpy(list, points, 2 * reading.black * sizeof points[0]);
    return (struct grain_picture){.points = reading.black, .width = header.sizes[0], .height = header.sizes[1]};
}
