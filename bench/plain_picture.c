/* The plain version reads a picture byte by byte. Points are gathered in an array of its own, and copied once the picture is known to be
   sound: a declined one leaves the list as it was. */
#include "calls.h"
#include <stdbool.h>
#include <string.h>

struct file {
    const uint8_t *bytes;
    size_t length, at;
};

static bool is_white(const struct file *file)
{
    if (file->at == file->length)
        return false;
    uint8_t byte = file->bytes[file->at];
    return byte == ' ' || byte == '\t' || byte == '\n' || byte == '\r';
}

static bool is_digit(const struct file *file)
{
    return file->at < file->length && '0' <= file->bytes[file->at] && file->bytes[file->at] <= '9';
}

/* A comment of the header is read as its line end. */
static void pass_comment(struct file *file)
{
    if (file->at == file->length || file->bytes[file->at] != '#')
        return;
    while (file->at < file->length && file->bytes[file->at] != '\n' && file->bytes[file->at] != '\r')
        file->at++;
}

/* White space and a size. If the header breaks, the file is left at the place where it does. */
static bool read_size(struct file *file, size_t *size)
{
    pass_comment(file);
    if (!is_white(file))
        return false;
    while (is_white(file)) {
        file->at++;
        pass_comment(file);
    }
    size_t start = file->at;
    *size = 0;
    for (; is_digit(file); file->at++) {
        *size = 10 * *size + (file->bytes[file->at] - '0');
        if (*size > GREATEST_SIZE)
            *size = GREATEST_SIZE + 1;
    }
    if (1 <= *size && *size <= GREATEST_SIZE)
        return true;
    file->at = start;
    return false;
}

static bool read_header(struct file *file, size_t *width, size_t *height)
{
    if (!read_size(file, width) || !read_size(file, height))
        return false;
    pass_comment(file);
    if (!is_white(file))
        return false;
    file->at++;
    return true;
}

static void skip_white(struct file *file)
{
    while (is_white(file))
        file->at++;
}

/* The pixels: 0, or the number of the fault at which the file is left. */
static uint32_t read_pixels(struct file *file, size_t width, size_t height, int32_t points[GRAIN_LIST_LENGTH], size_t *count)
{
    *count = 0;
    for (size_t y = 0; y < height; y++)
        for (size_t x = 0; x < width; x++) {
            skip_white(file);
            if (file->at == file->length)
                return GRAIN_PICTURE_ENDS_EARLY;
            uint8_t byte = file->bytes[file->at];
            if (byte != '0' && byte != '1')
                return GRAIN_PICTURE_BAD_BYTE;
            file->at++;
            if (byte == '0')
                continue;
            if (*count < GRAIN_MOST_POINTS) {
                points[2 * *count] = (int32_t)x;
                points[2 * *count + 1] = (int32_t)y;
            }
            ++*count;
        }
    skip_white(file);
    return file->at < file->length ? GRAIN_PICTURE_LEFT_OVER : 0;
}

static struct grain_picture refused(uint32_t number, size_t place)
{
    return (struct grain_picture){.number = number, .place = place};
}

struct grain_picture plain_read_picture(const uint8_t *bytes, size_t length, int32_t list[GRAIN_LIST_LENGTH])
{
    if (length > GRAIN_PICTURE_LENGTH)
        return refused(GRAIN_PICTURE_TOO_LONG, GRAIN_PICTURE_LENGTH);
    if (length < 2 || bytes[0] != 'P' || bytes[1] != '1')
        return refused(GRAIN_PICTURE_NO_P1, 0);
    struct file file = {bytes, length, 2};
    struct grain_picture picture = {0};
    if (!read_header(&file, &picture.width, &picture.height))
        return refused(GRAIN_PICTURE_HEADER, file.at);
    int32_t points[GRAIN_LIST_LENGTH];
    uint32_t fault = read_pixels(&file, picture.width, picture.height, points, &picture.points);
    if (fault != 0)
        return refused(fault, file.at);
    if (picture.points > GRAIN_MOST_POINTS)
        return refused(GRAIN_TOO_MANY, 0);
    memcpy(list, points, 2 * picture.points * sizeof points[0]);
    return picture;
}
