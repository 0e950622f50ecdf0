/* A picture's text in two ways that must agree: by grain_respond, and by the calls that do its parts, grain_read_picture, grain_report,
   grain_write_report and grain_write_refused. */
#include "picture.h"
#include "grain.h"
#include "lent.h"

enum { POINT = 2 * sizeof(int32_t) };   /* bytes */

static size_t write_reported(struct lent *list, struct lent *text)
{
    struct lent *ordered = lend_blank("ordered room", POINT * GRAIN_MOST_POINTS);
    struct lent *corners = lend_blank("corner room", POINT * GRAIN_MOST_POINTS);
    struct lent *missing = lend_blank("missing room", POINT * GRAIN_MOST_MISSING);
    struct grain_reported report = grain_report(NUMBERS(list), NUMBERS(ordered), NUMBERS(corners), NUMBERS(missing));
    check_lent();
    check_behind(ordered, report.points, POINT);
    check_behind(corners, report.corners, POINT);
    check_behind(missing, report.missing, POINT);
    if (report.number != GRAIN_ACCEPTED)
        return grain_write_refused(report.number, report.place, BYTES(text));
    struct lent *corner_list = lend_copy("corner list", numbers_of(corners), 2 * report.corners);
    struct lent *missing_list = lend_copy("missing list", numbers_of(missing), 2 * report.missing);
    return grain_write_report(NUMBERS(corner_list), NUMBERS(missing_list), report.points, BYTES(text));
}

/* What the text does not show: a declined picture has no counts, and an accepted one place 0. */
static void check_read(const struct grain_picture *read)
{
    bool is_declined = read->number != GRAIN_ACCEPTED;
    if (is_declined ? read->points + read->width + read->height > 0 : read->place > 0)
        stop("broken: a picture read with number %u, place %zu, %zu points, %zu columns, %zu rows", read->number, read->place,
            read->points, read->width, read->height);
}

/* The text in parts; its length. */
static size_t write_parts(struct lent *picture, struct lent *text)
{
    struct lent *points = lend_blank("room for the picture's points", POINT * GRAIN_MOST_POINTS);
    struct grain_picture read = grain_read_picture(BYTES(picture), numbers_of(points));
    check_lent();
    check_read(&read);
    check_behind(points, read.points, POINT);
    if (read.number != GRAIN_ACCEPTED)
        return grain_write_refused(read.number, read.place, BYTES(text));
    return write_reported(lend_copy("list of the picture's points", numbers_of(points), 2 * read.points), text);
}

/* The second room has as many bytes as the text: the text just fits, and behind it nothing may be written. */
static void check_parts(struct lent *picture, struct lent *text, size_t length)
{
    struct lent *again = lend_blank("second text room", length);
    size_t written = write_parts(picture, again);
    check_lent();
    if (written != length)
        stop("broken: a text of %zu bytes from grain_respond, and of %zu from its parts", length, written);
    size_t at = first_difference(bytes_of(text), bytes_of(again), length);
    if (at < length)
        stop("broken: two texts, from grain_respond and from its parts, that differ at byte %zu of %zu", at, length);
}

void answer_picture(void)
{
    struct lent *picture = lend_bytes("picture");
    end_request();
    struct lent *text = lend_blank("text room", GRAIN_TEXT_LENGTH);
    size_t length = grain_respond(BYTES(picture), bytes_of(text));
    check_lent();
    check_behind(text, length, 1);
    check_parts(picture, text, length);
    write_natural(length);
    for (size_t i = 0; i < length; i++)
        write_natural(bytes_of(text)[i]);
}
