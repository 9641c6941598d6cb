/*
 * The call of the gate console: the next departure from a quay, out of the image of a book.
 *
 * Link with libconsole.a, which console/check.sh writes to target/staticlib/: `rt lib` in
 * crates/console_c proves it and makes it, as out/libconsole_c.a. It needs no other library,
 * allocates nothing, keeps nothing between calls and may be called from any thread.
 */
#ifndef CANAL_H
#define CANAL_H

#include <stddef.h>
#include <stdint.h>

#ifdef __cplusplus
extern "C" {
#endif

/* The bytes that a departure takes at the front of the answer. */
#define CANAL_ANSWER_BYTES 4

/* The minutes of a day; a minute of the day is below it. */
#define CANAL_DAY 1440

/* The bytes of the largest image: 256 quays and 3,072 printed sailings. No longer image is allowed. */
#define CANAL_IMAGE_MAX 53264

/* The codes. Only CANAL_LEAVES changes the answer. */
enum {
    CANAL_LEAVES = 0,         /* a sailing leaves; its departure stands in the answer */
    CANAL_NONE_LEAVES = 255,  /* no sailing leaves this quay */

    /* The image is not allowed: the first thing that is wrong with it. */
    CANAL_CUT_OFF = 1,        /* the image ends inside a record */
    CANAL_NOT_DUE = 2,        /* a record has not the length or the kind that is due */
    CANAL_OUT_OF_LIMITS = 3,  /* a field is out of its limits */
    CANAL_FROM_FALLS = 4,     /* the sailings do not stand by the quay that they leave */
    CANAL_BYTES_FOLLOW = 5,   /* bytes follow the last record */
    CANAL_SERIES_LEAVES = 6,  /* a series leaves the day, the runs or the places */

    /* The question cannot be answered. */
    CANAL_NO_QUAY = 11,       /* the book has no such quay */
    CANAL_LATE_MINUTE = 12,   /* the minute is above 1439 */
    CANAL_SHORT_BUFFER = 21   /* the answer has room for fewer than four bytes */
};

/*
 * Asks for the earliest next departure, at or after `minute`, of any sailing from `quay`.
 *
 *   image, image_len     the bytes of an image of either kind, printed or clock-face. Any bytes may be
 *                        handed over: they are checked first, and are only read.
 *   quay                 counted from 0.
 *   minute               of the day, 0 to 1439.
 *   answer, answer_len   the caller's buffer, of four bytes or more.
 *
 * Returns CANAL_LEAVES with the departure in the first four bytes of the answer, the lowest byte
 * first. It counts minutes from the midnight before `minute`, and is at most 1439 minutes later, so
 * it is below 2880; from 1440 on it is on the next day. The bytes past four stay as they were.
 * With any other code the whole answer stays as it was.
 *
 * Where several things are wrong, the image's number comes first, then CANAL_NO_QUAY,
 * CANAL_LATE_MINUTE and CANAL_SHORT_BUFFER, in this order.
 *
 * Both buffers stay the caller's. They are not kept, and may be freed or used again when the call has
 * returned. They need no alignment. They must not overlap, and nothing else may write to either
 * during the call. A pointer may be NULL only if its length is 0.
 */
uint8_t canal_next_departure(const uint8_t *image, size_t image_len, uint16_t quay, uint16_t minute,
                             uint8_t *answer, size_t answer_len);

#ifdef __cplusplus
}
#endif

#endif
