/*
 * gate_console IMAGE QUAY MINUTE: prints the next departure from a quay, as "day 1 08:25".
 *
 * Day 0 is the day of the minute. The exit status is the code of the call: 0 where a sailing leaves,
 * 255 where none does, and else the number of the refusal; 64 where the arguments are wrong, and
 * 66 where the image cannot be read.
 */
#include "canal.h"

#include <stdio.h>
#include <stdlib.h>

enum { BAD_ARGUMENTS = 64, NO_FILE = 66 };

/* A number of two bytes, in decimal digits alone. Returns 0 where the text is no such number. */
static int read_number(const char *text, uint16_t *number)
{
    unsigned long value = 0;
    if (*text == '\0') {
        return 0;
    }
    for (; *text != '\0'; text++) {
        if (*text < '0' || *text > '9') {
            return 0;
        }
        value = value * 10 + (unsigned long)(*text - '0');
        if (value > UINT16_MAX) {
            return 0;
        }
    }
    *number = (uint16_t)value;
    return 1;
}

static const char *message(uint8_t code)
{
    switch (code) {
    case CANAL_NONE_LEAVES: return "no sailing leaves this quay";
    case CANAL_CUT_OFF: return "the image is cut off";
    case CANAL_NOT_DUE: return "the image has a record that is not due";
    case CANAL_OUT_OF_LIMITS: return "the image has a field out of its limits";
    case CANAL_FROM_FALLS: return "the image has sailings that do not stand by quay";
    case CANAL_BYTES_FOLLOW: return "the image has bytes after its last record";
    case CANAL_SERIES_LEAVES: return "the image has a series that leaves the day, the runs or the places";
    case CANAL_NO_QUAY: return "the book has no such quay";
    case CANAL_LATE_MINUTE: return "a minute of the day is at most 1439";
    case CANAL_SHORT_BUFFER: return "the buffer is too short for the answer";
    default: return "the call answered with a number that is not known";
    }
}

int main(int argc, char **argv)
{
    /* One byte more than the largest image, so that a longer file is told apart. */
    static uint8_t image[CANAL_IMAGE_MAX + 1];
    uint8_t answer[CANAL_ANSWER_BYTES];
    uint16_t quay, minute;
    size_t length;
    uint8_t code;
    uint32_t departure;
    FILE *file;

    if (argc != 4 || !read_number(argv[2], &quay) || !read_number(argv[3], &minute)) {
        fprintf(stderr, "usage: gate_console IMAGE QUAY MINUTE\n");
        return BAD_ARGUMENTS;
    }
    file = fopen(argv[1], "rb");
    if (file == NULL) {
        fprintf(stderr, "gate_console: %s cannot be opened\n", argv[1]);
        return NO_FILE;
    }
    length = fread(image, 1, sizeof image, file);
    if (ferror(file)) {
        fprintf(stderr, "gate_console: %s cannot be read\n", argv[1]);
        fclose(file);
        return NO_FILE;
    }
    fclose(file);

    code = canal_next_departure(image, length, quay, minute, answer, sizeof answer);
    if (code != CANAL_LEAVES) {
        fprintf(stderr, "gate_console: %s (%u)\n", message(code), (unsigned)code);
        return code;
    }
    departure = (uint32_t)answer[0] | (uint32_t)answer[1] << 8 | (uint32_t)answer[2] << 16 | (uint32_t)answer[3] << 24;
    printf("day %u %02u:%02u\n", (unsigned)(departure / CANAL_DAY), (unsigned)(departure % CANAL_DAY / 60), (unsigned)(departure % 60));
    return EXIT_SUCCESS;
}
