/*
 * Cases of the call. `cases` runs them all, with a line for each group; `cases time` prints the time
 * of a call; `cases FOLDER` writes the images for the example there.
 *
 * Both buffers end right before a page that cannot be touched, so that a read or a write past them
 * stops the program, whoever does it. The bytes before the answer are watched, and the image cannot be
 * written.
 */
#include "canal.h"

#include <stdio.h>
#include <stdlib.h>
#include <string.h>
#include <sys/mman.h>
#include <time.h>
#include <unistd.h>

enum { CANARY = 0xA5, PRINTED = 1, CLOCK_FACE = 2 };

static unsigned passed, failed, group_passed, group_failed;

static void expect(int right, const char *what, long got, long wanted)
{
    if (right) {
        group_passed++;
        return;
    }
    group_failed++;
    if (group_failed <= 10) {
        fprintf(stderr, "  %s: got %ld, expected %ld\n", what, got, wanted);
    }
}

static void equal(const char *what, long got, long wanted)
{
    expect(got == wanted, what, got, wanted);
}

static void end_group(const char *name)
{
    printf("  %-22s %6u passed, %u failed\n", name, group_passed, group_failed);
    passed += group_passed;
    failed += group_failed;
    group_passed = group_failed = 0;
}

/* ---- images */

typedef struct {
    uint8_t bytes[CANAL_IMAGE_MAX + 64];
    size_t length;
} Image;

static void put(Image *image, unsigned number)
{
    image->bytes[image->length++] = (uint8_t)(number & 255);
    image->bytes[image->length++] = (uint8_t)(number >> 8);
}

static void put_heading(Image *image, unsigned kind, unsigned quays, unsigned entries)
{
    image->length = 0;
    put(image, 14);
    put(image, kind);
    put(image, quays);
    put(image, entries);
    memset(image->bytes + image->length, 0, 8);
    image->length += 8;
}

static void put_quay(Image *image, unsigned change, const char *name)
{
    size_t letters = strlen(name);
    put(image, 14);
    put(image, 3);
    put(image, change);
    memset(image->bytes + image->length, ' ', 10);
    memcpy(image->bytes + image->length, name, letters < 10 ? letters : 10);
    image->length += 10;
}

static void put_sailing(Image *image, unsigned run, unsigned leg, unsigned from, unsigned to, unsigned dep, unsigned arr)
{
    put(image, 14);
    put(image, 4);
    put(image, run);
    put(image, leg);
    put(image, from);
    put(image, to);
    put(image, dep);
    put(image, arr);
}

static void put_series(Image *image, unsigned run, unsigned from, unsigned to, unsigned first, unsigned period, unsigned count, unsigned length)
{
    put(image, 18);
    put(image, 5);
    put(image, run);
    put(image, 0);
    put(image, from);
    put(image, to);
    put(image, first);
    put(image, period);
    put(image, count);
    put(image, length);
}

/* The worked book: four quays, the last of which no sailing leaves. */
static Image printed_book(void)
{
    static Image image;
    put_heading(&image, PRINTED, 4, 6);
    put_quay(&image, 5, "Mill");
    put_quay(&image, 30, "Lock");
    put_quay(&image, 10, "Basin");
    put_quay(&image, 5, "Wharf 4567");
    put_sailing(&image, 7, 0, 0, 1, 480, 500);
    put_sailing(&image, 9, 0, 0, 1, 470, 490);
    put_sailing(&image, 7, 1, 1, 2, 505, 540);
    put_sailing(&image, 8, 0, 1, 2, 515, 530);
    put_sailing(&image, 6, 0, 1, 2, 510, 540);
    put_sailing(&image, 5, 0, 2, 3, 1430, 10);
    return image;
}

/* From quay 0 each half hour from 6:00 to 17:30 and each hour from 6:15 to 15:15, from quay 1 at 23:59. */
static Image clock_face_book(void)
{
    static Image image;
    put_heading(&image, CLOCK_FACE, 3, 3);
    put_quay(&image, 5, "Mill");
    put_quay(&image, 30, "Lock");
    put_quay(&image, 10, "Basin");
    put_series(&image, 100, 0, 1, 360, 30, 24, 20);
    put_series(&image, 200, 0, 2, 375, 60, 10, 45);
    put_series(&image, 300, 1, 2, 1439, 1, 1, 1439);
    return image;
}

/* 256 quays and 3,072 sailings, 12 from each quay, or all of them from the last. */
static Image largest_book(int spread)
{
    static Image image;
    unsigned i;
    put_heading(&image, PRINTED, 256, 3072);
    for (i = 0; i < 256; i++) {
        put_quay(&image, 5, "Quay");
    }
    for (i = 0; i < 3072; i++) {
        unsigned from = spread ? i / 12 : 255;
        put_sailing(&image, i, 0, from, (from + 1) % 256, (i * 7) % 1440, (i * 7 + 20) % 1440);
    }
    return image;
}

/* 256 quays and 512 series with 3,072 places, 12 from each quay, or all of them from the last. */
static Image largest_clock_face_book(int spread)
{
    static Image image;
    unsigned i;
    put_heading(&image, CLOCK_FACE, 256, 512);
    for (i = 0; i < 256; i++) {
        put_quay(&image, 5, "Quay");
    }
    for (i = 0; i < 512; i++) {
        unsigned from = spread ? i / 2 : 255;
        put_series(&image, 6 * i, from, (from + 1) % 256, i % 720, 60, 6, 20);
    }
    return image;
}

/* ---- fenced memory */

typedef struct {
    uint8_t *pages;
    size_t size;  /* of the pages before the fence */
} Fenced;

static Fenced fenced(size_t size)
{
    Fenced f;
    size_t page = (size_t)sysconf(_SC_PAGESIZE);
    f.size = (size / page + 1) * page;
    f.pages = mmap(NULL, f.size + page, PROT_READ | PROT_WRITE, MAP_PRIVATE | MAP_ANONYMOUS, -1, 0);
    if (f.pages == MAP_FAILED || mprotect(f.pages + f.size, page, PROT_NONE) != 0) {
        perror("cases: no memory");
        exit(2);
    }
    return f;
}

static Fenced image_pages, answer_pages;

/* Calls with the image and the answer each right before a fence. The buffer holds 1, 2, 3 .. before. */
static uint8_t call(const uint8_t *bytes, size_t length, unsigned quay, unsigned minute, uint8_t *answer, size_t room)
{
    uint8_t *image = image_pages.pages + image_pages.size - length;
    uint8_t *buffer = answer_pages.pages + answer_pages.size - room;
    uint8_t code;
    size_t i;
    if (mprotect(image_pages.pages, image_pages.size, PROT_READ | PROT_WRITE) != 0) {
        exit(2);
    }
    if (length > 0) {
        memcpy(image, bytes, length);
    }
    if (mprotect(image_pages.pages, image_pages.size, PROT_READ) != 0) {
        exit(2);
    }
    memset(answer_pages.pages, CANARY, answer_pages.size);
    for (i = 0; i < room; i++) {
        buffer[i] = (uint8_t)(i + 1);
    }
    code = canal_next_departure(image, length, (uint16_t)quay, (uint16_t)minute, buffer, room);
    for (i = 0; i < answer_pages.size - room; i++) {
        if (answer_pages.pages[i] != CANARY) {
            expect(0, "a byte before the answer", answer_pages.pages[i], CANARY);
            break;
        }
    }
    for (i = code == CANAL_LEAVES ? CANAL_ANSWER_BYTES : 0; i < room; i++) {
        if (buffer[i] != (uint8_t)(i + 1)) {
            expect(0, "a byte of the answer that has to stand", buffer[i], (long)i + 1);
        }
    }
    for (i = 0; i < room && i < CANAL_ANSWER_BYTES; i++) {
        answer[i] = buffer[i];
    }
    return code;
}

static void refuses(const char *what, const Image *image, unsigned quay, unsigned minute, size_t room, uint8_t wanted)
{
    uint8_t answer[CANAL_ANSWER_BYTES];
    equal(what, call(image->bytes, image->length, quay, minute, answer, room), wanted);
}

static void leaves(const char *what, const Image *image, unsigned quay, unsigned minute, unsigned wanted)
{
    uint8_t answer[CANAL_ANSWER_BYTES] = {0, 0, 0, 0};
    equal(what, call(image->bytes, image->length, quay, minute, answer, 6), CANAL_LEAVES);
    equal(what, answer[0], wanted & 255);
    equal(what, answer[1], wanted >> 8);
    equal(what, answer[2], 0);
    equal(what, answer[3], 0);
}

static Image changed(const Image *image, size_t at, unsigned number)
{
    static Image copy;
    copy = *image;
    copy.bytes[at] = (uint8_t)(number & 255);
    copy.bytes[at + 1] = (uint8_t)(number >> 8);
    return copy;
}

static void damaged(const char *what, const Image *image, size_t at, unsigned number, uint8_t wanted)
{
    Image copy = changed(image, at, number);
    refuses(what, &copy, 0, 0, 4, wanted);
}

/* ---- groups */

static void departures(void)
{
    Image b = printed_book(), c = clock_face_book(), l = largest_book(1);
    leaves("the earlier of two", &b, 0, 0, 470);
    leaves("at the minute itself", &b, 0, 470, 470);
    leaves("a minute late", &b, 0, 471, 480);
    leaves("both have left", &b, 0, 481, 470 + 1440);
    leaves("three sailings", &b, 1, 506, 510);
    leaves("last minute of the day", &b, 0, 1439, 470 + 1440);
    leaves("late in the day", &b, 2, 1430, 1430);
    leaves("gone since nine minutes", &b, 2, 1439, 1430 + 1440);
    end_group("printed book");
    leaves("first member", &c, 0, 0, 360);
    leaves("the other series", &c, 0, 361, 375);
    leaves("second member", &c, 0, 376, 390);
    leaves("the last of a series", &c, 0, 915, 915);
    leaves("one series has ended", &c, 0, 916, 930);
    leaves("the last of all", &c, 0, 1050, 1050);
    leaves("next day", &c, 0, 1051, 360 + 1440);
    leaves("series of one", &c, 1, 0, 1439);
    leaves("at its minute", &c, 1, 1439, 1439);
    end_group("clock-face book");
    leaves("first quay", &l, 0, 0, 0);
    leaves("first quay, a minute late", &l, 0, 1, 7);
    leaves("last quay", &l, 255, 0, (3060u * 7) % 1440);
    end_group("largest book");
}

static void codes(void)
{
    Image b = printed_book(), c = clock_face_book();
    refuses("no sailing", &b, 3, 600, 4, CANAL_NONE_LEAVES);
    refuses("no sailing, clock-face", &c, 2, 600, 4, CANAL_NONE_LEAVES);
    refuses("quay past the last", &b, 4, 600, 4, CANAL_NO_QUAY);
    refuses("quay past the last, clock-face", &c, 3, 600, 4, CANAL_NO_QUAY);
    refuses("highest quay number", &b, 65535, 600, 4, CANAL_NO_QUAY);
    refuses("minute 1440", &b, 0, 1440, 4, CANAL_LATE_MINUTE);
    refuses("minute 1440, clock-face", &c, 0, 1440, 4, CANAL_LATE_MINUTE);
    refuses("highest minute number", &b, 0, 65535, 4, CANAL_LATE_MINUTE);
    refuses("short buffer", &b, 0, 0, 3, CANAL_SHORT_BUFFER);
    refuses("short buffer where none leaves", &b, 3, 0, 3, CANAL_SHORT_BUFFER);
    refuses("quay before minute and buffer", &b, 4, 1440, 0, CANAL_NO_QUAY);
    refuses("minute before buffer", &b, 0, 1440, 0, CANAL_LATE_MINUTE);
    b.bytes[b.length++] = 0;
    refuses("image before all", &b, 4, 1440, 0, CANAL_BYTES_FOLLOW);
    end_group("codes and their order");
}

static void damage(void)
{
    Image b = printed_book(), c = clock_face_book(), d;
    size_t i;
    unsigned k;
    for (i = 0; i < b.length; i++) {
        d = b;
        d.length = i;
        refuses("printed image cut", &d, 0, 0, 4, CANAL_CUT_OFF);
    }
    for (i = 0; i < c.length; i++) {
        d = c;
        d.length = i;
        refuses("clock-face image cut", &d, 0, 0, 4, CANAL_CUT_OFF);
    }
    damaged("heading's length", &b, 0, 15, CANAL_NOT_DUE);
    damaged("heading's kind", &b, 2, 3, CANAL_NOT_DUE);
    damaged("quay's kind", &b, 18, 4, CANAL_NOT_DUE);
    damaged("sailing's length", &b, 80, 18, CANAL_NOT_DUE);
    damaged("series' kind", &c, 66, 4, CANAL_NOT_DUE);
    damaged("no quays", &b, 4, 0, CANAL_OUT_OF_LIMITS);
    damaged("257 quays", &b, 4, 257, CANAL_OUT_OF_LIMITS);
    damaged("3073 sailings", &b, 6, 3073, CANAL_OUT_OF_LIMITS);
    damaged("513 series", &c, 6, 513, CANAL_OUT_OF_LIMITS);
    damaged("zero byte", &b, 14, 256, CANAL_OUT_OF_LIMITS);
    damaged("change time", &b, 20, 1440, CANAL_OUT_OF_LIMITS);
    damaged("letter below 32", &b, 22, 31 + 256 * 65, CANAL_OUT_OF_LIMITS);
    damaged("letter above 126", &b, 22, 127 + 256 * 65, CANAL_OUT_OF_LIMITS);
    damaged("from past the quays", &b, 160 + 8, 4, CANAL_OUT_OF_LIMITS);
    damaged("to its own quay", &b, 80 + 10, 0, CANAL_OUT_OF_LIMITS);
    damaged("departure", &b, 80 + 12, 1440, CANAL_OUT_OF_LIMITS);
    damaged("arrival", &b, 80 + 14, 1440, CANAL_OUT_OF_LIMITS);
    damaged("period 0", &c, 64 + 14, 0, CANAL_OUT_OF_LIMITS);
    damaged("count 0", &c, 64 + 16, 0, CANAL_OUT_OF_LIMITS);
    damaged("series' length", &c, 64 + 18, 1440, CANAL_OUT_OF_LIMITS);
    damaged("sailings not by quay", &b, 96 + 8, 2, CANAL_FROM_FALLS);
    damaged("series not by quay", &c, 64 + 8, 2, CANAL_FROM_FALLS);
    damaged("last member leaves the day", &c, 64 + 16, 37 + 1, CANAL_SERIES_LEAVES);
    damaged("last member passes the runs", &c, 64 + 4, 65535 - 22, CANAL_SERIES_LEAVES);
    d = b;
    d.bytes[d.length++] = 0;
    refuses("a byte follows", &d, 0, 0, 4, CANAL_BYTES_FOLLOW);
    d = c;
    d.bytes[d.length++] = 0;
    refuses("a byte follows, clock-face", &d, 0, 0, 4, CANAL_BYTES_FOLLOW);
    put_heading(&d, CLOCK_FACE, 2, 3);
    put_quay(&d, 0, "");
    put_quay(&d, 0, "");
    for (k = 0; k < 3; k++) {
        put_series(&d, 0, 0, 1, 0, 1, 1440, 1);
    }
    refuses("too many places", &d, 0, 0, 4, CANAL_SERIES_LEAVES);
    end_group("damaged images");
}

/* Each byte of both images at each value: whatever comes is one of the codes, and no fence is touched. */
static void every_byte(void)
{
    Image books[2], d;
    uint8_t answer[CANAL_ANSWER_BYTES], code;
    size_t i;
    unsigned k, value;
    books[0] = printed_book();
    books[1] = clock_face_book();
    for (k = 0; k < 2; k++) {
        for (i = 0; i < books[k].length; i++) {
            for (value = 0; value < 256; value++) {
                d = books[k];
                d.bytes[i] = (uint8_t)value;
                code = call(d.bytes, d.length, 0, 600, answer, 4);
                expect(code <= 6 || code == CANAL_NONE_LEAVES, "one changed byte", code, 0);
            }
        }
    }
    end_group("every changed byte");
}

static void buffers(void)
{
    Image b = printed_book(), c = clock_face_book();
    uint8_t answer[CANAL_ANSWER_BYTES];
    size_t room;
    for (room = 0; room <= 5; room++) {
        uint8_t wanted = room < CANAL_ANSWER_BYTES ? CANAL_SHORT_BUFFER : CANAL_LEAVES;
        equal("printed", call(b.bytes, b.length, 0, 481, answer, room), wanted);
        equal("clock-face", call(c.bytes, c.length, 0, 1051, answer, room), wanted);
        if (room >= CANAL_ANSWER_BYTES) {
            equal("lowest byte first", answer[0], (360 + 1440) & 255);
            equal("second byte", answer[1], (360 + 1440) >> 8);
        }
        /* the same in a heap block of just this size, with nothing beyond it */
        {
            uint8_t *image = malloc(b.length), *buffer = malloc(room > 0 ? room : 1);
            if (image == NULL || buffer == NULL) {
                exit(2);
            }
            memcpy(image, b.bytes, b.length);
            equal("heap", canal_next_departure(image, b.length, 0, 481, buffer, room), wanted);
            expect(memcmp(image, b.bytes, b.length) == 0, "the image stands", 1, 0);
            free(image);
            free(buffer);
        }
    }
    equal("no image", canal_next_departure(NULL, 0, 0, 0, answer, sizeof answer), CANAL_CUT_OFF);
    equal("no image and no buffer", canal_next_departure(NULL, 0, 0, 0, NULL, 0), CANAL_CUT_OFF);
    equal("no buffer", canal_next_departure(b.bytes, b.length, 0, 0, NULL, 0), CANAL_SHORT_BUFFER);
    end_group("buffers of 0 to 5");
}

/* The first minute from the one asked for on at which some sailing from the quay leaves, tried minute by minute. */
static long first_minute(const unsigned (*sailings)[2], size_t count, unsigned quay, unsigned minute)
{
    unsigned m;
    size_t i;
    for (m = minute; m < minute + CANAL_DAY; m++) {
        for (i = 0; i < count; i++) {
            if (sailings[i][0] == quay && m % CANAL_DAY == sailings[i][1]) {
                return (long)m;
            }
        }
    }
    return -1;
}

static void sweep(const char *name, const Image *image, const unsigned (*sailings)[2], size_t count, unsigned quays)
{
    unsigned quay, minute;
    for (quay = 0; quay < quays; quay++) {
        for (minute = 0; minute < CANAL_DAY; minute++) {
            uint8_t answer[CANAL_ANSWER_BYTES] = {0, 0, 0, 0};
            uint8_t code = canal_next_departure(image->bytes, image->length, (uint16_t)quay, (uint16_t)minute, answer, sizeof answer);
            long wanted = first_minute(sailings, count, quay, minute);
            long got = code == CANAL_LEAVES ? (long)(answer[0] + 256u * answer[1] + 65536u * answer[2] + 16777216u * answer[3]) : code == CANAL_NONE_LEAVES ? -1 : -2;
            equal(name, got, wanted);
        }
    }
    end_group(name);
}

static void sweeps(void)
{
    static const unsigned printed[6][2] = {{0, 480}, {0, 470}, {1, 505}, {1, 515}, {1, 510}, {2, 1430}};
    unsigned clock_face[35][2];
    Image b = printed_book(), c = clock_face_book();
    unsigned i;
    for (i = 0; i < 24; i++) {
        clock_face[i][0] = 0;
        clock_face[i][1] = 360 + 30 * i;
    }
    for (i = 0; i < 10; i++) {
        clock_face[24 + i][0] = 0;
        clock_face[24 + i][1] = 375 + 60 * i;
    }
    clock_face[34][0] = 1;
    clock_face[34][1] = 1439;
    sweep("minutes, printed", &b, printed, 6, 4);
    sweep("minutes, clock-face", &c, (const unsigned (*)[2])clock_face, 35, 3);
}

/* ---- the time of a call */

static void timed(const char *name, const Image *image, unsigned quay, double bound)
{
    enum { CALLS = 1000 };
    struct timespec start, end;
    uint8_t answer[CANAL_ANSWER_BYTES];
    unsigned i;
    double mean;
    clock_gettime(CLOCK_MONOTONIC, &start);
    for (i = 0; i < CALLS; i++) {
        if (canal_next_departure(image->bytes, image->length, (uint16_t)quay, (uint16_t)(i % CANAL_DAY), answer, sizeof answer) != CANAL_LEAVES) {
            expect(0, name, 1, 0);
        }
    }
    clock_gettime(CLOCK_MONOTONIC, &end);
    mean = ((double)(end.tv_sec - start.tv_sec) * 1e6 + (double)(end.tv_nsec - start.tv_nsec) / 1e3) / CALLS;
    printf("  %-40s mean of %d calls %8.1f us, below %.0f us\n", name, CALLS, mean, bound);
    expect(mean < bound, name, (long)mean, (long)bound);
}

static void times(void)
{
    Image a = largest_book(1), b = largest_book(0), c = largest_clock_face_book(1), d = largest_clock_face_book(0);
    equal("the largest image", (long)a.length, CANAL_IMAGE_MAX);
    timed("largest book, 12 sailings from the quay", &a, 255, 5000);
    timed("largest book, all from one quay", &b, 255, 5000);
    timed("512 series, 12 sailings from the quay", &c, 255, 5000);
    timed("512 series, all from one quay", &d, 255, 100000);
    end_group("times");
}

static void write_image(const char *folder, const char *name, const Image *image)
{
    char path[4096];
    FILE *file;
    snprintf(path, sizeof path, "%s/%s", folder, name);
    file = fopen(path, "wb");
    if (file == NULL || fwrite(image->bytes, 1, image->length, file) != image->length || fclose(file) != 0) {
        perror(path);
        exit(2);
    }
}

static void write_images(const char *folder)
{
    Image b = printed_book(), c = clock_face_book(), l = largest_book(1), d;
    write_image(folder, "printed.img", &b);
    write_image(folder, "clock.img", &c);
    write_image(folder, "largest.img", &l);
    d = b;
    d.length--;
    write_image(folder, "cut.img", &d);
    d = changed(&b, 2, 3);
    write_image(folder, "kind.img", &d);
    d = changed(&b, 20, 1440);
    write_image(folder, "change.img", &d);
    d = changed(&b, 96 + 8, 2);
    write_image(folder, "order.img", &d);
    l.bytes[l.length++] = 0;
    write_image(folder, "longer.img", &l);
    d = changed(&c, 64 + 16, 38);
    write_image(folder, "series.img", &d);
}

int main(int argc, char **argv)
{
    /* a line at a time, so that a stop by a fence loses none */
    setvbuf(stdout, NULL, _IOLBF, 0);
    if (argc == 2 && strcmp(argv[1], "time") != 0) {
        write_images(argv[1]);
        return 0;
    }
    if (argc == 2) {
        times();
    } else {
        image_pages = fenced(CANAL_IMAGE_MAX + 64);
        answer_pages = fenced(64);
        departures();
        codes();
        damage();
        every_byte();
        buffers();
        sweeps();
    }
    printf("cases: %u passed, %u failed\n", passed, failed);
    return failed != 0;
}
