/*
 * How long reading takes, by the byte: of one picture of 1,048,576 pixels, of eight of them in one file, of many tiny pictures and of eight
 * times as many, and of a header with a mebibyte of comment. Each file is read for its first picture and for its last, which must take as
 * long, since all pictures are judged; beside them stand a copy of the bytes and an earlier library where the benchmark is built with one.
 * Times are printed and decide nothing. A time is the processor time of one call, the least of several.
 *
 *   reading [RUNS]
 */
#include "bench.h"
#include "teldruf.h"

#include <stdio.h>
#include <stdlib.h>
#include <string.h>

/* The earlier library: NONE, or whether its reader takes a picture's number. */
enum { NONE, ALONE, NUMBERED };

#ifndef BEFORE
#define BEFORE NONE
#endif

/* What is timed: the library asked for the first picture and for the last, a copy, and the earlier library. */
enum { FIRST, LAST, COPY, EARLIER, WAYS };
enum { FILES = 5, MANY = 8, COMMENT = 1 << 20 };

typedef struct {
    const char *name;
    uint8_t *bytes;
    size_t length;
    uint64_t count; /* of its pictures */
} file_t;

static const char tiny[] = "P5 1 1 9 \5";

static uint8_t *made(size_t length) {
    uint8_t *bytes = malloc(length);
    if (bytes == NULL)
        exit(2);
    return bytes;
}

/* So many times a file, end to end. */
static file_t repeated(const char *name, const void *one, size_t length, uint64_t count) {
    file_t file = {name, made(length * count), length * count, count};
    for (uint64_t k = 0; k < count; k++)
        memcpy(file.bytes + k * length, one, length);
    return file;
}

static file_t large(const char *name, uint64_t count) {
    picture_t picture;
    if (!picture_make(&picture, "floc", SIDE, SIDE))
        exit(2);
    uint8_t *one = made(PIXELS + 17);
    uint64_t length = teldruf_write_pgm(picture.greys, PIXELS, SIDE, SIDE, 255, one, PIXELS + 17);
    file_t file = repeated(name, one, (size_t)length, count);
    free(one);
    free(picture.greys);
    return file;
}

static file_t commented(const char *name) {
    const char start[] = "P5 #", rest[] = "\n1 1 9 \5";
    file_t file = {name, made(sizeof start + COMMENT + sizeof rest - 2), sizeof start + COMMENT + sizeof rest - 2, 1};
    memcpy(file.bytes, start, sizeof start - 1);
    memset(file.bytes + sizeof start - 1, '#', COMMENT);
    memcpy(file.bytes + sizeof start - 1 + COMMENT, rest, sizeof rest - 1);
    return file;
}

#if BEFORE == 1
uint64_t before_read_pgm(const uint8_t *file, size_t file_len, uint32_t head[4]);

static uint64_t earlier_call(const file_t *file) {
    uint32_t head[4];
    return before_read_pgm(file->bytes, file->length, head);
}
#elif BEFORE == 2
uint64_t before_read_pgm(const uint8_t *file, size_t file_len, uint64_t number, uint64_t head[4]);

static uint64_t earlier_call(const file_t *file) {
    uint64_t head[4];
    return before_read_pgm(file->bytes, file->length, 1, head);
}
#else
static uint64_t earlier_call(const file_t *file) { return file->length; }
#endif

/* Whether the earlier library is there and takes the file. */
static int with_earlier(const file_t *file) { return BEFORE == NUMBERED || (BEFORE == ALONE && file->count == 1); }

static uint64_t call(int way, const file_t *file, uint8_t *copy) {
    uint64_t head[4];
    if (way == EARLIER)
        return earlier_call(file);
    if (way != COPY)
        return teldruf_read_pgm(file->bytes, file->length, way == FIRST ? 1 : file->count, head);
    memcpy(copy, file->bytes, file->length);
    return 0;
}

/* Nanoseconds a byte, by each way. */
static void measure_file(const file_t *file, int runs, double times[WAYS]) {
    uint8_t *copy = made(file->length);
    int ways = with_earlier(file) ? WAYS : EARLIER;
    for (int run = 0; run < runs; run++)
        for (int k = 0; k < ways; k++) {
            int way = (run + k) % ways;
            double start = milliseconds();
            uint64_t answer = call(way, file, copy);
            double time = (milliseconds() - start) * 1e6 / (double)file->length;
            if (answer != 0) {
                fprintf(stderr, "reading: %s was refused\n", file->name);
                exit(2);
            }
            if (run == 0 || time < times[way])
                times[way] = time;
        }
    if (memcmp(copy, file->bytes, file->length) != 0)
        exit(2);
    free(copy);
}

int main(int count, char **words) {
    int runs = count > 1 ? atoi(words[1]) : 31;
    if (runs < 1) {
        fprintf(stderr, "reading: '%s' is no number of runs\n", words[1]);
        return 2;
    }
    const size_t tiny_len = sizeof tiny - 1;
    const uint64_t many = PIXELS / tiny_len;
    file_t files[FILES] = {large("one picture", 1), large("burst of 8", MANY), repeated("tiny ones", tiny, tiny_len, many),
                           repeated("8 times those", tiny, tiny_len, MANY * many), commented("a comment")};
    printf("ns a byte, least of %d\n%-13s %9s %8s   %7s %7s %7s   %7s", runs, "file", "bytes", "pictures", "first", "last", "copy",
           "to copy");
    puts(BEFORE != NONE ? "   earlier  to that" : "");
    for (int k = 0; k < FILES; k++) {
        double t[WAYS];
        measure_file(&files[k], runs, t);
        printf("%-13s %9zu %8llu   %7.3f %7.3f %7.3f   %7.1f", files[k].name, files[k].length, (unsigned long long)files[k].count, t[FIRST],
               t[LAST], t[COPY], t[FIRST] / t[COPY]);
        if (with_earlier(&files[k]))
            printf("   %7.3f %8.2f", t[EARLIER], t[FIRST] / t[EARLIER]);
        putchar('\n');
        free(files[k].bytes);
    }
    return 0;
}
