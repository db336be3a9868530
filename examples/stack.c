/*
 * How much stack the calls that flood a picture take: each is made by a thread whose stack was painted before, and what it changed is counted, for a
 * picture of many levels and for one whose nodes are a chain. Prints the bytes, and fails where they are more than MOST: so much a thread of 16,384
 * bytes, the smallest of the GNU C library, can give a program that is linked statically or bound at its start. What is bound late takes some 3 kB once.
 */
#define _XOPEN_SOURCE 700 /* for pthread_attr_setstack */
#include "teldruf.h"

#include <pthread.h>
#include <stdio.h>
#include <string.h>

enum { SIDE = 18, N = SIDE * SIDE, WORDS = TELDRUF_WORDS_A_PIXEL * N, STEPS = 3, TRIPLED = TELDRUF_WORDS_A_TRIPLE * STEPS };
enum { STACK = 65536, PAINT = 0xa5, MOST = 11776, PICTURES = 2, REMOVED = N };

static uint8_t picture[N], output[N], residue[N];
static uint16_t index_map[N];
static int16_t contrast[N];
static uint32_t workspace[WORDS];
static const uint32_t steps[STEPS] = {2, 9, 40};
static const uint32_t triples[TRIPLED] = {2, 1, 1, 9, 3, 3, 40, 8, 8};

static uint64_t build(uint32_t neighbours) {
    return teldruf_build(picture, N, SIDE, SIDE, TELDRUF_AREA, neighbours, workspace, WORDS);
}

static uint64_t opening(uint32_t neighbours) {
    return teldruf_open(picture, N, SIDE, SIDE, TELDRUF_AREA, neighbours, REMOVED, workspace, WORDS, output, N);
}

static uint64_t map(uint32_t neighbours) {
    return teldruf_map(picture, N, SIDE, SIDE, TELDRUF_AREA, neighbours, steps, STEPS, 0, workspace, WORDS, residue, N, index_map, N);
}

static uint64_t dark_map(uint32_t neighbours) {
    return teldruf_dark_map(picture, N, SIDE, SIDE, TELDRUF_AREA, neighbours, steps, STEPS, 0, workspace, WORDS, residue, N, index_map, N);
}

static uint64_t combined_map(uint32_t neighbours) {
    return teldruf_combined_map(picture, N, SIDE, SIDE, TELDRUF_AREA, neighbours, steps, STEPS, 0, workspace, WORDS, residue, N, index_map, N,
                                contrast, N);
}

static uint64_t opening_triple(uint32_t neighbours) {
    return teldruf_open_triple(picture, N, SIDE, SIDE, neighbours, REMOVED, 3, 3, workspace, WORDS, output, N);
}

static uint64_t map_triples(uint32_t neighbours) {
    return teldruf_map_triples(picture, N, SIDE, SIDE, neighbours, triples, TRIPLED, 0, workspace, WORDS, residue, N, index_map, N);
}

static uint64_t dark_triples(uint32_t neighbours) {
    return teldruf_dark_map_triples(picture, N, SIDE, SIDE, neighbours, triples, TRIPLED, 0, workspace, WORDS, residue, N, index_map, N);
}

static uint64_t combined_triples(uint32_t neighbours) {
    return teldruf_combined_map_triples(picture, N, SIDE, SIDE, neighbours, triples, TRIPLED, 0, workspace, WORDS, residue, N, index_map, N,
                                        contrast, N);
}

static const struct {
    const char *name;
    uint64_t (*call)(uint32_t neighbours);
} calls[] = {
    {"build", build},
    {"opening", opening},
    {"map", map},
    {"dark map", dark_map},
    {"combined map", combined_map},
    {"opening by a triple", opening_triple},
    {"map by triples", map_triples},
    {"dark map by triples", dark_triples},
    {"combined map by triples", combined_triples},
};

static uint8_t stack[STACK] __attribute__((aligned(4096)));

/* A call to be made, and what it gives: its answer, and where the stack stood before it. */
typedef struct {
    size_t number;
    uint32_t neighbours;
    uint64_t answer;
    const uint8_t *top;
} made_t;

static void *make(void *given) {
    made_t *made = given;
    made->top = __builtin_frame_address(0);
    made->answer = calls[made->number].call(made->neighbours);
    return NULL;
}

/* The first picture has many levels and nodes. In the second each pixel inside the frame is brighter than the one before: a chain of 256 nodes. */
static void paint(int number) {
    for (size_t i = 0; i < N; i++) {
        size_t row = i / SIDE, column = i % SIDE;
        int inside = row > 0 && row < SIDE - 1 && column > 0 && column < SIDE - 1;
        size_t place = inside ? (row - 1) * (SIDE - 2) + column : 0;
        picture[i] = (uint8_t)(number == 0 ? 37 * i % 251 : place < 255 ? place : 255);
    }
}

/* The bytes of stack that a call takes, none where it is refused or no thread is made. */
static long stack_of(size_t number, uint32_t neighbours, const pthread_attr_t *attributes) {
    made_t made = {number, neighbours, 0, NULL};
    make(&made); /* here first, so that what is bound late is bound */
    memset(stack, PAINT, STACK);
    pthread_t thread;
    if (pthread_create(&thread, attributes, make, &made) != 0 || pthread_join(thread, NULL) != 0 || teldruf_cause(made.answer) != 0)
        return 0;
    const uint8_t *end = stack;
    while (*end == PAINT)
        end++;
    return (long)(made.top - end);
}

int main(void) {
    pthread_attr_t attributes;
    if (pthread_attr_init(&attributes) != 0 || pthread_attr_setstack(&attributes, stack, STACK) != 0)
        return 2;
    int status = 0;
    for (size_t i = 0; i < sizeof calls / sizeof calls[0]; i++)
        for (uint32_t neighbours = TELDRUF_EDGES; neighbours <= TELDRUF_CORNERS; neighbours += TELDRUF_CORNERS - TELDRUF_EDGES)
            for (int number = 0; number < PICTURES; number++) {
                paint(number);
                long taken = stack_of(i, neighbours, &attributes);
                printf("%s, %u neighbours, picture %d: %ld bytes of stack\n", calls[i].name, (unsigned)neighbours, number + 1, taken);
                if (taken < 1 || taken > MOST)
                    status = 1;
            }
    return status;
}
