/*
 * Each call of the library, on a row of five pixels in a ring, so that only the root touches the frame: what a host in C lends, and what it
 * finds afterwards. Prints the picture that it reads, its tree, an opening, the maps at two gaps, and refusals; then, for two pictures in
 * one file, each by its number, and refusals; then, for bright floc with a darker pit, the maps of each side and of both, a row viewed in
 * each side's, and refusals; then, for threads and floc, an opening by a triple, the maps by triples of each side and of both, and refusals.
 * examples/run holds what is printed to calls.txt.
 */
#include "teldruf.h"

#include <stdio.h>

enum { N = 21, PITTED_SIDE = 5, PITTED_N = PITTED_SIDE * PITTED_SIDE };
enum { THREADS_WIDTH = 7, THREADS_HEIGHT = 6, THREADS_N = THREADS_WIDTH * THREADS_HEIGHT };

static const uint8_t file[] = "P5\n7 3\n255\n"
                              "\x0a\x0a\x0a\x0a\x0a\x0a\x0a"
                              "\x0a\x0a\x1e\x14\x32\x0a\x0a"
                              "\x0a\x0a\x0a\x0a\x0a\x0a\x0a";

/* Two pictures end to end, and after them a newline, which is lent only where it is to be refused. */
static const uint8_t burst[] = "P5\n3 1\n9\n"
                               "\x01\x09\x05"
                               "P5 # the second\n2 2 255\n"
                               "\x0a\x1e\x14\x32"
                               "\n";

enum { BURST_LEN = sizeof burst - 2, BURST_FIRST_LEN = 12 }; /* without the newline, and of the first picture alone */

static const uint8_t pitted[PITTED_N] = {
    20, 20, 20, 20, 20,
    20, 80, 80, 80, 20,
    20, 80, 50, 80, 20,
    20, 80, 80, 80, 20,
    20, 20, 20, 20, 20,
};

/* A light thread that stands, a dark one that lies, and light floc with a speck. */
static const uint8_t threads[THREADS_N] = {
    100, 100, 100, 100, 100, 100, 100,
    100, 130, 100, 60,  60,  60,  100,
    100, 130, 100, 100, 100, 100, 100,
    100, 130, 100, 150, 150, 100, 100,
    100, 100, 100, 150, 190, 100, 100,
    100, 100, 100, 100, 100, 100, 100,
};

static void bytes(const char *name, const uint8_t *entries, size_t count) {
    printf("%s", name);
    for (size_t i = 0; i < count; i++)
        printf(" %u", (unsigned)entries[i]);
    printf("\n");
}

static void words(const char *name, const uint32_t *entries, size_t count) {
    printf("%s", name);
    for (size_t i = 0; i < count; i++)
        printf(" %u", (unsigned)entries[i]);
    printf("\n");
}

static void longs(const char *name, const uint64_t *entries, size_t count) {
    printf("%s", name);
    for (size_t i = 0; i < count; i++)
        printf(" %llu", (unsigned long long)entries[i]);
    printf("\n");
}

static void indices(const uint16_t *entries, size_t count) {
    printf("index");
    for (size_t i = 0; i < count; i++)
        printf(" %u", (unsigned)entries[i]);
    printf("\n");
}

static void contrasts(const int16_t *entries, size_t count) {
    printf("contrast");
    for (size_t i = 0; i < count; i++)
        printf(" %d", entries[i]);
    printf("\n");
}

static void refused(uint64_t answer) {
    uint32_t cause = teldruf_cause(answer);
    printf("refused %u: %s\n", (unsigned)cause, teldruf_cause_text(cause));
}

/* Each picture is read where it stands in the file. */
static void in_a_burst(void) {
    uint64_t head[4];
    for (uint64_t number = 1; number <= 2; number++) {
        uint64_t answer = teldruf_read_pgm(burst, BURST_LEN, number, head);
        printf("picture %u of the burst %u\n", (unsigned)number, (unsigned)teldruf_cause(answer));
        longs("head", head, 4);
        bytes("picture", burst + head[3], (size_t)(head[0] * head[1]));
    }
    refused(teldruf_read_pgm(burst, BURST_LEN, 0, head));
    refused(teldruf_read_pgm(burst, BURST_LEN, 3, head));
    refused(teldruf_read_pgm(burst, BURST_LEN, UINT64_C(4294967297), head));
    /* A fault in the second picture, though the first is asked for: its raster, its header and its sign cut short. */
    refused(teldruf_read_pgm(burst, BURST_LEN - 1, 1, head));
    refused(teldruf_read_pgm(burst, BURST_FIRST_LEN + 2, 1, head));
    refused(teldruf_read_pgm(burst, BURST_FIRST_LEN + 1, 1, head));
    /* The newline after the last raster; then 11 and 8 before 18. */
    refused(teldruf_read_pgm(burst, BURST_LEN + 1, 1, head));
    refused(teldruf_read_pgm(burst, BURST_LEN - 1, 0, head));
    refused(teldruf_read_pgm(burst, 0, 0, head));
    longs("head as it was", head, 4);
}

/* The row is read where it stands in the map. */
static void view(const uint8_t *light, const uint8_t *dark, size_t dark_len, uint32_t row, uint32_t side) {
    uint64_t answer = teldruf_view_row(light, PITTED_N, dark, dark_len, PITTED_SIDE, PITTED_SIDE, row, side);
    const uint8_t *start = teldruf_row(light, dark, side, answer);
    if (start == NULL)
        refused(answer);
    else
        bytes(side == TELDRUF_LIGHT ? "light row" : "dark row", start, PITTED_SIDE);
}

/* In the pit the residues of both sides are 30, so dark wins there. Dark and combined maps leave the record of the reversed picture. */
static void both_sides(void) {
    const uint32_t steps[] = {2, 10};
    uint32_t workspace[TELDRUF_WORDS_A_PIXEL * PITTED_N] = {0};
    uint8_t light[PITTED_N], dark[PITTED_N], residue[PITTED_N];
    uint16_t index[PITTED_N];
    int16_t contrast[PITTED_N];

    uint64_t answer = teldruf_dark_map(pitted, PITTED_N, PITTED_SIDE, PITTED_SIDE, TELDRUF_AREA, TELDRUF_EDGES, steps, 2, 0, workspace,
                                       TELDRUF_WORDS_A_PIXEL * PITTED_N, dark, PITTED_N, index, PITTED_N);
    printf("dark map %u\n", (unsigned)teldruf_cause(answer));
    bytes("residue", dark, PITTED_N);
    indices(index, PITTED_N);
    words("attributes", workspace + PITTED_N, PITTED_N);

    answer = teldruf_map(pitted, PITTED_N, PITTED_SIDE, PITTED_SIDE, TELDRUF_AREA, TELDRUF_EDGES, steps, 2, 0, workspace,
                         TELDRUF_WORDS_A_PIXEL * PITTED_N, light, PITTED_N, index, PITTED_N);
    printf("light map %u\n", (unsigned)teldruf_cause(answer));
    bytes("residue", light, PITTED_N);
    indices(index, PITTED_N);
    words("attributes", workspace + PITTED_N, PITTED_N);

    answer = teldruf_combined_map(pitted, PITTED_N, PITTED_SIDE, PITTED_SIDE, TELDRUF_AREA, TELDRUF_EDGES, steps, 2, 0, workspace,
                                  TELDRUF_WORDS_A_PIXEL * PITTED_N, residue, PITTED_N, index, PITTED_N, contrast, PITTED_N);
    printf("combined map %u\n", (unsigned)teldruf_cause(answer));
    bytes("residue", residue, PITTED_N);
    indices(index, PITTED_N);
    contrasts(contrast, PITTED_N);
    words("attributes", workspace + PITTED_N, PITTED_N);

    refused(teldruf_combined_map(pitted, PITTED_N, PITTED_SIDE, PITTED_SIDE, TELDRUF_AREA, TELDRUF_EDGES, steps, 2, 0, workspace,
                                 TELDRUF_WORDS_A_PIXEL * PITTED_N, residue, PITTED_N, index, PITTED_N, contrast, PITTED_N - 1));

    view(light, dark, PITTED_N, 2, TELDRUF_LIGHT);
    view(light, dark, PITTED_N, 2, TELDRUF_DARK);
    view(light, dark, PITTED_N, 5, TELDRUF_LIGHT);
    view(light, dark, PITTED_N, 2, 3);
    view(light, dark, PITTED_N - 1, 5, 3); /* 6 before 16 */
}

/* Each step removes one thing more: the speck by area, the thread that lies by height, the one that stands by width, the floc by area. */
static void by_triples(void) {
    const uint32_t steps[] = {2, 0, 0, 2, 2, 0, 2, 2, 2, 5, 2, 2}, falling[] = {2, 2, 0, 3, 1, 0};
    const size_t steps_len = 4 * TELDRUF_WORDS_A_TRIPLE, workspace_len = TELDRUF_WORDS_A_PIXEL * THREADS_N;
    uint32_t workspace[TELDRUF_WORDS_A_PIXEL * THREADS_N] = {0};
    uint8_t output[THREADS_N], residue[THREADS_N];
    uint16_t index[THREADS_N];
    int16_t contrast[THREADS_N];

    uint64_t answer = teldruf_open_triple(threads, THREADS_N, THREADS_WIDTH, THREADS_HEIGHT, TELDRUF_EDGES, 2, 2, 2, workspace,
                                          workspace_len, output, THREADS_N);
    printf("open by triple %u\n", (unsigned)teldruf_cause(answer));
    bytes("opened", output, THREADS_N);
    words("attributes", workspace + THREADS_N, THREADS_N);

    for (uint32_t gap = 0; gap <= 3; gap += 3) {
        answer = teldruf_map_triples(threads, THREADS_N, THREADS_WIDTH, THREADS_HEIGHT, TELDRUF_CORNERS, steps, steps_len, gap, workspace,
                                     workspace_len, residue, THREADS_N, index, THREADS_N);
        printf("map by triples %u at gap %u\n", (unsigned)teldruf_cause(answer), (unsigned)gap);
        bytes("residue", residue, THREADS_N);
        indices(index, THREADS_N);
    }
    words("attributes", workspace + THREADS_N, THREADS_N);

    answer = teldruf_dark_map_triples(threads, THREADS_N, THREADS_WIDTH, THREADS_HEIGHT, TELDRUF_EDGES, steps, steps_len, 0, workspace,
                                      workspace_len, residue, THREADS_N, index, THREADS_N);
    printf("dark map by triples %u\n", (unsigned)teldruf_cause(answer));
    bytes("residue", residue, THREADS_N);
    indices(index, THREADS_N);
    words("attributes", workspace + THREADS_N, THREADS_N);

    answer = teldruf_combined_map_triples(threads, THREADS_N, THREADS_WIDTH, THREADS_HEIGHT, TELDRUF_EDGES, steps, steps_len, 0, workspace,
                                          workspace_len, residue, THREADS_N, index, THREADS_N, contrast, THREADS_N);
    printf("combined map by triples %u\n", (unsigned)teldruf_cause(answer));
    bytes("residue", residue, THREADS_N);
    indices(index, THREADS_N);
    contrasts(contrast, THREADS_N);
    words("attributes", workspace + THREADS_N, THREADS_N);

    for (uint32_t neighbours = 5; neighbours >= TELDRUF_EDGES; neighbours--)
        refused(teldruf_open_triple(threads, THREADS_N, THREADS_WIDTH, THREADS_HEIGHT, neighbours, 0, 0, 0, workspace, workspace_len,
                                    output, THREADS_N));
    /* The last step is cut short; then a height falls. */
    refused(teldruf_map_triples(threads, THREADS_N, THREADS_WIDTH, THREADS_HEIGHT, TELDRUF_EDGES, steps, steps_len - 1,
                                TELDRUF_MOST_GAP + 1, workspace, workspace_len, residue, THREADS_N, index, THREADS_N));
    refused(teldruf_dark_map_triples(threads, THREADS_N, THREADS_WIDTH, THREADS_HEIGHT, TELDRUF_EDGES, falling, 6, 0, workspace,
                                     workspace_len, residue, THREADS_N, index, THREADS_N));
    /* A gap that is too large, a workspace that is too short, a contrast that is too short. */
    for (int right = 0; right < 3; right++)
        refused(teldruf_combined_map_triples(threads, THREADS_N, THREADS_WIDTH, THREADS_HEIGHT, TELDRUF_EDGES, steps, steps_len,
                                             right > 0 ? TELDRUF_MOST_GAP : TELDRUF_MOST_GAP + 1, workspace,
                                             right > 1 ? workspace_len : THREADS_N, residue, THREADS_N, index, THREADS_N, contrast,
                                             THREADS_N - 1));
}

int main(void) {
    size_t file_len = sizeof file - 1; /* without the 0 that ends a string */
    uint64_t head[4];
    uint32_t workspace[TELDRUF_WORDS_A_PIXEL * N];
    const uint32_t steps[] = {1, 2, 3, 4};
    uint8_t output[N], residue[N], buffer[N + 17];
    uint16_t index[N];

    if (teldruf_cause(teldruf_read_pgm(file, file_len, 1, head)) != 0)
        return 1;
    longs("head", head, 4);
    const uint32_t width = (uint32_t)head[0], height = (uint32_t)head[1], maximum = (uint32_t)head[2];
    const uint8_t *picture = file + head[3];
    bytes("picture", picture, N);

    uint64_t nodes =
        teldruf_build(picture, N, width, height, TELDRUF_AREA, TELDRUF_EDGES, workspace, TELDRUF_WORDS_A_PIXEL * N);
    printf("nodes %u\n", (unsigned)nodes);
    words("parents", workspace, N);
    words("attributes", workspace + N, N);
    words("from root to leaf", workspace + 2 * N, (size_t)nodes);

    uint64_t opened = teldruf_open(picture, N, width, height, TELDRUF_AREA, TELDRUF_EDGES, 2, workspace,
                                   TELDRUF_WORDS_A_PIXEL * N, output, N);
    printf("open %u\n", (unsigned)teldruf_cause(opened));
    bytes("opened", output, N);

    for (uint32_t gap = 0; gap <= 2; gap += 2) {
        uint64_t mapped = teldruf_map(picture, N, width, height, TELDRUF_AREA, TELDRUF_CORNERS, steps, 4, gap, workspace,
                                      TELDRUF_WORDS_A_PIXEL * N, residue, N, index, N);
        printf("map %u at gap %u\n", (unsigned)teldruf_cause(mapped), (unsigned)gap);
        bytes("residue", residue, N);
        indices(index, N);
    }

    uint64_t written = teldruf_write_pgm(output, N, width, height, maximum, buffer, sizeof buffer);
    printf("written %u\n", (unsigned)written);
    bytes("file", buffer, (size_t)written);

    refused(teldruf_build(picture, N, width, height, TELDRUF_AREA, 5, workspace, TELDRUF_WORDS_A_PIXEL * N));
    /* The first cause in the header's order decides: no steps, a gap that is too large, a workspace that is too short. */
    for (int right = 0; right < 3; right++)
        refused(teldruf_map(picture, N, width, height, TELDRUF_AREA, TELDRUF_EDGES, steps, right > 0 ? 4 : 0,
                            right > 1 ? TELDRUF_MOST_GAP : TELDRUF_MOST_GAP + 1, workspace, N, residue, N, index, N));
    in_a_burst();
    both_sides();
    by_triples();
    return 0;
}
