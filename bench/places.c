/*
 * Two libraries, each at four places of the program, called in turn on pictures of 1,048,576 pixels by area. Prints for each call the ratio
 * of their times, each the mean over its places of the median of the rounds, and the least and the largest ratio of two places; and the
 * same against another call, both of the later library: of a map with a gap against the map at gap 0, of the dark map against the map of the
 * reversed picture, of the combined map and of the map by triples against the map.
 *
 *   places [ROUNDS] [4|8]
 */
#include "bench.h"

#include <stdio.h>
#include <stdlib.h>

enum { PLACES = 4, MOST_ROUNDS = 1001 };
enum { BEFORE, LIBRARY };

call_fn before_0, before_16, before_32, before_48, library_0, library_16, library_32, library_48;

static call_fn *const calls[2][PLACES] = {{before_0, before_16, before_32, before_48}, {library_0, library_16, library_32, library_48}};

/* What is measured, and what it is compared with. */
typedef struct {
    int library, part;
} side_t;

static double times[2][PLACES][MOST_ROUNDS];

static int rising(const void *a, const void *b) {
    double x = *(const double *)a, y = *(const double *)b;
    return (x > y) - (x < y);
}

static void print_ratios(const char *kind, int part, int rounds, const char *other) {
    double mean[2] = {0, 0}, least[2], largest[2];
    for (int side = 0; side < 2; side++)
        for (int place = 0; place < PLACES; place++) {
            double *t = times[side][place];
            qsort(t, rounds, sizeof *t, rising);
            double median = t[rounds / 2];
            mean[side] += median / PLACES;
            least[side] = place == 0 || median < least[side] ? median : least[side];
            largest[side] = place == 0 || median > largest[side] ? median : largest[side];
        }
    printf("%-13s %-8s %6.2f ms %6.2f %-8s   %.3f (%.3f to %.3f)\n", kind, parts[part], mean[1], mean[0], other, mean[1] / mean[0],
           least[1] / largest[0], largest[1] / least[0]);
}

/* The second side against the first. The pictures are the picture itself and the reversed one. */
static void compare(const picture_t pictures[2], const side_t sides[2], int rounds, const char *other, result_t *result) {
    for (int round = 0; round < rounds; round++)
        for (int k = 0; k < 2 * PLACES; k++) {
            int which = (k + round) % (2 * PLACES), place = which / 2;
            side_t side = sides[which % 2];
            double start = milliseconds();
            uint64_t answer = calls[side.library][place](side.part, &pictures[side.part == REVERSED], AREA, result);
            times[which % 2][place][round] = milliseconds() - start;
            if (answer >> 32 != 0) {
                fprintf(stderr, "places: a call was refused\n");
                exit(2);
            }
        }
    print_ratios(pictures[0].name, sides[1].part, rounds, other);
}

int main(int count, char **words) {
    int rounds = count > 1 ? atoi(words[1]) : 61;
    uint32_t neighbours = count > 2 ? (uint32_t)atoi(words[2]) : 4;
    if (rounds < 1 || rounds > MOST_ROUNDS || (neighbours != 4 && neighbours != 8)) {
        fprintf(stderr, "places: 1 to %d rounds, 4 or 8 neighbours\n", MOST_ROUNDS);
        return 2;
    }
    steps_make();
    result_t result = lend();
    for (int kind = 0; kind < KINDS; kind++) {
        picture_t pictures[2];
        if (!picture_make(&pictures[0], kinds[kind], SIDE, SIDE))
            return 2;
        pictures[0].neighbours = neighbours;
        if (!picture_reverse(&pictures[1], &pictures[0]))
            return 2;
        for (int part = 0; part < PARTS; part++) {
            if (part < BEFORE_PARTS)
                compare(pictures, (side_t[]){{BEFORE, part}, {LIBRARY, part}}, rounds, "before", &result);
            if (beside[part] != 0)
                compare(pictures, (side_t[]){{LIBRARY, beside[part]}, {LIBRARY, part}}, rounds, parts[beside[part]], &result);
        }
        free(pictures[0].greys);
        free(pictures[1].greys);
    }
    return 0;
}
