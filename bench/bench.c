/*
 * The library, the same flooding in C, and a union-find baseline, side by side on pictures of 1,048,576 pixels, and an earlier
 * library beside them where the benchmark is built with one. All must agree but for that one, which may answer otherwise; times are
 * printed, with what is asked of them, and decide nothing. A time is the processor time of one call, the least of several, on memory that
 * was touched before and is not cleared between calls.
 *
 *   bench [area|height|width] [RUNS] [4|8]
 *
 * Without a number of neighbours there is a table for each. A call is compared with another of the library's own too: a map with a gap with
 * the one at gap 0, the dark map with the map of the reversed picture, the combined map with the map, and so the map by triples, which names
 * no attribute.
 */
#include "bench.h"
#include "teldruf.h"

#include <stdio.h>
#include <stdlib.h>
#include <string.h>

/* A camera sends a picture in so many seconds, and so many cameras are to be served. */
enum { CAMERA_SECONDS = 20, CAMERAS = 212 };

/* What a dark map may take of the time of a map, a combined one, and one by triples, of a map by area. */
static const double DARK_AT_MOST = 1.05, COMBINED_AT_MOST = 2.1, TRIPLES_AT_MOST = 1.6;

/* The most neighbours that the earlier library knows, 0 without one, and how many of the calls. */
#ifndef BEFORE
#define BEFORE 0
#define BEFORE_PARTS 0
#endif

enum { LIBRARY, FLOOD, UNION, EARLIER, WAYS };

static const char *const ways[] = {"library", "flooding in C", "union-find in C"};
static const char *const attributes[] = {"area", "height", "width"};

/* How many of the ways run: the earlier library where it knows the neighbours named and the call. */
static int ways_with(uint32_t neighbours, int part) { return neighbours <= BEFORE && part < BEFORE_PARTS ? WAYS : EARLIER; }

/* The calls of a way in C. */
typedef struct {
    record_fn *record;
    map_fn *map, *combined;
    triples_fn *triples;
} calls_t;

static const calls_t flooding = {flood_record, flood_map, flood_combined, flood_triples};
static const calls_t joining = {join_record, join_map, join_combined, join_triples};

static uint64_t c_call(const calls_t *calls, int part, const picture_t *p, uint32_t attribute, result_t *r) {
    if (part == BUILD)
        return c_build(calls->record, p, attribute, r->ws);
    if (part == OPENING) {
        c_open(calls->record, p, attribute, THRESHOLD, r->ws, r->output);
    } else if (part == DARK) {
        picture_t reversed = reversed_in(p, r);
        calls->map(&reversed, attribute, steps, STEPS, gaps[part], r);
    } else if (part == TRIPLES) {
        calls->triples(p, triples, STEPS, gaps[part], r);
    } else {
        (part == COMBINED ? calls->combined : calls->map)(p, attribute, steps, STEPS, gaps[part], r);
    }
    return 0;
}

static uint64_t call(int way, int part, const picture_t *picture, uint32_t attribute, result_t *r) {
    if (way == LIBRARY)
        return library_call(part, picture, attribute, r);
#if BEFORE
    if (way == EARLIER)
        return before_call(part, picture, attribute, r);
#endif
    return c_call(way == FLOOD ? &flooding : &joining, part, picture, attribute, r);
}

static double timed(int way, int part, const picture_t *picture, uint32_t attribute, result_t *r) {
    double start = milliseconds();
    r->answer = call(way, part, picture, attribute, r);
    return milliseconds() - start;
}

/* Whether two ways left the same after a call. */
static int agree(int part, const result_t *a, const result_t *b) {
    if (a->answer != b->answer || memcmp(a->ws, b->ws, TELDRUF_WORDS_A_PIXEL * PIXELS * sizeof *a->ws) != 0)
        return 0;
    if (part == BUILD)
        return 1;
    if (part == OPENING)
        return memcmp(a->output, b->output, PIXELS) == 0;
    if (part == COMBINED && memcmp(a->contrast, b->contrast, PIXELS * sizeof *a->contrast) != 0)
        return 0;
    return memcmp(a->residue, b->residue, PIXELS) == 0 && memcmp(a->index, b->index, PIXELS * sizeof *a->index) == 0;
}

/* Says which ways do not answer a call as the library does. Answers how many, the earlier library not counted. */
static int differing_ways(const char *name, int part, int count, const result_t results[WAYS]) {
    int differing = 0;
    for (int way = 1; way < count; way++) {
        if (agree(part, &results[LIBRARY], &results[way]))
            continue;
        if (way == EARLIER) {
            printf("%s, %s: the earlier library answers otherwise\n", name, parts[part]);
        } else {
            printf("%s, %s: library and %s differ\n", name, parts[part], ways[way]);
            differing++;
        }
    }
    return differing;
}

static void print_rows(const char *name, uint32_t neighbours, double times[PARTS][WAYS]) {
    for (int part = 0; part < PARTS; part++) {
        double *t = times[part];
        printf("%-13s %-8s %9.1f %9.1f %9.1f   %8.2f %8.2f", name, parts[part], t[LIBRARY], t[FLOOD], t[UNION],
               t[LIBRARY] / t[FLOOD], t[LIBRARY] / t[UNION]);
        if (beside[part] != 0)
            printf(" %8.2f", t[LIBRARY] / times[beside[part]][LIBRARY]);
        else
            printf(" %8s", "-");
        if (ways_with(neighbours, part) > EARLIER)
            printf(" %9.1f %9.2f", t[EARLIER], t[LIBRARY] / t[EARLIER]);
        putchar('\n');
    }
}

/* How many pictures and cameras a core has time for, by the library. */
static void print_rate(const char *name, int part, double times[PARTS][WAYS]) {
    double time = times[part][LIBRARY];
    printf("%-13s %s: %.1f pictures a second, %.0f cameras a core\n", name, parts[part], 1e3 / time, CAMERA_SECONDS * 1e3 / time);
}

/* All ways and parts on one picture. Answers in how many calls a way differs. */
static int run_picture(const char *name, uint32_t attribute, uint32_t neighbours, int runs, result_t results[WAYS]) {
    picture_t picture, reversed;
    int differing = 0;
    double times[PARTS][WAYS];
    if (!picture_make(&picture, name, SIDE, SIDE))
        exit(2);
    picture.neighbours = neighbours;
    if (!picture_reverse(&reversed, &picture))
        exit(2);
    for (int run = 0; run < runs; run++)
        for (int part = 0; part < PARTS; part++) {
            int count = ways_with(neighbours, part);
            for (int k = 0; k < count; k++) {
                int way = (run + k) % count;
                double time = timed(way, part, part == REVERSED ? &reversed : &picture, attribute, &results[way]);
                if (run == 0 || time < times[part][way])
                    times[part][way] = time;
            }
            if (run == runs - 1)
                differing += differing_ways(name, part, count, results);
        }
    free(picture.greys);
    free(reversed.greys);
    print_rows(name, neighbours, times);
    if (differing == 0) {
        print_rate(name, MAP, times);
        print_rate(name, COMBINED, times);
    }
    return differing;
}

/* All pictures with one number of neighbours. Answers on how many the ways differ. */
static int run_table(uint32_t attribute, uint32_t neighbours, int runs, result_t results[WAYS]) {
    int differing = 0;
    printf("%d pixels, %u neighbours, %s, opening at %d, map with %d steps and at a gap; ms, least of %d\n", PIXELS, (unsigned)neighbours,
           attributes[attribute - 1], THRESHOLD, STEPS, runs);
    printf("asked for: dark at most %.2f of reversed, combined %.1f of map, triples %.1f of map by area, %d cameras a core with combined "
           "maps\n",
           DARK_AT_MOST, COMBINED_AT_MOST, TRIPLES_AT_MOST, CAMERAS);
    printf("%-13s %-8s %9s %9s %9s   %8s %8s %8s", "picture", "call", "library", "flooding", "union", "to flood", "to union", "to own");
    puts(ways_with(neighbours, BUILD) > EARLIER ? "   earlier  to that" : "");
    for (int k = 0; k < KINDS; k++)
        differing += run_picture(kinds[k], attribute, neighbours, runs, results) > 0;
    return differing;
}

int main(int count, char **words) {
    uint32_t attribute = AREA, named = count > 3 && !words[3][1] ? (uint32_t)atoi(words[3]) : 0;
    int runs = count > 2 ? atoi(words[2]) : 7, differing = 0;
    if (count > 3 && named != 4 && named != 8) {
        fprintf(stderr, "bench: '%s' is neither 4 nor 8\n", words[3]);
        return 2;
    }
    for (uint32_t a = 0; count > 1 && a < 3; a++)
        if (!strcmp(words[1], attributes[a]))
            attribute = a + 1;
    result_t results[WAYS];
    steps_make();
    for (int way = 0; way < (BEFORE ? WAYS : EARLIER); way++)
        results[way] = lend();
    for (uint32_t neighbours = 4; neighbours <= 8; neighbours += 4)
        if (named == 0 || named == neighbours)
            differing += run_table(attribute, neighbours, runs < 1 ? 1 : runs, results);
    puts(differing ? "the ways differ" : "all agree");
    return differing != 0;
}
