/* What the parts of the benchmark share. The workspace is the library's: 7n words, parents, attributes, the list of the
   representatives, and scratch. */
#ifndef BENCH_H
#define BENCH_H

#include <stddef.h>
#include <stdint.h>

enum { AREA = 1, HEIGHT = 2, WIDTH = 3, FRAME = 1048577 };
enum { BUILD, OPENING, MAP, MAP_4, MAP_256, REVERSED, DARK, COMBINED, TRIPLES, PARTS };
enum { STEPS = 256, THRESHOLD = 40, SIDE = 1024, PIXELS = SIDE * SIDE, KINDS = 6 };

/*
 * What every call is given, once steps_make is called, the kinds of pictures, and the calls: their names, the gaps of the maps, and with
 * which call of the same library one is compared, 0 for none. REVERSED is the map of the reversed picture, which it must be given. Triples
 * are three words to a step: area, height, width; the areas are the steps.
 */
extern uint32_t steps[STEPS], triples[3 * STEPS];
extern const char *const kinds[KINDS];
extern const char *const parts[PARTS];
extern const uint32_t gaps[PARTS];
extern const int beside[PARTS];

void steps_make(void);

typedef struct {
    const char *name;
    uint32_t width, height;
    uint8_t *greys;
    uint32_t neighbours; /* 4 or 8 */
} picture_t;

/* What a call leaves, and its answer. */
typedef struct {
    uint32_t *ws;
    uint8_t *output, *residue;
    uint16_t *index;
    int16_t *contrast;
    uint64_t answer;
} result_t;

/* Memory for what a call leaves, touched. */
result_t lend(void);

/* The processor time so far. */
double milliseconds(void);

/* A call of the library, and of an earlier one where the benchmark is built with it. */
typedef uint64_t call_fn(int part, const picture_t *picture, uint32_t attribute, result_t *result);

call_fn library_call, before_call;

/* Pictures of many kinds; the same for the same name and size. Their neighbours are left to be named. */
int picture_make(picture_t *picture, const char *name, uint32_t width, uint32_t height);

/* 255 less each grey, with the same neighbours. */
int picture_reverse(picture_t *reversed, const picture_t *picture);

/* Two ways to the record in parts 1 and 2, with the list of the representatives in part 3. They answer the number of nodes. */
typedef uint32_t record_fn(const picture_t *picture, uint32_t attribute, uint32_t *ws);

uint32_t flood_record(const picture_t *picture, uint32_t attribute, uint32_t *ws);
uint32_t join_record(const picture_t *picture, uint32_t attribute, uint32_t *ws);

/*
 * Floods the picture: part 1 holds the number of each pixel's node, part 2 in the order of closing each number x 256 + how far its level lies
 * above its parent's, and of the three words of a node at 3n + 3 x number the second its parent's number. Answers the number of nodes.
 */
uint32_t flood(const picture_t *picture, uint32_t *ws);

/* Building and opening, the same for both. */
uint32_t c_build(record_fn *record, const picture_t *picture, uint32_t attribute, uint32_t *ws);
void c_open(record_fn *record, const picture_t *picture, uint32_t attribute, uint32_t threshold, uint32_t *ws, uint8_t *output);
void clear(const picture_t *picture, uint32_t nodes, uint32_t *ws);

/*
 * The maps: after the flood by the numbers of the nodes, after union-find by the list of the representatives. The residue map is written
 * when the picture is no longer read, so that the reversed picture can stand in it.
 */
typedef void map_fn(const picture_t *picture, uint32_t attribute, const uint32_t *steps, size_t count, uint32_t gap, result_t *result);

map_fn flood_map, flood_combined, join_map, join_combined;

/* The map by so many triples, which leaves areas in the record. */
typedef void triples_fn(const picture_t *picture, const uint32_t *triples, size_t count, uint32_t gap, result_t *result);

triples_fn flood_triples, join_triples;

/* One part of each triple, as steps, of which there are at most STEPS. */
void part_steps(const uint32_t *triples, size_t count, uint32_t attribute, uint32_t steps[STEPS]);

/* The reversed picture, in the residue map. */
picture_t reversed_in(const picture_t *picture, result_t *result);

/* How many of the steps stand before the first one above each attribute below 256. */
void small_places(const uint32_t *steps, size_t count, uint32_t small[256]);
uint32_t outlasted(const uint32_t *steps, uint32_t count, uint32_t attribute);

/* An accumulator is a count, or the last row (column) above the first, which is stored as 4,095 less it: here of one pixel in a row (column). */
static inline uint32_t lone(uint32_t attribute, uint32_t side) { return attribute == AREA ? 1 : side << 12 | (4095 - side); }

/* The same of what is seen of a pixel. */
static inline uint32_t single(uint32_t attribute, uint32_t width, uint32_t p) {
    return lone(attribute, attribute == HEIGHT ? p / width : p % width);
}

/* The accumulator of what is seen of two sets. */
static inline uint32_t add(uint32_t attribute, uint32_t a, uint32_t b) {
    if (attribute == AREA)
        return a + b;
    uint32_t last = a >> 12 > b >> 12 ? a >> 12 : b >> 12;
    uint32_t first = (a & 4095) > (b & 4095) ? a & 4095 : b & 4095;
    return last << 12 | first;
}

/* The accumulator of a set with a pixel on the frame. */
static inline uint32_t mark(uint32_t attribute, uint32_t a) { return attribute == AREA ? FRAME : 4096 << 12 | (a & 4095); }

/* The accumulator of two sets, on the frame or not. */
static inline uint32_t combine(uint32_t attribute, uint32_t a, uint32_t b) {
    uint32_t both = add(attribute, a, b);
    return attribute == AREA && both > FRAME ? FRAME : both;
}

static inline uint32_t measure(uint32_t attribute, uint32_t word) {
    if (attribute == AREA)
        return word;
    return word >> 12 < 4096 ? (word >> 12) - (4095 - (word & 4095)) + 1 : FRAME;
}

/* a where the test is 1, b where it is 0, without a branch */
static inline uint32_t choose(uint32_t test, uint32_t a, uint32_t b) { return b ^ ((a ^ b) & -test); }

/*
 * What the node k holds, from what its parent holds, in two words. Its run is place x 65536 + own: the place at which it falls, 512 where it
 * falls at none of the `count` steps, and own is end x 256 + total, where end is the place of the run's last residue. Its pair is the own of
 * the run of largest total, 0 for none. It joins its parent's run if the parent falls at most the gap later. The last two conditionals must
 * not be branches: written so, they are conditional moves.
 */
static inline void settle(uint32_t count, uint32_t gap, uint32_t place, uint32_t fall, uint32_t k, uint32_t up, uint32_t *runs,
                          uint32_t *pairs) {
    if (place == count) {
        runs[k] = 512 << 16;
        pairs[k] = 0;
        return;
    }
    uint32_t above = runs[up], pair = pairs[up];
    uint32_t own = (above >> 16 <= place + gap ? above & 65535 : place << 8) + fall;
    runs[k] = place << 16 | own;
    pairs[k] = (pair & 255) < (own & 255) ? own : pair;
}

static inline void put_maps(uint32_t pair, uint8_t *residue, uint16_t *index) {
    *residue = pair & 255;
    *index = (pair + 255) >> 8;
}

/* Whether the light pair has the larger total. */
static inline uint32_t light_wins(uint32_t light, uint32_t dark) { return (dark & 255) < (light & 255); }

/* The total of the light pair if it won, else of the dark one, below 0. */
static inline int16_t contrast_of(uint32_t won, uint32_t light, uint32_t dark) { return choose(won, light & 255, -(dark & 255)); }

#endif
