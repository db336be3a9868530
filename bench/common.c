/* What the programs of the benchmark share: the steps, the memory, the clock. */
#include "bench.h"
#include "teldruf.h"

#include <stdlib.h>
#include <string.h>
#include <time.h>

uint32_t steps[STEPS], triples[3 * STEPS];
const char *const kinds[KINDS] = {"floc", "noise", "smooth", "ramp", "flat", "checkerboard"};
const char *const parts[PARTS] = {"build", "opening", "map", "gap 4", "gap 256", "reversed", "dark", "combined", "triples"};
const uint32_t gaps[PARTS] = {[MAP_4] = 4, [MAP_256] = 256};
const int beside[PARTS] = {[MAP_4] = MAP, [MAP_256] = MAP, [DARK] = REVERSED, [COMBINED] = MAP, [TRIPLES] = MAP};

/*
 * The sides of a triple are those of the largest square of at most twice its area, so that each part decides for some nodes: one that fills
 * less than half of the square around it falls by its area, a fuller one by its shorter side.
 */
void steps_make(void) {
    for (uint32_t i = 0, side = 1; i < STEPS; i++) {
        steps[i] = 1 + i + i * i / 16;
        while ((side + 1) * (side + 1) <= 2 * steps[i])
            side++;
        triples[3 * i] = steps[i];
        triples[3 * i + 1] = triples[3 * i + 2] = side;
    }
}

static void *touched(size_t bytes) {
    void *memory = malloc(bytes);
    if (memory == NULL)
        exit(2);
    return memset(memory, 0xa5, bytes);
}

result_t lend(void) {
    void *words = touched(TELDRUF_WORDS_A_PIXEL * PIXELS * sizeof(uint32_t));
    return (result_t){words, touched(PIXELS), touched(PIXELS), touched(PIXELS * sizeof(uint16_t)), touched(PIXELS * sizeof(int16_t)), 0};
}

double milliseconds(void) {
    struct timespec t;
    clock_gettime(CLOCK_THREAD_CPUTIME_ID, &t);
    return t.tv_sec * 1e3 + t.tv_nsec / 1e6;
}
