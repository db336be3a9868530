/*
 * Flooding with level queues: each pixel is queued in the run of its level or takes the place of the one before it there, and each node is
 * closed once.
 */
#include "bench.h"

typedef struct {
    const uint8_t *greys;
    uint32_t n, width, neighbours;
    uint32_t *numbers, *closing, *order, *nodes;
    uint32_t heads[256], tails[256], opened[256]; /* the numbers of the open nodes, n where none is open */
    uint64_t open[4];                             /* the open levels, a bit each */
    uint32_t taken, closed;
} flood_t;

/* Level l owns the run of part 3 from the number of darker pixels on. */
static void level_runs(flood_t *f) {
    uint32_t counts[256] = {0};
    for (uint32_t p = 0; p < f->n; p++)
        counts[f->greys[p]]++;
    uint32_t darker = 0;
    for (int l = 0; l < 256; l++) {
        f->heads[l] = f->tails[l] = darker;
        f->opened[l] = f->n;
        darker += counts[l];
    }
}

/* The next number, for a level at which no node is open. */
static inline uint32_t next_number(flood_t *f, int l) {
    f->open[l / 64] |= (uint64_t)1 << l % 64;
    return f->opened[l] = f->taken++;
}

/* Puts q, of number k, at the end of the run of its level. */
static inline void push(flood_t *f, uint32_t q, int l, uint32_t k) {
    f->numbers[q] = k;
    f->order[f->tails[l]++] = q;
}

/* Whether q is met; of n, where no pixel is, the answer does not matter. */
static inline int met(const flood_t *f, uint32_t q) { return f->numbers[q] < f->n; }

/*
 * Queues a neighbour that was not met. The answer is the level at which the flood goes on. A node is open at that level, and none at a
 * brighter one.
 */
static inline int visit(flood_t *f, uint32_t q, int level) {
    if (met(f, q))
        return level;
    int l = f->greys[q];
    if (l == level) {
        push(f, q, l, f->opened[l]);
        return level;
    }
    if (l > level) {
        push(f, q, l, next_number(f, l));
        return l;
    }
    push(f, q, l, f->opened[l] == f->n ? next_number(f, l) : f->opened[l]);
    return level;
}

/* The pixels beside the base. Whether a row starts there is asked only where they are not met. */
static inline int visit_left(flood_t *f, uint32_t base, int level) {
    return base == 0 || met(f, base - 1) || base % f->width == 0 ? level : visit(f, base - 1, level);
}

static inline int visit_right(flood_t *f, uint32_t base, int level) {
    return met(f, base + 1) || (base + 1) % f->width == 0 ? level : visit(f, base + 1, level);
}

/* The neighbours that share only a corner with p, above and below, until one moves the flood. */
static inline uint32_t visit_corners(flood_t *f, uint32_t p, int level) {
    if (p >= f->width) {
        uint32_t base = p - f->width;
        if (visit_left(f, base, level) != level)
            return base - 1;
        if (visit_right(f, base, level) != level)
            return base + 1;
    }
    if (f->n - p > f->width) {
        uint32_t base = p + f->width;
        if (visit_left(f, base, level) != level)
            return base - 1;
        if (visit_right(f, base, level) != level)
            return base + 1;
    }
    return p;
}

/* The neighbour on the right, the last one: one of the same level that was not met takes the place of p, which is done. */
static inline uint32_t visit_last(flood_t *f, uint32_t p, int level) {
    uint32_t q = p + 1;
    if (met(f, q) || q % f->width == 0)
        return p;
    if (f->greys[q] == level) {
        f->numbers[q] = f->opened[level];
        f->order[f->heads[level]] = q;
        return q;
    }
    return visit(f, q, level) != level ? q : p;
}

/*
 * The neighbours of p, the pixel at the head of the level, until one moves the flood, up or along the row. The answer is the pixel at which
 * the flood goes on, p where it stays.
 */
static inline uint32_t visit_around(flood_t *f, uint32_t p, int level) {
    if (p >= f->width && visit(f, p - f->width, level) != level)
        return p - f->width;
    if (visit_left(f, p, level) != level)
        return p - 1;
    if (f->n - p > f->width && visit(f, p + f->width, level) != level)
        return p + f->width;
    if (f->neighbours == 8) {
        uint32_t corner = visit_corners(f, p, level);
        if (corner != p)
            return corner;
    }
    return visit_last(f, p, level);
}

/* The brightest open level below, 256 if there is none. */
static inline int open_below(const flood_t *f, int level) {
    int i = level / 64;
    uint64_t word = f->open[i] % ((uint64_t)1 << level % 64);
    while (word == 0 && i > 0)
        word = f->open[--i];
    return word == 0 ? 256 : 64 * i + 63 - __builtin_clzll(word);
}

/*
 * Closes the node of the level: its parent is the open node of the next darker open level, which is the answer; 256 at the end. The order of
 * closing gets its number and how far its level lies above its parent's.
 */
static int close_node(flood_t *f, int level) {
    int below = open_below(f, level);
    uint32_t k = f->opened[level];
    f->opened[level] = f->n;
    f->open[level / 64] -= (uint64_t)1 << level % 64;
    f->closing[f->closed++] = k << 8 | (below == 256 ? 0 : level - below);
    f->nodes[3 * k + 1] = below == 256 ? k : f->opened[below];
    return below;
}

uint32_t flood(const picture_t *picture, uint32_t *ws) {
    size_t n = (size_t)picture->width * picture->height;
    flood_t f = {.greys = picture->greys, .n = n, .width = picture->width, .neighbours = picture->neighbours};
    f.numbers = ws;
    f.closing = ws + n;
    f.order = ws + 2 * n;
    f.nodes = ws + 3 * n;
    level_runs(&f);
    for (uint32_t p = 0; p < n; p++)
        f.numbers[p] = n;
    uint32_t p = 0;
    int level = f.greys[0];
    push(&f, 0, level, next_number(&f, level));
    while (level != 256) {
        uint32_t next = visit_around(&f, p, level);
        if (next != p) {
            p = next;
            level = f.greys[p];
        } else {
            if (++f.heads[level] == f.tails[level])
                level = close_node(&f, level);
            if (level != 256)
                p = f.order[f.heads[level]];
        }
    }
    return f.taken;
}
