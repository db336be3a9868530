/*
 * The library's calls as the benchmark makes them. This file is compiled for each library that is measured, against its own header, under
 * the name that LIBRARY_CALL gives.
 */
#include "bench.h"
#include "teldruf.h"

uint64_t LIBRARY_CALL(int part, const picture_t *p, uint32_t attribute, result_t *r) {
    size_t n = (size_t)p->width * p->height, words = TELDRUF_WORDS_A_PIXEL * n;
    if (part == BUILD)
        return teldruf_build(p->greys, n, p->width, p->height, attribute, p->neighbours, r->ws, words);
    if (part == OPENING)
        return teldruf_open(p->greys, n, p->width, p->height, attribute, p->neighbours, THRESHOLD, r->ws, words, r->output, n);
    if (part == DARK)
        return teldruf_dark_map(p->greys, n, p->width, p->height, attribute, p->neighbours, steps, STEPS, gaps[part], r->ws, words,
                                r->residue, n, r->index, n);
    if (part == COMBINED)
        return teldruf_combined_map(p->greys, n, p->width, p->height, attribute, p->neighbours, steps, STEPS, gaps[part], r->ws, words,
                                    r->residue, n, r->index, n, r->contrast, n);
    if (part == TRIPLES)
        return teldruf_map_triples(p->greys, n, p->width, p->height, p->neighbours, triples, 3 * STEPS, gaps[part], r->ws, words,
                                   r->residue, n, r->index, n);
    return teldruf_map(p->greys, n, p->width, p->height, attribute, p->neighbours, steps, STEPS, gaps[part], r->ws, words, r->residue,
                       n, r->index, n);
}
