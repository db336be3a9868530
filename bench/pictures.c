/* Pictures for the benchmark. */
#include "bench.h"

#include <stdlib.h>
#include <string.h>

static uint64_t state;

static uint32_t draw(uint32_t below) {
    uint64_t z = state += 0x9e3779b97f4a7c15u;
    z = (z ^ (z >> 30)) * 0xbf58476d1ce4e5b9u;
    z = (z ^ (z >> 27)) * 0x94d049bb133111ebu;
    z ^= z >> 31;
    return (uint32_t)(((z >> 32) * below) >> 32);
}

static void disc(const picture_t *picture, int radius, int bright) {
    int width = picture->width, height = picture->height;
    int row = draw(height), column = draw(width), reach = radius * radius;
    for (int y = row - radius; y <= row + radius; y++)
        for (int x = column - radius; x <= column + radius; x++) {
            int far = (y - row) * (y - row) + (x - column) * (x - column);
            if (y < 0 || x < 0 || y >= height || x >= width || far > reach)
                continue;
            int grey = bright - bright * far / (3 * reach + 3) + (int)draw(8);
            uint8_t *at = &picture->greys[(size_t)y * width + x];
            if (grey > *at)
                *at = grey > 255 ? 255 : grey;
        }
}

/* Bright discs of many sizes, fading to their rims, on a dark, slightly uneven ground with noise. */
static void floc(const picture_t *picture) {
    uint32_t n = picture->width * picture->height;
    for (uint32_t p = 0; p < n; p++)
        picture->greys[p] = 24 + p / picture->width / 64 % 16 + p % picture->width / 96 + draw(8);
    for (uint32_t k = 0; k < n / 600; k++) {
        uint32_t kind = draw(100);
        int radius = kind < 2 ? 12 + draw(20) : kind < 20 ? 4 + draw(9) : 1 + draw(4);
        disc(picture, radius, 70 + draw(170));
    }
}

/* Random greys at the corners of squares of 32 pixels a side, and between them weighted means. */
static void smooth(const picture_t *picture) {
    enum { SQUARE = 32 };
    uint32_t width = picture->width, height = picture->height, across = width / SQUARE + 2;
    uint32_t *corners = malloc((size_t)across * (height / SQUARE + 2) * sizeof *corners);
    if (corners == NULL)
        exit(2);
    for (uint32_t k = 0; k < across * (height / SQUARE + 2); k++)
        corners[k] = draw(256);
    for (uint32_t p = 0; p < width * height; p++) {
        uint32_t row = p / width, column = p % width, y = row % SQUARE, x = column % SQUARE;
        const uint32_t *c = corners + row / SQUARE * across + column / SQUARE;
        uint32_t top = c[0] * (SQUARE - x) + c[1] * x, bottom = c[across] * (SQUARE - x) + c[across + 1] * x;
        picture->greys[p] = (top * (SQUARE - y) + bottom * y) / (SQUARE * SQUARE);
    }
    free(corners);
}

static uint8_t at(const char *name, uint32_t row, uint32_t column) {
    if (!strcmp(name, "noise"))
        return draw(256);
    if (!strcmp(name, "ramp"))
        return (row + column) / 8;
    if (!strcmp(name, "checkerboard"))
        return (row + column) % 2 ? 200 : 20;
    return 90;
}

int picture_make(picture_t *picture, const char *name, uint32_t width, uint32_t height) {
    *picture = (picture_t){.name = name, .width = width, .height = height, .greys = malloc((size_t)width * height)};
    if (picture->greys == NULL)
        return 0;
    state = 2011;
    if (!strcmp(name, "floc")) {
        floc(picture);
        return 1;
    }
    if (!strcmp(name, "smooth")) {
        smooth(picture);
        return 1;
    }
    for (uint32_t row = 0; row < height; row++)
        for (uint32_t column = 0; column < width; column++)
            picture->greys[(size_t)row * width + column] = at(name, row, column);
    return 1;
}

int picture_reverse(picture_t *reversed, const picture_t *picture) {
    size_t n = (size_t)picture->width * picture->height;
    *reversed = *picture;
    reversed->greys = malloc(n);
    if (reversed->greys == NULL)
        return 0;
    for (size_t p = 0; p < n; p++)
        reversed->greys[p] = 255 - picture->greys[p];
    return 1;
}
