/*
 * Maps a picture of any size within the bounds: the residue map and the index map of a PGM file, as PGM files.
 *
 *   host [--dark | --combined CONTRAST] [--picture N] PICTURE RESIDUE INDEX area|height|width|triple [neighbours=4|8] [gap=GAP] STEP..
 *
 * The file PICTURE may hold several pictures end to end: the Nth is mapped, from 1, the first where none is named, if all are without fault.
 * A step is a number, such as 8; where `triple` stands for the attribute it is an area, a height and a width together, such as 8,3,0.
 * The maps are of light floc, with --dark of dark floc, with --combined of both. The residue map has a byte a sample, the index map
 * two, the high one first, and the maximum 256, so that every index is kept. The contrast is a picture for people, a PPM file: light
 * floc in orange, dark floc in blue, the brighter the larger its residue, up to 128, and black where there is none. The exit status is 0
 * if all files are written, 1 if the library refuses or a file cannot be read or written, 2 if the words are wrong.
 */
#include "teldruf.h"

#include <errno.h>
#include <stdarg.h>
#include <stdio.h>
#include <stdlib.h>
#include <string.h>

enum { REFUSED = 1, WRONG_USE = 2 };

/* The room that is made at first for a file: enough for the largest picture and some comments in its header. */
enum { FIRST_ROOM = 2 * TELDRUF_MOST_PIXELS };

enum { MOST_INDEX = TELDRUF_MOST_STEPS };

/* Stands for an attribute where steps are triples. */
enum { TRIPLE = 0 };

typedef struct {
    uint32_t width, height;
    size_t n;
    const uint8_t *greys;
} picture_t;

/* What the words ask for. */
typedef struct {
    int dark;
    const char *contrast; /* a file if light and dark are combined, else null */
    const char *picture, *residue, *index;
    uint64_t number; /* of the picture in its file */
    uint32_t attribute, neighbours, gap, *steps;
    size_t steps_len; /* in words, of which a triple has three */
} task_t;

/* What a map call is lent to write. */
typedef struct {
    size_t n, workspace_len;
    uint32_t *workspace;
    uint8_t *residue;
    uint16_t *index;
    int16_t *contrast;
} lent_t;

/* Ends the program with a sentence. */
static _Noreturn void fail(int status, const char *form, ...) {
    va_list words;
    va_start(words, form);
    fputs("host: ", stderr);
    vfprintf(stderr, form, words);
    fputc('\n', stderr);
    va_end(words);
    exit(status);
}

/* The value of an accepted call on what is named. */
static uint32_t accepted(uint64_t answer, const char *name) {
    uint32_t cause = teldruf_cause(answer);
    if (cause != 0)
        fail(REFUSED, "%s: refused %u: %s", name, (unsigned)cause, teldruf_cause_text(cause));
    return (uint32_t)answer;
}

static void *lend(size_t entries, size_t size) {
    void *memory = calloc(entries, size);
    if (memory == NULL)
        fail(REFUSED, "not enough memory");
    return memory;
}

/*
 * The whole file, however long: pictures end to end have no greatest length, and that of a pipe is not known before its end. A file that
 * does not start with P5 is refused whatever follows, so it is not read on: it may have no end.
 */
static uint8_t *read_file(const char *name, size_t *length) {
    size_t room = FIRST_ROOM;
    uint8_t *bytes = lend(room, 1);
    FILE *file = fopen(name, "rb");
    if (file == NULL)
        fail(REFUSED, "%s: cannot be read: %s", name, strerror(errno));
    *length = fread(bytes, 1, room, file);
    while (*length == room && memcmp(bytes, "P5", 2) == 0) {
        if (room > SIZE_MAX / 2 || (bytes = realloc(bytes, 2 * room)) == NULL)
            fail(REFUSED, "%s: too long for the memory that there is", name);
        room *= 2;
        *length += fread(bytes + *length, 1, room - *length, file);
    }
    if (ferror(file))
        fail(REFUSED, "%s: cannot be read: %s", name, strerror(errno));
    fclose(file);
    return bytes;
}

/* A disk that is full may show only as the file is closed. */
static void write_file(const char *name, const uint8_t *bytes, size_t length) {
    FILE *file = fopen(name, "wb");
    if (file == NULL)
        fail(REFUSED, "%s: cannot be written: %s", name, strerror(errno));
    if (fwrite(bytes, 1, length, file) != length || fclose(file) != 0)
        fail(REFUSED, "%s: cannot be written whole: %s", name, strerror(errno));
}

static picture_t read_picture(const char *name, uint64_t number) {
    size_t length;
    uint8_t *file = read_file(name, &length);
    uint64_t head[4];
    accepted(teldruf_read_pgm(file, length, number, head), name);
    return (picture_t){(uint32_t)head[0], (uint32_t)head[1], (size_t)(head[0] * head[1]), file + head[3]};
}

static void write_residue(const char *name, const picture_t *picture, const uint8_t *residue) {
    size_t room = picture->n + 17;
    uint8_t *file = lend(room, 1);
    uint64_t answer = teldruf_write_pgm(residue, picture->n, picture->width, picture->height, 255, file, room);
    write_file(name, file, accepted(answer, name));
    free(file);
}

/* The library writes a byte a sample, so this file is made here. */
static void write_index(const char *name, const picture_t *picture, const uint16_t *index) {
    uint8_t *file = lend(64 + 2 * picture->n, 1);
    size_t length =
        (size_t)sprintf((char *)file, "P5\n%u %u\n%d\n", (unsigned)picture->width, (unsigned)picture->height, MOST_INDEX);
    for (size_t p = 0; p < picture->n; p++) {
        file[length++] = (uint8_t)(index[p] >> 8);
        file[length++] = (uint8_t)(index[p] & 255);
    }
    write_file(name, file, length);
    free(file);
}

/* A residue as a brightness: residues are mostly small, so it doubles them. */
static int brightness(int residue) { return residue < 128 ? 2 * residue : 255; }

/* For each pixel red, green and blue. */
static void write_contrast(const char *name, const picture_t *picture, const int16_t *contrast) {
    uint8_t *file = lend(64 + 3 * picture->n, 1);
    size_t length = (size_t)sprintf((char *)file, "P6\n%u %u\n255\n", (unsigned)picture->width, (unsigned)picture->height);
    for (size_t p = 0; p < picture->n; p++) {
        int light = brightness(contrast[p] > 0 ? contrast[p] : 0), dark = brightness(contrast[p] < 0 ? -contrast[p] : 0);
        file[length++] = (uint8_t)light;
        file[length++] = (uint8_t)((light + dark) / 2);
        file[length++] = (uint8_t)dark;
    }
    write_file(name, file, length);
    free(file);
}

static uint32_t attribute_named(const char *word) {
    const char *const words[] = {
        [TRIPLE] = "triple", [TELDRUF_AREA] = "area", [TELDRUF_HEIGHT] = "height", [TELDRUF_WIDTH] = "width"};
    for (uint32_t a = 0; a < 4; a++)
        if (strcmp(word, words[a]) == 0)
            return a;
    fail(WRONG_USE, "'%s' is no attribute: area, height, width or triple", word);
}

/* A number is 1 to so many digits and nothing else up to its end, and not above the largest. */
static int is_number_to(const char *word, char end, size_t most_digits, uint64_t most, uint64_t *number) {
    size_t digits = strspn(word, "0123456789");
    if (digits < 1 || digits > most_digits || word[digits] != end)
        return 0;
    *number = 0;
    for (size_t i = 0; i < digits; i++) {
        uint64_t digit = (uint64_t)(word[i] - '0');
        if (*number > (most - digit) / 10)
            return 0;
        *number = 10 * *number + digit;
    }
    return 1;
}

/* A number of 32 bits; whether it is a step, 4 or 8 or a gap the library judges. */
static int is_number(const char *word, char end, uint32_t *number) {
    uint64_t value;
    if (!is_number_to(word, end, 10, UINT32_MAX, &value))
        return 0;
    *number = (uint32_t)value;
    return 1;
}

/* A triple is three numbers with a comma after the first and the second. */
static int is_triple(const char *word, uint32_t parts[TELDRUF_WORDS_A_TRIPLE]) {
    for (int part = 0; part < TELDRUF_WORDS_A_TRIPLE; part++) {
        if (!is_number(word, part + 1 < TELDRUF_WORDS_A_TRIPLE ? ',' : '\0', &parts[part]))
            return 0;
        word += strcspn(word, ",") + 1;
    }
    return 1;
}

static void read_step(const char *word, uint32_t attribute, uint32_t *step) {
    if (attribute == TRIPLE && !is_triple(word, step))
        fail(WRONG_USE, "'%s' is no step: triples are area,height,width, whole numbers from 0 to 1048577, in 1 to 10 digits each and "
                        "nothing else", word);
    if (attribute != TRIPLE && !is_number(word, '\0', step))
        fail(WRONG_USE, "'%s' is no step: steps are whole numbers from 1 to 1048577, in 1 to 10 digits and nothing else", word);
}

static const char naming_neighbours[] = "neighbours=", naming_gap[] = "gap=";

/* Whether there is a word at this place, and it starts so. */
static int starts(int count, char **words, int place, const char *start) {
    return count > place && strncmp(words[place], start, strlen(start)) == 0;
}

/* A picture's number has 64 bits; whether the file has such a picture the library judges. */
static uint64_t picture_named(const char *word) {
    uint64_t number;
    if (!is_number_to(word, '\0', 20, UINT64_MAX, &number))
        fail(WRONG_USE, "'%s' numbers no picture: a picture's number is whole, from 1, in 1 to 20 digits and within 64 bits", word);
    return number;
}

static uint32_t neighbours_named(const char *word) {
    uint32_t neighbours;
    if (!is_number(word + strlen(naming_neighbours), '\0', &neighbours))
        fail(WRONG_USE, "'%s' names no neighbours: neighbours=4 or neighbours=8", word);
    return neighbours;
}

static uint32_t gap_named(const char *word) {
    uint32_t gap;
    if (!is_number(word + strlen(naming_gap), '\0', &gap))
        fail(WRONG_USE, "'%s' names no gap: gap=0 to gap=256", word);
    return gap;
}

static const char *file_named(const char *word) {
    if (strncmp(word, "--", 2) == 0)
        fail(WRONG_USE, "'%s' is no file: one of --dark and --combined may stand first, then --picture, and nothing else starts with --",
             word);
    return word;
}

static task_t read_words(int count, char **words) {
    int dark = count > 1 && strcmp(words[1], "--dark") == 0, combined = count > 1 && strcmp(words[1], "--combined") == 0;
    int sides = 1 + dark + 2 * combined;                                         /* where a picture may be numbered */
    int numbered = count > sides && strcmp(words[sides], "--picture") == 0;
    int files = sides + 2 * numbered;                                            /* where the picture's file is named */
    int second = files + 4 + starts(count, words, files + 4, naming_neighbours); /* where a gap may be named */
    int first = second + starts(count, words, second, naming_gap);               /* where the steps start */
    if (count <= first)
        fail(WRONG_USE, "usage: [--dark | --combined CONTRAST] [--picture N] PICTURE RESIDUE INDEX area|height|width|triple "
                        "[neighbours=4|8] [gap=GAP] STEP..");
    task_t task = {.dark = dark, .contrast = combined ? file_named(words[2]) : NULL};
    task.number = numbered ? picture_named(words[sides + 1]) : 1;
    task.picture = file_named(words[files]);
    task.residue = file_named(words[files + 1]);
    task.index = file_named(words[files + 2]);
    task.attribute = attribute_named(words[files + 3]);
    task.neighbours = second > files + 4 ? neighbours_named(words[files + 4]) : TELDRUF_EDGES;
    task.gap = first > second ? gap_named(words[second]) : 0;
    size_t step_words = task.attribute == TRIPLE ? TELDRUF_WORDS_A_TRIPLE : 1;
    task.steps_len = step_words * (size_t)(count - first);
    task.steps = lend(task.steps_len, sizeof *task.steps);
    for (int i = first; i < count; i++)
        read_step(words[i], task.attribute, task.steps + step_words * (size_t)(i - first));
    return task;
}

static uint64_t map_by_attribute(const task_t *task, const picture_t *picture, const lent_t *lent) {
    size_t n = lent->n;
    if (task->contrast != NULL)
        return teldruf_combined_map(picture->greys, n, picture->width, picture->height, task->attribute, task->neighbours, task->steps,
                                    task->steps_len, task->gap, lent->workspace, lent->workspace_len, lent->residue, n, lent->index, n,
                                    lent->contrast, n);
    return (task->dark ? teldruf_dark_map : teldruf_map)(picture->greys, n, picture->width, picture->height, task->attribute,
                                                         task->neighbours, task->steps, task->steps_len, task->gap, lent->workspace,
                                                         lent->workspace_len, lent->residue, n, lent->index, n);
}

static uint64_t map_by_triples(const task_t *task, const picture_t *picture, const lent_t *lent) {
    size_t n = lent->n;
    if (task->contrast != NULL)
        return teldruf_combined_map_triples(picture->greys, n, picture->width, picture->height, task->neighbours, task->steps,
                                            task->steps_len, task->gap, lent->workspace, lent->workspace_len, lent->residue, n,
                                            lent->index, n, lent->contrast, n);
    return (task->dark ? teldruf_dark_map_triples : teldruf_map_triples)(picture->greys, n, picture->width, picture->height,
                                                                         task->neighbours, task->steps, task->steps_len, task->gap,
                                                                         lent->workspace, lent->workspace_len, lent->residue, n,
                                                                         lent->index, n);
}

int main(int count, char **words) {
    task_t task = read_words(count, words);
    picture_t picture = read_picture(task.picture, task.number);
    size_t n = picture.n;
    lent_t lent = {.n = n, .workspace_len = TELDRUF_WORDS_A_PIXEL * n};
    lent.workspace = lend(lent.workspace_len, sizeof *lent.workspace);
    lent.residue = lend(n, 1);
    lent.index = lend(n, sizeof *lent.index);
    lent.contrast = lend(n, sizeof *lent.contrast);
    accepted((task.attribute == TRIPLE ? map_by_triples : map_by_attribute)(&task, &picture, &lent), task.picture);
    write_residue(task.residue, &picture, lent.residue);
    write_index(task.index, &picture, lent.index);
    if (task.contrast != NULL)
        write_contrast(task.contrast, &picture, lent.contrast);
    return 0;
}
