/*
 * Teldruf sizes floc in grey pictures by ultimate attribute openings.
 *
 * The library allocates nothing and keeps nothing between calls: it works in the memory that a call lends it. A picture is
 * n = width x height bytes, row by row from the top left; a position is row x width + column. Width and height are 1 to 4,096, n is
 * at most 1,048,576. Neighbours share an edge or, where a call names 8 of them and not 4, a corner.
 *
 * Every call answers 64 bits. Below 2^32 the call was accepted, and the answer is its value. Otherwise it was refused, the answer is
 * the cause's number times 2^32, and all lent memory is as it was. The first cause in the order named with a call decides.
 *
 * The caller's duties: pointers are not null and are aligned for their type, also where a length is 0; lengths count entries and
 * stand for memory that is there; what a call writes overlaps nothing else that it is lent; nobody else writes any of it during the call.
 */
#ifndef TELDRUF_H
#define TELDRUF_H

#include <stddef.h>
#include <stdint.h>

#ifdef __cplusplus
extern "C" {
#endif

/* The causes of refusal that these calls have; teldruf_cause_text says each in words. */
enum {
    TELDRUF_SIDES = 1,
    TELDRUF_PICTURE_LENGTH = 2,
    TELDRUF_ATTRIBUTE = 3,
    TELDRUF_STEPS = 4,
    TELDRUF_WORKSPACE = 5,
    TELDRUF_OUTPUT_LENGTH = 6,
    TELDRUF_BUFFER = 7,
    TELDRUF_SIGN = 8,
    TELDRUF_HEADER = 9,
    TELDRUF_MAXIMUM = 10,
    TELDRUF_RASTER_LENGTH = 11,
    TELDRUF_SAMPLE = 12,
    TELDRUF_VIEW = 16,
    TELDRUF_NEIGHBOURS = 17,
    TELDRUF_PICTURE_NUMBER = 18,
    TELDRUF_GAP = 19
};

/*
 * Attributes of a connected set of pixels. A set with a pixel in the first or last row or column may go on beyond the picture: each
 * attribute of it is TELDRUF_MOST_THRESHOLD, the root's too, so that no threshold and no triple removes it.
 */
enum {
    TELDRUF_AREA = 1,   /* pixels */
    TELDRUF_HEIGHT = 2, /* lowest row less highest row, plus 1 */
    TELDRUF_WIDTH = 3   /* the same of columns */
};

/* The neighbours of a pixel, which has fewer at the border of the picture. */
enum {
    TELDRUF_EDGES = 4,  /* the pixels that share an edge with it */
    TELDRUF_CORNERS = 8 /* and those that share a corner */
};

/* The two sides of the contrast, each with its residue map. */
enum {
    TELDRUF_LIGHT = 1, /* floc lighter than the water around it */
    TELDRUF_DARK = 2   /* floc darker than it */
};

enum {
    TELDRUF_MOST_SIDE = 4096,
    TELDRUF_MOST_PIXELS = 1048576,
    TELDRUF_MOST_THRESHOLD = 1048577,
    TELDRUF_MOST_STEPS = 256,
    TELDRUF_MOST_GAP = 256,
    TELDRUF_WORDS_A_PIXEL = 7,
    TELDRUF_WORDS_A_TRIPLE = 3
};

/* The number of the cause in an answer, 0 if the call was accepted. */
static inline uint32_t teldruf_cause(uint64_t answer) {
    return (uint32_t)(answer >> 32);
}

/* A cause in words, by its number. Any other number has words too, so that a message can always be made. */
static inline const char *teldruf_cause_text(uint32_t number) {
    switch (number) {
    case 0:
        return "accepted";
    case TELDRUF_SIDES:
        return "width or height outside 1 to 4,096, or more than 1,048,576 pixels";
    case TELDRUF_PICTURE_LENGTH:
        return "picture bytes not width x height";
    case TELDRUF_ATTRIBUTE:
        return "attribute not 1, 2 or 3 (area, height or width)";
    case TELDRUF_STEPS:
        return "threshold outside 1 to 1,048,577, triple of zeros or with a part above that, or step list empty, over 256, cut short, or "
               "with a step that does not rise (of a triple no part falls and one rises)";
    case TELDRUF_WORKSPACE:
        return "workspace not 7 words a pixel";
    case TELDRUF_OUTPUT_LENGTH:
        return "an output or a map not one entry a pixel";
    case TELDRUF_BUFFER:
        return "the writer's buffer shorter than the file";
    case TELDRUF_SIGN:
        return "no P5 where a picture of the file starts: no binary PGM, or stray bytes after a raster";
    case TELDRUF_HEADER:
        return "the header broken or ended early";
    case TELDRUF_MAXIMUM:
        return "maximum 0 or above 255";
    case TELDRUF_RASTER_LENGTH:
        return "a raster cut short, with fewer bytes than width x height";
    case TELDRUF_SAMPLE:
        return "a sample above the maximum";
    case TELDRUF_VIEW:
        return "row or side outside its range";
    case TELDRUF_NEIGHBOURS:
        return "neighbourhood neither 4 nor 8";
    case TELDRUF_PICTURE_NUMBER:
        return "picture number 0 or above the count of the file's pictures";
    case TELDRUF_GAP:
        return "gap above 256";
    default:
        return "no cause of this library";
    }
}

/*
 * Reads one picture of a binary PGM file, which holds one or more of them end to end. Lent: the file's bytes, any number of them, which
 * are only read; the number of the picture, from 1; and four words of 64 bits for the head. Every picture of the file is judged, whichever
 * is named. Accepted: the answer is 0 and head holds width, height and maximum of the picture named, and where its raster starts in the
 * file, a position that is never cut; the raster is the n bytes from there. Bytes after a raster must be a further picture: a stray byte,
 * such as a newline at the end of the file, is refused by 8, and so is an empty file. Refused, in this order: 8, 9, 10, 1, 11, 12 for each
 * picture, of which the first faulty one decides; then 18.
 */
uint64_t teldruf_read_pgm(const uint8_t *file, size_t file_len, uint64_t number, uint64_t head[4]);

/*
 * Writes a picture as a binary PGM file. Lent: the picture, n bytes, which are only read; and a buffer at least as long as the file:
 * n bytes and at most 17 for the header. Accepted: the answer is the number of bytes written at the start of the buffer; those after
 * them are untouched. Several such files end to end are one file, each picture of which is read back by its number. Refused, in this
 * order: 1, 2, 10, 12, 7.
 */
uint64_t teldruf_write_pgm(const uint8_t *picture, size_t picture_len, uint32_t width, uint32_t height, uint32_t maximum,
                           uint8_t *buffer, size_t buffer_len);

/*
 * Builds the max-tree of a picture; the neighbours named decide what is connected. Lent: the picture, n bytes, which are only read;
 * and the workspace, exactly 7n words, which may hold anything. Accepted: the answer is the number of nodes, and the workspace holds
 * the record: n parents, n attributes, the list of the nodes in n words, 4n zeros. A node is represented by its own pixel of lowest
 * position. A representative's parent is the position of its parent's representative (the root's is its own) and its attribute is the
 * node's; any other pixel's parent is its representative and its attribute is 0. The list has the representatives by rising level,
 * lower position first within a level, as many as the answer says, and zeros after the last: the root comes first, and every parent
 * before its children. Position 0 is always among them, at any place, so a 0 does not end the list; after opening and map calls its
 * length is the number of attributes that are not 0. Refused, in this order: 1, 2, 3, 17, 5.
 */
uint64_t teldruf_build(const uint8_t *picture, size_t picture_len, uint32_t width, uint32_t height, uint32_t attribute,
                       uint32_t neighbours, uint32_t *workspace, size_t workspace_len);

/*
 * Opens a picture at a threshold from 1 to 1,048,577: a node other than the root goes if its attribute is below the threshold; the
 * nodes are those that building finds with the same neighbours. Lent: the picture, n bytes, which are only read; the workspace,
 * exactly 7n words; and the output, exactly n bytes. Both may hold anything. Accepted: the answer is 0, the output holds the opened
 * picture and the workspace the record of the picture given. Refused, in this order: 1, 2, 3, 17, 4, 5, 6.
 */
uint64_t teldruf_open(const uint8_t *picture, size_t picture_len, uint32_t width, uint32_t height, uint32_t attribute,
                      uint32_t neighbours, uint32_t threshold, uint32_t *workspace, size_t workspace_len, uint8_t *output,
                      size_t output_len);

/*
 * Gives the residue map and the index map of a picture for a list of 1 to 256 strictly rising steps, each from 1 to 1,048,577, and
 * a gap from 0 to 256. The residue of a step at a pixel is the fall from the opening before it (for the first, from the picture) to
 * its own, with these neighbours. Two residues that are not 0, with only 0 between them, belong to one run if their places in the
 * list differ by at most the gap, so that contrast that falls at several steps is added up; at gap 0 every residue is a run of its
 * own. Lent: the picture, n bytes, and the steps, both only read; the workspace, exactly 7n words; the residue map, exactly n
 * bytes; and the index map, exactly n entries of 16 bits. The last three may hold anything. Accepted: the answer is 0, the residue
 * map holds at each pixel the largest total of a run, the index map the largest place in the list, from 1, of a residue that is not
 * 0 in a run with that total, or 0 where it is 0, and the workspace the record of the picture. At gap 0 these are the largest
 * residue and the largest place that has it. Refused, in this order: 1, 2, 3, 17, 4, 19, 5, 6.
 */
uint64_t teldruf_map(const uint8_t *picture, size_t picture_len, uint32_t width, uint32_t height, uint32_t attribute,
                     uint32_t neighbours, const uint32_t *steps, size_t steps_len, uint32_t gap, uint32_t *workspace,
                     size_t workspace_len, uint8_t *residue, size_t residue_len, uint16_t *index, size_t index_len);

/*
 * Gives the maps of dark floc on light water: what teldruf_map gives for the reversed picture, 255 less each grey. Lent, answered and
 * refused as there. Accepted, the workspace holds the record of the reversed picture.
 */
uint64_t teldruf_dark_map(const uint8_t *picture, size_t picture_len, uint32_t width, uint32_t height, uint32_t attribute,
                          uint32_t neighbours, const uint32_t *steps, size_t steps_len, uint32_t gap, uint32_t *workspace,
                          size_t workspace_len, uint8_t *residue, size_t residue_len, uint16_t *index, size_t index_len);

/*
 * Gives the maps of light and dark floc together. At each pixel the side of larger residue wins, light as teldruf_map has it or dark
 * as teldruf_dark_map; where the two are equal, dark does. Lent, answered and refused as teldruf_map, with one output more: the
 * contrast, exactly n entries of 16 bits with a sign, which may hold anything. Accepted, the residue map and the index map hold what
 * the side that won has there, the contrast holds the residue where light won and its negative where dark did, so 0 where both are 0,
 * and the workspace the record of the reversed picture.
 */
uint64_t teldruf_combined_map(const uint8_t *picture, size_t picture_len, uint32_t width, uint32_t height, uint32_t attribute,
                              uint32_t neighbours, const uint32_t *steps, size_t steps_len, uint32_t gap, uint32_t *workspace,
                              size_t workspace_len, uint8_t *residue, size_t residue_len, uint16_t *index, size_t index_len,
                              int16_t *contrast, size_t contrast_len);

/*
 * Opens a picture by a triple, three numbers from 0 to 1,048,577 that are not all 0: a node other than the root goes if its area is
 * below the first, its height below the second (rows) or its width below the third (columns), so it stays if it meets all three. A
 * threshold opens as the triple that has it for its attribute and 0 for the two others. Lent and answered as teldruf_open. No attribute
 * is named: accepted, the record's attributes are areas. Refused, in this order: 1, 2, 17, 4, 5, 6.
 */
uint64_t teldruf_open_triple(const uint8_t *picture, size_t picture_len, uint32_t width, uint32_t height, uint32_t neighbours,
                             uint32_t area, uint32_t rows, uint32_t columns, uint32_t *workspace, size_t workspace_len,
                             uint8_t *output, size_t output_len);

/*
 * Gives the residue map and the index map of a picture for a list of 1 to 256 triples: what teldruf_map gives, with the openings by
 * these triples. Lent and answered as there, but for the steps, which are words, three to a step: area, height and width, each from 0 to
 * 1,048,577; steps_len counts words, and a step cut short is refused by 4. From one step to the next no part falls and at least one
 * rises, and the first has a part above 0. Places in the list, for index and gap, are those of steps. A list of thresholds has the maps
 * of its triples with two zeros. No attribute is named: accepted, the record's attributes are areas.
 * Refused, in this order: 1, 2, 17, 4, 19, 5, 6.
 */
uint64_t teldruf_map_triples(const uint8_t *picture, size_t picture_len, uint32_t width, uint32_t height, uint32_t neighbours,
                             const uint32_t *steps, size_t steps_len, uint32_t gap, uint32_t *workspace, size_t workspace_len,
                             uint8_t *residue, size_t residue_len, uint16_t *index, size_t index_len);

/*
 * Gives the maps of dark floc on light water for a list of triples: what teldruf_map_triples gives for the reversed picture. Lent,
 * answered and refused as there. Accepted, the workspace holds the record of the reversed picture.
 */
uint64_t teldruf_dark_map_triples(const uint8_t *picture, size_t picture_len, uint32_t width, uint32_t height, uint32_t neighbours,
                                  const uint32_t *steps, size_t steps_len, uint32_t gap, uint32_t *workspace, size_t workspace_len,
                                  uint8_t *residue, size_t residue_len, uint16_t *index, size_t index_len);

/*
 * Gives the maps of light and dark floc together for a list of triples: of the two calls above, at each pixel, the side that wins, and
 * the contrast, as teldruf_combined_map has them. Lent, answered and refused as teldruf_map_triples, with the contrast as one output more.
 * Accepted, the workspace holds the record of the reversed picture.
 */
uint64_t teldruf_combined_map_triples(const uint8_t *picture, size_t picture_len, uint32_t width, uint32_t height,
                                      uint32_t neighbours, const uint32_t *steps, size_t steps_len, uint32_t gap,
                                      uint32_t *workspace, size_t workspace_len, uint8_t *residue, size_t residue_len,
                                      uint16_t *index, size_t index_len, int16_t *contrast, size_t contrast_len);

/*
 * Finds a row, from 0, in the residue map of one side or the other; nothing is copied. Lent: the light residue map and the dark one,
 * exactly n bytes each, both only read, and both whichever side is named. Accepted: the answer is where the row starts in the map of
 * that side, and it has width bytes; teldruf_row makes a pointer of it. Refused, in this order: 1, 6, 16.
 */
uint64_t teldruf_view_row(const uint8_t *light, size_t light_len, const uint8_t *dark, size_t dark_len, uint32_t width,
                          uint32_t height, uint32_t row, uint32_t side);

/* The first byte of the row that teldruf_view_row answers for these maps and this side, in the lent map; null if it was refused. */
static inline const uint8_t *teldruf_row(const uint8_t *light, const uint8_t *dark, uint32_t side, uint64_t answer) {
    if (teldruf_cause(answer) != 0)
        return NULL;
    return (side == TELDRUF_LIGHT ? light : dark) + (size_t)answer;
}

#ifdef __cplusplus
}
#endif

#endif
