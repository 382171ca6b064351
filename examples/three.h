/* The figure 3 of the sample label, drawn in 1,000 design units to the em, as the examples fit it: its outline, the sides of both axes, zones and widths; and how a path is printed. */
#ifndef THREE_H
#define THREE_H

#include <stdint.h>
#include <stdio.h>

#include "khsaemudol.h"

enum { POINTS = 25, CONTOURS = 1, MOST_SIDES = 6, MOST_STEPS = POINTS + 2 * CONTOURS, EM = 1000, PIXELS = 12, PIXEL = 64, LEAST_GAP = PIXEL / 2 };

/* Pieces less holes of a 3: a gateway keeps this number for each character, as a typesetter set it. */
enum { THREE = 1 };

/* From design units to units, in 16.16. */
static const int32_t scale = (int32_t)((int64_t)PIXELS * PIXEL * 65536 / EM);

/* The outline's points, in design units, and which of them are on the curve. They make one contour, which goes clockwise. */
static const int16_t xs[POINTS] = {50,  160, 340, 440, 440, 380, 450, 450, 340, 160, 40,  130, 190,
                                   310, 360, 360, 310, 200, 200, 300, 350, 350, 300, 190, 140};
static const int16_t ys[POINTS] = {590, 712, 712, 600, 450, 366, 280, 110, -12, -12, 110, 150, 68,
                                   68,  140, 260, 325, 325, 405, 405, 470, 570, 632, 632, 550};
static const uint8_t on_curve[POINTS] = {1, 0, 0, 0, 0, 1, 0, 0, 0, 0, 1, 1, 0, 0, 0, 0, 0, 1, 1, 0, 0, 0, 0, 0, 1};
static const uint8_t off_curve[POINTS] = {0, 1, 1, 1, 1, 0, 1, 1, 1, 1, 0, 0, 1, 1, 1, 1, 1, 0, 0, 1, 1, 1, 1, 1, 0};
static const uint16_t ends[CONTOURS] = {POINTS - 1};

/* An axis: its name, dimension and major direction, the points' coordinates on it, and its sides, each with the one on the other side of its stem, and not joined to edges
   yet. */
struct axis {
    const char *name;
    int32_t dim, major_dir;
    const int16_t *points;
    int32_t count;
    struct khs_segment sides[MOST_SIDES];
};

static const struct axis heights = {
    "heights",
    KHS_VERTICAL,
    KHS_DIR_LEFT,
    ys,
    6,
    {
        /* flags, dir, pos, delta, min_coord, max_coord, height, score, len, link, serif, first, last, edge, next */
        {KHS_FLAG_ROUND, KHS_DIR_RIGHT, 712, 0, 160, 340, 180, 32000, 0, 5, KHS_NONE, 1, 2, KHS_NONE, KHS_NONE},
        {KHS_FLAG_ROUND, KHS_DIR_LEFT, -12, 0, 160, 340, 180, 32000, 0, 2, KHS_NONE, 8, 9, KHS_NONE, KHS_NONE},
        {KHS_FLAG_ROUND, KHS_DIR_RIGHT, 68, 0, 190, 310, 120, 32000, 0, 1, KHS_NONE, 12, 13, KHS_NONE, KHS_NONE},
        {KHS_FLAG_ROUND, KHS_DIR_LEFT, 325, 0, 200, 310, 110, 32000, 0, 4, KHS_NONE, 16, 17, KHS_NONE, KHS_NONE},
        {KHS_FLAG_ROUND, KHS_DIR_RIGHT, 405, 0, 200, 300, 100, 32000, 0, 3, KHS_NONE, 18, 19, KHS_NONE, KHS_NONE},
        {KHS_FLAG_ROUND, KHS_DIR_LEFT, 632, 0, 190, 300, 110, 32000, 0, 0, KHS_NONE, 22, 23, KHS_NONE, KHS_NONE},
    },
};

static const struct axis widths = {
    "widths",
    KHS_HORIZONTAL,
    KHS_DIR_UP,
    xs,
    5,
    {
        {KHS_FLAG_ROUND, KHS_DIR_DOWN, 440, 0, 450, 600, 150, 32000, 0, 4, KHS_NONE, 3, 4, KHS_NONE, KHS_NONE},
        {KHS_FLAG_ROUND, KHS_DIR_DOWN, 450, 0, 110, 280, 170, 32000, 0, 2, KHS_NONE, 6, 7, KHS_NONE, KHS_NONE},
        {KHS_FLAG_ROUND, KHS_DIR_UP, 360, 0, 140, 260, 120, 32000, 0, 1, KHS_NONE, 14, 15, KHS_NONE, KHS_NONE},
        {0, KHS_DIR_UP, 200, 0, 325, 405, 80, 32000, 0, KHS_NONE, KHS_NONE, 17, 18, KHS_NONE, KHS_NONE},
        {KHS_FLAG_ROUND, KHS_DIR_UP, 350, 0, 470, 570, 100, 32000, 0, 0, KHS_NONE, 20, 21, KHS_NONE, KHS_NONE},
        KHS_SEGMENT_INIT,
    },
};

/* The zones of the foot and of the head: a height in design units, and where it is to be, in units. */
static const int32_t zones[2][2] = {{-12, 0}, {712, 8 * PIXEL}};

/* The widths that stems come to, in units: one pixel and two. */
static const int32_t standards[2] = {PIXEL, 2 * PIXEL};

/* Whether the archive is good for the header that the program was compiled with; tells where it is not. */
static int release_fits(void) {
    if (!khs_version_fits()) {
        printf("compiled with the header of release %d, and linked to release %u\n", KHS_VERSION, (unsigned)khs_version());
    }
    return khs_version_fits();
}

/* A coordinate at the scale, in units: to the nearest, halves away from zero. */
static int32_t scaled(int32_t coordinate) {
    int64_t product = (int64_t)coordinate * scale;
    return (int32_t)(product < 0 ? -((32768 - product) / 65536) : (product + 32768) / 65536);
}

/* Prints a place in pixels as the decimal that it is: a whole number of 128ths has at most seven digits behind its point. */
static void print_place(float pixels) {
    char text[32];
    size_t length = (size_t)snprintf(text, sizeof text, "%.7f", (double)pixels);
    while (text[length - 1] == '0') {
        length--;
    }
    printf(" %.*s", (int)(text[length - 1] == '.' ? length - 1 : length), text);
}

/* Prints the steps of a path, four to a line, and each contour on lines of its own. */
static void print_steps(const uint8_t *kinds, const float *places, uint32_t count) {
    static const char names[] = {'?', 'M', 'L', 'Q', 'Z'};
    static const int numbers[] = {0, 2, 2, 4, 0};
    int column = 0;
    printf("  path      %u steps\n", (unsigned)count);
    for (uint32_t i = 0; i < count; i++) {
        printf("%s%c", column == 0 ? "    " : column % 4 == 0 && kinds[i] != KHS_CLOSE ? "\n    " : "  ", names[kinds[i]]);
        for (int k = 0; k < numbers[kinds[i]]; k++) {
            print_place(places[4 * i + (uint32_t)k]);
        }
        column++;
        if (kinds[i] == KHS_CLOSE) {
            printf("\n");
            column = 0;
        }
    }
}

#endif
