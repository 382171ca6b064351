/* Aligns a catalogue in one call: reads the outlines of the sample label's glyphs (crates/label/stdin), each on both axes, into shared lists, puts the touched points of
 * each on the nearest line of pixels, aligns the others of all outlines at once, and tells what became of each outline. Then every outline is aligned by itself, and is the
 * same. */
#include "khsaemudol.h"

#include <stdio.h>
#include <stdlib.h>
#include <string.h>

enum { PIXEL = 64, WEAK_POINTS = 3, MOST_LINE = 1 << 16, MOST_POINTS = 4096, MOST_OUTLINES = 256, MOST_NAME = 80 };

/* The shared lists: the outlines stand one behind another in them. */
static int32_t originals[MOST_POINTS], currents[MOST_POINTS];
static uint8_t touched[MOST_POINTS], answers[MOST_OUTLINES];
static uint16_t ends[MOST_POINTS], point_counts[MOST_OUTLINES], contour_counts[MOST_OUTLINES];
static size_t points, contours, outlines;

static char names[MOST_OUTLINES][MOST_NAME];

/* The next word of a line of text, which is eight hexadecimal digits. */
static int32_t word(const char **text)
{
    char digits[9];
    memcpy(digits, *text, 8);
    digits[8] = '\0';
    *text += 8;
    return (int32_t)(uint32_t)strtoul(digits, NULL, 16);
}

/* The multiple of a pixel that is nearest to a coordinate. */
static int32_t on_grid(int32_t x)
{
    int32_t up = x + PIXEL / 2;
    return up - (up % PIXEL + PIXEL) % PIXEL;
}

/* Reads an outline behind those that were read: its originals, currents, touch marks and contour ends, each behind its count. 0 where there is no room. */
static int read_outline(const char *text, const char *name, const char *axis)
{
    size_t n = (uint32_t)word(&text);
    if (outlines == MOST_OUTLINES || n > MOST_POINTS - points)
        return 0;
    for (size_t i = 0; i < n; i++)
        originals[points + i] = word(&text);
    text += 8 * (n + 2); /* the currents, which are not read, and their count and that of the marks */
    for (size_t i = 0; i < n; i++) {
        touched[points + i] = (uint8_t)word(&text);
        currents[points + i] = touched[points + i] ? on_grid(originals[points + i]) : originals[points + i];
    }
    size_t k = (uint32_t)word(&text);
    if (k > MOST_POINTS - contours)
        return 0;
    for (size_t i = 0; i < k; i++)
        ends[contours + i] = (uint16_t)word(&text);
    snprintf(names[outlines], sizeof names[outlines], "%s, %s", name, axis);
    point_counts[outlines] = (uint16_t)n;
    contour_counts[outlines] = (uint16_t)k;
    points += n;
    contours += k;
    outlines++;
    return 1;
}

/* Reads the lines of a label: a comment names a glyph, and two of its lines are the outline, by its heights and by its widths. */
static int read_label(void)
{
    static char line[MOST_LINE], name[MOST_NAME - 16];
    const char *axis = "heights";
    while (fgets(line, sizeof line, stdin)) {
        const char *text = line;
        if (line[0] == '#') {
            sscanf(line, "# %63[^,\n]", name);
            axis = "heights";
        } else if (strlen(line) > 8 && word(&text) == WEAK_POINTS) {
            if (!read_outline(text, name, axis))
                return 0;
            axis = "widths";
        }
    }
    return 1;
}

/* Prints an outline's answer, and how far its points went that are not on the grid. */
static void print_outline(size_t outline, size_t from)
{
    int32_t placed = 0, furthest = 0;
    for (size_t i = from; i < from + point_counts[outline]; i++) {
        int32_t way = abs(currents[i] - originals[i]);
        if (touched[i])
            placed++;
        else if (way > furthest)
            furthest = way;
    }
    printf("  %-22s %3d points, %2d on the grid: ", names[outline], point_counts[outline], (int)placed);
    if (answers[outline] == KHS_DONE)
        printf("the others went up to %d/64\n", (int)furthest);
    else
        printf("refused: %s\n", khs_answer_name(answers[outline]));
}

int main(void)
{
    static int32_t alone[MOST_POINTS];
    if (!khs_version_fits() || !read_label())
        return 1;
    memcpy(alone, currents, sizeof alone);
    uint8_t answer = khs_align_catalogue(originals, points, currents, points, touched, points, ends, contours, point_counts, outlines, contour_counts, outlines, answers, outlines);
    if (answer != KHS_DONE)
        return 1;
    printf("a catalogue of %u outlines, %u points and %u contours in one call\n", (unsigned)outlines, (unsigned)points, (unsigned)contours);
    size_t point = 0, contour = 0;
    int same = 1;
    for (size_t i = 0; i < outlines; i++) {
        khs_length n = point_counts[i];
        uint8_t own = khs_align_weak_points(originals + point, n, alone + point, n, touched + point, n, ends + contour, contour_counts[i]);
        same = same && own == answers[i];
        print_outline(i, point);
        point += point_counts[i];
        contour += contour_counts[i];
    }
    same = same && memcmp(alone, currents, sizeof alone) == 0;
    printf(same ? "one by one the same\n" : "one by one OTHERWISE\n");
    return !same;
}
