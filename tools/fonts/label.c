/* Glyphs of a font as a label, in the form of crates/label/stdin: for each glyph at each size the jobs that lead from the segments that FreeType found to its path. */
#include "fonts.h"

#include <stdio.h>
#include <stdlib.h>
#include <string.h>

/* Where the lists of a job begin. */
struct list {
    int count;
    const int32_t *words;
};

/* The list at a place of a job, of records of so many words; moves the place behind it. */
static struct list next(const struct af_khs_words *job, int *at, int words) {
    struct list list = {job->words[*at], job->words + *at + 1};
    *at += 1 + list.count * words;
    return list;
}

static void word(int32_t word) { printf("%08X", (unsigned)word); }

static void put(struct list list, int words) {
    word(list.count);
    for (int i = 0; i < list.count * words; i++) word(list.words[i]);
}

/* The lists of an axis' jobs that a label has. */
struct axis {
    struct list segments, edges, standards, fonts, originals, weak, ends;
};

static struct axis axis_of(struct build *build, int dim) {
    const struct af_khs_words *fit = &build->jobs[dim][AF_KHS_FITTED];
    struct axis axis;
    int at = 1;
    axis.segments = next(fit, &at, 15);
    axis.edges = next(fit, &at, 12);
    next(fit, &at, 1);
    axis.standards = next(fit, &at, 1);
    axis.fonts = next(fit, &at, 1);
    axis.originals = next(fit, &at, 1);
    next(fit, &at, 1);
    next(fit, &at, 1);
    axis.weak = next(fit, &at, 1);
    axis.ends = next(fit, &at, 1);
    return axis;
}

/* The number of the segment of each point, counted from 1, or 0: of those with an edge the last that has the point. */
static int32_t *segments_of(const struct axis *axis) {
    int32_t *of = calloc((size_t)axis->originals.count + 1, sizeof *of);
    for (int s = 0; of && s < axis->segments.count; s++) {
        const int32_t *segment = axis->segments.words + 15 * s;
        int first = segment[11], last = segment[12], start = 0, end = 0;
        if (segment[13] < 0) continue;
        for (int c = 0; c < axis->ends.count && (end = axis->ends.words[c]) < first; c++) start = end + 1;
        for (int point = first;; point = point == end ? start : point + 1) {
            of[point] = s + 1;
            if (point == last) break;
        }
    }
    return of;
}

static void put_axis(struct build *build, int dim, int rule) {
    struct axis axis = axis_of(build, dim);
    const struct af_khs_words *linking = &build->jobs[dim][AF_KHS_LINKED], *fit = &build->jobs[dim][AF_KHS_FITTED];
    const int32_t *numbers = fit->words + 1 + 1 + axis.segments.count * 15 + 1 + axis.edges.count * 12 + 1;
    int32_t *of = segments_of(&axis);
    const struct list none = {0, NULL}, marks = {axis.originals.count, of};
    if (linking->count) print_words(linking);
    print_words(&build->jobs[dim][AF_KHS_BUILT]);
    word(122), put(axis.edges, 12), word(numbers[0]), word(numbers[1]), word(numbers[2]), word(0), word(rule), put(axis.standards, 1), printf("\n");
    if (dim == 0 && (axis.edges.count == 6 || axis.edges.count == 12)) word(113), put(none, 12), word(numbers[1]), printf("\n");
    word(130), put(none, 12), word(numbers[0]), word(numbers[1]), word(0), word(-1), printf("\n");
    word(131), put(none, 12), put(axis.fonts, 1), put(none, 1), put(none, 1), put(none, 1), put(axis.weak, 1), printf("\n");
    word(3), put(axis.originals, 1), put(axis.originals, 1), put(marks, 1), put(axis.ends, 1), printf("\n");
    free(of);
}

/* The path's job, of the outline as FreeType hands it out: its points, on-curve marks and contour ends. */
static void put_path(const FT_Outline *outline) {
    word(15), word(outline->n_points);
    for (int i = 0; i < outline->n_points; i++) word((int32_t)outline->points[i].x);
    word(outline->n_points);
    for (int i = 0; i < outline->n_points; i++) word((int32_t)outline->points[i].y);
    word(outline->n_points);
    for (int i = 0; i < outline->n_points; i++) word(outline->tags[i] & 1);
    word(outline->n_contours);
    for (int i = 0; i < outline->n_contours; i++) word(outline->contours[i]);
    printf("\n");
}

static int is_cubic(const FT_Outline *outline) {
    for (int i = 0; i < outline->n_points; i++)
        if (FT_CURVE_TAG(outline->tags[i]) == FT_CURVE_TAG_CUBIC) return 1;
    return 0;
}

/* A character in UTF-8, unless it is a control. */
static void put_character(FT_ULong c) {
    if (c < 0x20 || (c >= 0x7F && c < 0xA0)) return;
    if (c < 0x80) putchar((int)c);
    else if (c < 0x800) printf("%c%c", (int)(0xC0 | c >> 6), (int)(0x80 | (c & 0x3F)));
    else if (c < 0x10000) printf("%c%c%c", (int)(0xE0 | c >> 12), (int)(0x80 | (c >> 6 & 0x3F)), (int)(0x80 | (c & 0x3F)));
    else printf("%c%c%c%c", (int)(0xF0 | c >> 18), (int)(0x80 | (c >> 12 & 0x3F)), (int)(0x80 | (c >> 6 & 0x3F)), (int)(0x80 | (c & 0x3F)));
}

/* The advance width of a glyph in design units, 0 where it cannot be loaded. */
static long advance_of(struct build *build, FT_UInt index) {
    return build->load(build->face, index, FT_LOAD_NO_SCALE) ? 0 : build->face->glyph->metrics.horiAdvance;
}

/* Whether the digits that the font has are as wide as each other: then the autofitter leaves their advance widths. */
static int digits_are_alike(struct build *build) {
    long width = -1;
    for (FT_ULong c = '0'; c <= '9'; c++) {
        FT_UInt index = build->index(build->face, c);
        if (index && width >= 0 && advance_of(build, index) != width) return 0;
        if (index) width = advance_of(build, index);
    }
    return 1;
}

/* Whether the autofitter leaves a glyph's advance width as it is. */
static int is_fixed(struct build *build, struct glyph glyph) {
    return FT_IS_FIXED_WIDTH(build->face) || (glyph.character >= '0' && glyph.character <= '9' && digits_are_alike(build));
}

/* A glyph at a size, and whether it is one of the label: one that has no outline, or an axis that was left to FreeType, is not. */
static int put_glyph(struct build *build, const struct asked *asked, struct glyph glyph, int size, int rule) {
    long advance = advance_of(build, glyph.index);
    const char *fixed = is_fixed(build, glyph) ? " fixed" : "";
    memset(build->jobs, 0, 2 * sizeof *build->jobs);
    if (build->load(build->face, glyph.index, hinted(asked)) || !build->face->glyph->outline.n_points) return 0;
    if (!build->jobs[0][AF_KHS_FITTED].count || !build->jobs[1][AF_KHS_FITTED].count) return 0;
    printf("\n# U+%04lX ", glyph.character);
    put_character(glyph.character);
    printf(", at %d pixels to the em\n# advance %ld%s, %ld pixels\n", size, advance, fixed, build->face->glyph->metrics.horiAdvance / 64);
    put_axis(build, 1, rule);
    put_axis(build, 0, rule);
    put_path(&build->face->glyph->outline);
    return 1;
}

int labels(const struct asked *asked) {
    struct build *build = &builds[ONE];
    struct glyph *list;
    int rule = asked->rules[SNAP];
    if (asked->font_count != 1) return fprintf(stderr, "fonts: one font is wanted\n"), 2;
    if (!opened(build, asked->fonts[0])) return fprintf(stderr, "fonts: %s is no font that can be read\n", asked->fonts[0]), 2;
    *build->rule = rule, *build->watch = 1;
    int n = glyphs_of(build, asked->text, &list), left_out = 0;
    for (int i = 0; i < n; i++)
        for (int size = asked->smallest; size <= asked->largest; size++) {
            set_size(build, size);
            if (!build->load(build->face, list[i].index, FT_LOAD_NO_SCALE) && is_cubic(&build->face->glyph->outline)) return fprintf(stderr, "fonts: %s has cubic curves, which the path has not\n", asked->fonts[0]), 2;
            left_out += !put_glyph(build, asked, list[i], size, rule);
        }
    int all = n * (asked->largest - asked->smallest + 1);
    if (left_out) fprintf(stderr, "fonts: left out %d of %d glyphs at a size, which have no outline, are hinted from top to bottom, or are of an italic font, whose widths are not hinted\n", left_out, all);
    if (left_out == all) fprintf(stderr, "fonts: there is no glyph left of %s\n", asked->fonts[0]);
    free(list);
    build->close(build->face);
    return left_out == all ? 2 : 0;
}
