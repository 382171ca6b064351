/* Every glyph of fonts at every size through the three builds: each point, tag and metric of the outline that FreeType hands out is compared. */
#include "fonts.h"

#include <stdio.h>
#include <stdlib.h>
#include <string.h>

/* How many differences and refusals of a font are told one by one. */
enum { TOLD = 10 };

static struct tally { long glyphs, loads, failed, different, refused; } all;

static int same(FT_GlyphSlot p, FT_GlyphSlot q) {
    const FT_Outline *o = &p->outline, *r = &q->outline;
    return o->n_points == r->n_points && o->n_contours == r->n_contours && p->metrics.horiAdvance == q->metrics.horiAdvance && p->lsb_delta == q->lsb_delta
        && p->rsb_delta == q->rsb_delta && p->metrics.width == q->metrics.width && p->metrics.height == q->metrics.height
        && !memcmp(o->points, r->points, (size_t)o->n_points * sizeof *o->points) && !memcmp(o->tags, r->tags, (size_t)o->n_points)
        && !memcmp(o->contours, r->contours, (size_t)o->n_contours * sizeof *o->contours);
}

/* Loads a glyph again with its tables and jobs kept. */
static void watch(struct build *build, FT_UInt glyph, FT_Int32 flags) {
    memset(build->tables, 0, 2 * sizeof *build->tables);
    memset(build->jobs, 0, 2 * sizeof *build->jobs);
    *build->watch = 1;
    build->load(build->face, glyph, flags);
    *build->watch = 0;
}

/* Tells the first step behind which the tables of two builds differ, and the job that led there: of one call behind building all of it. */
static void tell(int b, FT_UInt glyph, FT_Int32 flags) {
    const struct build *own = &builds[OWN], *build = &builds[b];
    watch(&builds[OWN], glyph, flags);
    watch(&builds[b], glyph, flags);
    for (int step = 0; step < AF_KHS_FITTED; step++)
        for (int dim = 0; dim < 2; dim++) {
            const struct af_khs_words *was = &own->tables[dim][step], *is = &build->tables[dim][step];
            int job = b == ONE && step > AF_KHS_BUILT ? AF_KHS_FITTED : step;
            if (b == ONE && step > AF_KHS_BUILT && step < AF_KHS_WEAK) continue;
            if (was->count == is->count && !memcmp(was->words, is->words, (size_t)was->count * sizeof *was->words)) continue;
            printf("    %s, %s:\n    ", dim ? "heights" : "widths", step_names[job]);
            print_words(&build->jobs[dim][job]);
            return;
        }
    printf("    no table behind a step differs\n");
}

/* Tells what was refused of a glyph, with its job. */
static void tell_refused(int b, FT_UInt glyph, FT_Int32 flags) {
    struct build *build = &builds[b];
    long before[AF_KHS_STEPS][256];
    memcpy(before, build->answers, sizeof before);
    watch(build, glyph, flags);
    for (int step = 0; step < AF_KHS_STEPS; step++)
        for (int answer = 1; answer < 256; answer++) {
            if (build->answers[step][answer] == before[step][answer]) continue;
            printf("    %s, refused by %d; the jobs of both axes:\n", step_names[step], answer);
            for (int dim = 0; dim < 2; dim++) printf("    "), print_words(&build->jobs[dim][step]);
        }
    memcpy(build->answers, before, sizeof before);
}

/* A glyph at a size: loaded by all builds, and the two that call the library held to FreeType's own. */
static void one(const struct asked *asked, const char *font, struct glyph glyph, int size, int rule, struct tally *tally) {
    FT_Error errors[BUILDS];
    FT_Int32 flags = hinted(asked);
    long before[BUILDS];
    for (int b = 0; b < BUILDS; b++) {
        before[b] = *builds[b].refused;
        errors[b] = builds[b].load(builds[b].face, glyph.index, flags);
    }
    tally->loads++;
    tally->failed += errors[OWN] != 0;
    for (int b = CALLS; b < BUILDS; b++) {
        int equal = errors[b] == errors[OWN] && (errors[OWN] || same(builds[OWN].face->glyph, builds[b].face->glyph));
        if (!equal && tally->different++ < TOLD) {
            printf("  different: %s, U+%04lX, glyph %u at %d, %s, by %s\n", font, glyph.character, glyph.index, size, rule_names[rule], build_names[b]);
            tell(b, glyph.index, flags);
        }
        if (*builds[b].refused != before[b] && tally->refused++ < TOLD) {
            printf("  refused: %s, U+%04lX, glyph %u at %d, %s, by %s\n", font, glyph.character, glyph.index, size, rule_names[rule], build_names[b]);
            tell_refused(b, glyph.index, flags);
        }
    }
}

static void font(const struct asked *asked, const char *path, int rule) {
    struct glyph *list;
    struct tally tally = {0};
    tally.glyphs = glyphs_of(&builds[OWN], asked->text, &list);
    for (int b = 0; b < BUILDS; b++) *builds[b].rule = rule;
    for (int size = asked->smallest; size <= asked->largest; size++) {
        for (int b = 0; b < BUILDS; b++) set_size(&builds[b], size);
        for (int i = 0; i < tally.glyphs; i++) one(asked, base_of(path), list[i], size, rule, &tally);
    }
    free(list);
    printf("%-38s %s %6ld glyphs, %8ld loads, %ld cannot be loaded, %ld different, %ld refused\n", base_of(path), rule_names[rule], tally.glyphs, tally.loads, tally.failed, tally.different, tally.refused);
    fflush(stdout);
    all.glyphs += tally.glyphs, all.loads += tally.loads, all.failed += tally.failed, all.different += tally.different, all.refused += tally.refused;
}

/* How often each step was asked for, and what it answered. */
static void tell_answers(int b) {
    for (int step = 0; step < AF_KHS_STEPS; step++)
        for (int answer = 0; answer < 256; answer++)
            if (builds[b].answers[step][answer]) printf("  %s: %s, answer %d: %ld\n", build_names[b], step_names[step], answer, builds[b].answers[step][answer]);
    printf("  %s: axes from top to bottom, left to FreeType: %ld\n", build_names[b], *builds[b].left);
}

int compare(const struct asked *asked) {
    if (!each_font(asked, font)) return 2;
    printf("%d fonts, %d to %d pixels to the em: %ld loads by each of three builds, %ld cannot be loaded, %ld different, %ld refused\n", asked->font_count, asked->smallest, asked->largest, all.loads, all.failed,
           all.different, all.refused);
    tell_answers(CALLS);
    tell_answers(ONE);
    return all.different != 0 || all.refused != 0;
}
