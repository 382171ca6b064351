/* The jobs of fonts: what the library is asked for each glyph at each size, call by call and in one call, as lines for `replay` and for the oracle. */
#include "fonts.h"

#include <stdlib.h>
#include <string.h>

/* The jobs that a build has kept of a glyph. */
static void print_jobs(const struct build *build) {
    for (int dim = 0; dim < 2; dim++)
        for (int step = 0; step < AF_KHS_STEPS; step++)
            if (build->jobs[dim][step].count) print_words(&build->jobs[dim][step]);
}

/* All glyphs of a font, by a rule. */
static void font(const struct asked *asked, int rule) {
    struct glyph *list;
    int n = glyphs_of(&builds[OWN], asked->text, &list);
    for (int b = CALLS; b < BUILDS; b++) {
        *builds[b].rule = rule, *builds[b].watch = 1;
        for (int size = asked->smallest; size <= asked->largest; size++) {
            set_size(&builds[b], size);
            for (int i = 0; i < n; i++) {
                memset(builds[b].jobs, 0, 2 * sizeof *builds[b].jobs);
                if (!builds[b].load(builds[b].face, list[i].index, hinted(asked))) print_jobs(&builds[b]);
            }
        }
    }
    free(list);
}

int jobs(const struct asked *asked) {
    for (int i = 0; i < asked->font_count; i++) {
        if (!all_opened(asked->fonts[i])) return 2;
        for (int rule = KEEP; rule < RULES; rule++)
            if (asked->rules[rule]) font(asked, rule);
        close_all();
    }
    return 0;
}
