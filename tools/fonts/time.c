/* The time of hinting fonts by the three builds, in turn, in one run; and the share of it that is spent in the library. */
#include "fonts.h"

#include <stdio.h>
#include <stdlib.h>
#include <time.h>

/* Each time is the least of so many rounds; sizes go by so many pixels. The clock's own time is the least of many short rounds, so that nothing else runs in one of them. */
enum { ROUNDS = 7, STEP = 4, CLOCK_ROUNDS = 1000, READINGS = 500 };

static double now(void) {
    struct timespec now;
    clock_gettime(CLOCK_THREAD_CPUTIME_ID, &now);
    return (double)now.tv_sec * 1e9 + (double)now.tv_nsec;
}

static double least(double a, double b) { return a < b ? a : b; }

/* What all glyphs take at a size, in nanoseconds. */
static double pass(struct build *build, const struct glyph *list, int n, FT_Int32 flags) {
    double from = now();
    for (int i = 0; i < n; i++) build->load(build->face, list[i].index, flags);
    return now() - from;
}

/* What reading the client's clock takes between one reading and the next. */
static double clock_time(void) {
    double best = 1e9;
    for (int round = 0; round < CLOCK_ROUNDS; round++) {
        struct timespec at, from, to;
        clock_gettime(CLOCK_MONOTONIC, &from);
        for (int i = 0; i < READINGS; i++) clock_gettime(CLOCK_MONOTONIC, &at);
        clock_gettime(CLOCK_MONOTONIC, &to);
        best = least(best, ((double)(to.tv_sec - from.tv_sec) * 1e9 + (double)(to.tv_nsec - from.tv_nsec)) / READINGS);
    }
    return best;
}

static long calls(const struct build *build) {
    long n = 0;
    for (int step = 0; step < AF_KHS_STEPS; step++)
        for (int answer = 0; answer < 256; answer++) n += build->answers[step][answer];
    return n;
}

/* What is spent in the library when all glyphs are loaded one behind the other, without what the clock takes: of each glyph the least of some rounds. */
static double inside(struct build *build, const struct glyph *list, int n, FT_Int32 flags, double clock) {
    double *best = calloc((size_t)n + 1, sizeof *best), sum = 0;
    *build->timed = 1;
    for (int round = 0; best && round < ROUNDS; round++)
        for (int i = 0; i < n; i++) {
            long before = calls(build);
            *build->time = 0;
            build->load(build->face, list[i].index, flags);
            double spent = *build->time - (double)(calls(build) - before) * clock;
            best[i] = round ? least(best[i], spent) : spent;
        }
    *build->timed = 0;
    for (int i = 0; best && i < n; i++) sum += best[i];
    free(best);
    return sum;
}

static void font(const struct asked *asked, const char *path, int rule) {
    struct glyph *list;
    int n = glyphs_of(&builds[OWN], asked->text, &list), sizes = 0;
    double sum[BUILDS] = {0}, ours[BUILDS] = {0}, unhinted = 0, clock = clock_time();
    for (int b = 0; b < BUILDS; b++) *builds[b].rule = rule;
    for (int size = asked->smallest; size <= asked->largest; size += STEP, sizes++) {
        double best[BUILDS] = {1e18, 1e18, 1e18}, bare = 1e18;
        for (int b = 0; b < BUILDS; b++) set_size(&builds[b], size);
        for (int round = 0; round < ROUNDS; round++) {
            for (int b = 0; b < BUILDS; b++) best[b] = least(best[b], pass(&builds[b], list, n, hinted(asked)));
            bare = least(bare, pass(&builds[OWN], list, n, FT_LOAD_NO_SCALE | FT_LOAD_NO_BITMAP));
        }
        for (int b = 0; b < BUILDS; b++) sum[b] += best[b];
        for (int b = CALLS; b < BUILDS; b++) ours[b] += inside(&builds[b], list, n, hinted(asked), clock);
        unhinted += bare;
    }
    free(list);
    printf("%-28s %s %6d glyphs; ns a load: FreeType %.0f, not hinted %.0f; hinting, over FreeType's: call by call %.2f, one call %.2f; of it in the library %.0f %%, %.0f %%\n", base_of(path), rule_names[rule], n,
           sum[OWN] / n / sizes, unhinted / n / sizes, (sum[CALLS] - unhinted) / (sum[OWN] - unhinted), (sum[ONE] - unhinted) / (sum[OWN] - unhinted), 100 * ours[CALLS] / (sum[CALLS] - unhinted),
           100 * ours[ONE] / (sum[ONE] - unhinted));
    fflush(stdout);
}

int timed(const struct asked *asked) {
    return each_font(asked, font) ? 0 : 2;
}
