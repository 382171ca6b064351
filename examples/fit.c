/* Fits a figure 3 at 12 pixels to the em, each axis in one call behind building, hands out its path, and asks whether the display shows a 3. examples/three.c makes a call for
   each step, and tells what it changed. The 3 stands in three.h. */
#include <stdint.h>
#include <stdio.h>
#include <string.h>

#include "khsaemudol.h"
#include "three.h"

/* Builds the edges, and tells how many there are by *count. On the horizontal axis a side of less than a pixel makes none. */
static uint8_t build(const struct axis *axis, struct khs_segment *segments, struct khs_edge *edges, int32_t *count) {
    const int32_t pixel = (PIXEL * 65536 + scale / 2) / scale, half_pixel = (PIXEL / 2 * 65536 + scale / 2) / scale;
    return khs_compute_edges((int32_t *)segments, (khs_length)axis->count * KHS_SEGMENT_WORDS, (int32_t *)edges, KHS_MOST_EDGES * KHS_EDGE_WORDS, axis->dim,
                             axis->major_dir, KHS_LATIN, 0, scale, 16, axis->dim == KHS_HORIZONTAL ? pixel : 0, half_pixel, count);
}

/* Gives the edges at the heights of zones their zones. */
static void give_zones(struct khs_edge *edges, int32_t count) {
    for (int32_t i = 0; i < count; i++) {
        for (int32_t k = 0; k < 2; k++) {
            if (edges[i].fpos == zones[k][0]) {
                edges[i].blue = 1;
                edges[i].blue_fitted = zones[k][1];
            }
        }
    }
}

/* Fits an axis, and tells where its points come to, and by *fitted what was lost. Those off the curve are weak. */
static uint8_t fit(const struct axis *axis, int32_t currents[POINTS], struct khs_fitted *fitted) {
    /* dim, group, stem_adjust, snap, done_alone, rule, lowercase_m, least, linked */
    const struct khs_fit numbers = {axis->dim, KHS_LATIN, 0, 1, 0, KHS_SNAP, 0, LEAST_GAP, 1};
    struct khs_segment segments[MOST_SIDES];
    struct khs_edge edges[KHS_MOST_EDGES];
    int32_t originals[POINTS], count;
    uint8_t touched[POINTS] = {0};
    memcpy(segments, axis->sides, sizeof segments);
    uint8_t answer = build(axis, segments, edges, &count);
    if (answer != KHS_DONE) {
        return answer;
    }
    if (axis->dim == KHS_VERTICAL) {
        give_zones(edges, count);
    }
    for (int32_t i = 0; i < POINTS; i++) {
        originals[i] = currents[i] = scaled(axis->points[i]);
    }
    return khs_fit_axis((const int32_t *)segments, (khs_length)axis->count * KHS_SEGMENT_WORDS, (int32_t *)edges, (khs_length)count * KHS_EDGE_WORDS,
                        (const int32_t *)&numbers, KHS_FIT_WORDS, standards, 2, axis->points, POINTS, originals, POINTS, currents, POINTS, touched, POINTS, off_curve,
                        POINTS, ends, CONTOURS, (int32_t *)fitted, KHS_FITTED_WORDS);
}

/* Hands out the path, and tells what a display without grey shows: pieces less holes by *euler. */
static uint8_t hand_out(const int32_t fitted_xs[POINTS], const int32_t fitted_ys[POINTS], int32_t *euler) {
    uint8_t kinds[MOST_STEPS];
    float places[4 * MOST_STEPS];
    uint32_t count, black;
    uint8_t answer = khs_path(fitted_xs, POINTS, fitted_ys, POINTS, on_curve, POINTS, ends, CONTOURS, kinds, MOST_STEPS, places, 4 * MOST_STEPS, &count);
    if (answer == KHS_DONE) {
        print_steps(kinds, places, count);
        answer = khs_count_shown(fitted_xs, POINTS, fitted_ys, POINTS, on_curve, POINTS, ends, CONTOURS, 1, &black, euler);
    }
    if (answer == KHS_DONE) {
        printf("  shown     %u black pixels, pieces less holes %4d\n", (unsigned)black, (int)*euler);
    }
    return answer;
}

int main(void) {
    int32_t fitted_xs[POINTS], fitted_ys[POINTS], euler;
    struct khs_fitted heights_fitted, widths_fitted;
    if (!release_fits()) {
        return 1;
    }
    printf("# digit 3, at %d pixels to the em\n", PIXELS);
    uint8_t answer = fit(&heights, fitted_ys, &heights_fitted);
    if (answer == KHS_DONE) {
        answer = fit(&widths, fitted_xs, &widths_fitted);
    }
    if (answer == KHS_DONE) {
        answer = hand_out(fitted_xs, fitted_ys, &euler);
    }
    if (answer != KHS_DONE) {
        printf("refused: %s\n", khs_answer_name(answer));
        return answer;
    }
    int32_t lost = heights_fitted.gaps + heights_fitted.stems + widths_fitted.gaps + widths_fitted.stems;
    printf("  choice    %s\n", lost == 0 && euler == THREE ? "fitted" : "another size");
    return KHS_DONE;
}
