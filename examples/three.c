/* Fits a figure 3 at 12 pixels to the em on both axes, from its segments to its points, tells what each step changed, hands out its path, and asks whether the display
   shows a 3. It makes a call for each step; examples/fit.c fits each axis in one. The 3 stands in three.h. */
#include <stdint.h>
#include <stdio.h>
#include <string.h>

#include "khsaemudol.h"
#include "three.h"

/* Prints a position in pixels and 64ths, in ten columns. */
static void print_position(int32_t units) {
    char text[16];
    int32_t size = units < 0 ? -units : units;
    if (size % PIXEL == 0) {
        printf("%10d", (int)(units / PIXEL));
        return;
    }
    if (size < PIXEL) {
        snprintf(text, sizeof text, "%d/64", (int)units);
    } else {
        snprintf(text, sizeof text, "%d %2d/64", (int)(units / PIXEL), (int)(size % PIXEL));
    }
    printf("%10s", text);
}

/* Prints a width in pixels and 64ths. */
static void print_width(int32_t units) {
    int32_t size = units < 0 ? -units : units;
    if (size % PIXEL == 0) {
        printf("%d", (int)(units / PIXEL));
    } else if (size < PIXEL) {
        printf("%d/64", (int)units);
    } else {
        printf("%d %2d/64", (int)(units / PIXEL), (int)(size % PIXEL));
    }
}

/* Prints the edges that a step placed: where each was and is, its stem, and what placed it. */
static void print_placed(const struct khs_edge *before, const struct khs_edge *edges, int32_t count) {
    for (int32_t i = 0; i < count; i++) {
        const struct khs_edge *edge = &edges[i];
        if (before[i].flags == edge->flags) {
            continue;
        }
        printf("    edge %3d  at %4d", (int)i, (int)edge->fpos);
        print_position(before[i].pos);
        printf(" ->");
        print_position(edge->pos);
        if (edge->link != KHS_NONE) {
            printf("  stem with %d", (int)edge->link);
        }
        if (edge->link > i) {
            printf(", width ");
            print_width(edges[edge->link].opos - edge->opos);
            printf(" -> ");
            print_width(edges[edge->link].pos - edge->pos);
        }
        printf("  %s\n", khs_mark_name(edge->mark));
    }
}

/* Builds the edges, and tells how many there are by *count. On the horizontal axis a side of less than a pixel makes none. */
static uint8_t build(const struct axis *axis, struct khs_segment *segments, struct khs_edge *edges, int32_t *count) {
    const int32_t pixel = (PIXEL * 65536 + scale / 2) / scale, half_pixel = (PIXEL / 2 * 65536 + scale / 2) / scale;
    uint8_t answer =
        khs_compute_edges((int32_t *)segments, (khs_length)axis->count * KHS_SEGMENT_WORDS, (int32_t *)edges, KHS_MOST_EDGES * KHS_EDGE_WORDS, axis->dim,
                          axis->major_dir, KHS_LATIN, 0, scale, 16, axis->dim == KHS_HORIZONTAL ? pixel : 0, half_pixel, count);
    if (answer == KHS_DONE) {
        printf("  %-8s  %d segments make %d edges, at", axis->name, (int)axis->count, (int)*count);
        for (int32_t i = 0; i < *count; i++) {
            printf(" %4d", (int)edges[i].fpos);
        }
        printf("\n");
    }
    return answer;
}

/* Gives the edges at the heights of zones their zones. */
static void give_zones(struct khs_edge *edges, int32_t count) {
    for (int32_t i = 0; i < count; i++) {
        for (int32_t k = 0; k < 2; k++) {
            if (edges[i].fpos == zones[k][0]) {
                edges[i].blue = 1;
                edges[i].blue_fitted = zones[k][1];
            }
        }
    }
}

/* Prints which edge is the anchor. */
static void print_anchor(int32_t anchor) {
    if (anchor == KHS_NONE) {
        printf("no anchor\n");
    } else {
        printf("the anchor is edge %d\n", (int)anchor);
    }
}

/* Puts the edges on their zones, and places the stems by the anchor that these give, or by the first stem where there is none. Tells how many edges these
   passed over, and the anchor. */
static uint8_t place_stems(const struct axis *axis, struct khs_edge *edges, int32_t count, int32_t *passed_over, int32_t *anchor) {
    struct khs_edge before[KHS_MOST_EDGES];
    memcpy(before, edges, sizeof before);
    uint8_t answer = khs_align_blues_and_stems((int32_t *)edges, (khs_length)count * KHS_EDGE_WORDS, axis->dim, KHS_LATIN, 0, 0, KHS_SNAP, standards, 2,
                                               passed_over, anchor);
    if (answer == KHS_DONE) {
        printf("  fitting   %d passed over, ", (int)*passed_over);
        print_anchor(*anchor);
        print_placed(before, edges, count);
    }
    return answer;
}

/* Places the edges that are left, where stems have passed over some or there is no anchor. */
static uint8_t place_remaining(const struct axis *axis, struct khs_edge *edges, int32_t count, int32_t passed_over, int32_t anchor) {
    struct khs_edge before[KHS_MOST_EDGES];
    int32_t found;
    if (passed_over == 0 && anchor != KHS_NONE) {
        return KHS_DONE;
    }
    memcpy(before, edges, sizeof before);
    uint8_t answer =
        khs_align_remaining_edges((int32_t *)edges, (khs_length)count * KHS_EDGE_WORDS, axis->dim, KHS_LATIN, passed_over, anchor, &found);
    if (answer == KHS_DONE) {
        printf("  remaining ");
        print_anchor(found);
        print_placed(before, edges, count);
    }
    return answer;
}

/* Asks whether a gap of half a pixel and more, or a stem, between two edges with links has no row of pixels left, or is turned, and tells so: a gateway would show the
   glyph at another size then. */
static uint8_t guard(const struct khs_edge *edges, int32_t count) {
    int32_t gaps, first, second, before, after, stems, not_done;
    uint8_t answer = khs_lost_gaps((const int32_t *)edges, (khs_length)count * KHS_EDGE_WORDS, LEAST_GAP, 1, &gaps, &first, &second, &before, &after, &stems, &not_done);
    if (answer == KHS_DONE && gaps + stems > 0) {
        printf("  guard     %d gaps and %d stems lost, the first between edges %d and %d, width ", (int)gaps, (int)stems, (int)first, (int)second);
        print_width(before);
        printf(" -> ");
        print_width(after);
        printf(", %d edges not done\n", (int)not_done);
    }
    return answer;
}

/* Counts the points that are touched. */
static int count_touched(const uint8_t touched[POINTS]) {
    int count = 0;
    for (int32_t i = 0; i < POINTS; i++) {
        count += touched[i];
    }
    return count;
}

/* Moves the points of segments with their edges, strong points by the edges around them, and the others behind these. Those off the curve are weak. */
static uint8_t align_points(const struct axis *axis, const struct khs_segment *segments, const struct khs_edge *edges, int32_t count, int32_t currents[POINTS]) {
    int32_t originals[POINTS];
    uint8_t touched[POINTS] = {0};
    for (int32_t i = 0; i < POINTS; i++) {
        originals[i] = currents[i] = scaled(axis->points[i]);
    }
    uint8_t answer = khs_align_edge_points((const int32_t *)segments, (khs_length)axis->count * KHS_SEGMENT_WORDS, (const int32_t *)edges, (khs_length)count * KHS_EDGE_WORDS, 1, 0,
                                           currents, POINTS, touched, POINTS, ends, CONTOURS);
    if (answer != KHS_DONE) {
        return answer;
    }
    int placed = count_touched(touched);
    answer = khs_align_strong_points((const int32_t *)edges, (khs_length)count * KHS_EDGE_WORDS, axis->points, POINTS, originals, POINTS, currents, POINTS,
                                     touched, POINTS, off_curve, POINTS);
    if (answer != KHS_DONE) {
        return answer;
    }
    answer = khs_align_weak_points(originals, POINTS, currents, POINTS, touched, POINTS, ends, CONTOURS);
    if (answer == KHS_DONE) {
        int strong = count_touched(touched) - placed;
        printf("  points    %d of %d placed with their edges, %d by the edges around them, the others aligned\n", placed, POINTS, strong);
    }
    return answer;
}

/* Fits an axis, and tells where its points come to. */
static uint8_t fit(const struct axis *axis, int32_t points[POINTS]) {
    struct khs_segment segments[MOST_SIDES];
    struct khs_edge edges[KHS_MOST_EDGES];
    int32_t count, passed_over, anchor;
    memcpy(segments, axis->sides, sizeof segments);
    uint8_t answer = build(axis, segments, edges, &count);
    if (answer == KHS_DONE) {
        if (axis->dim == KHS_VERTICAL) {
            give_zones(edges, count);
        }
        answer = place_stems(axis, edges, count, &passed_over, &anchor);
    }
    if (answer == KHS_DONE) {
        answer = place_remaining(axis, edges, count, passed_over, anchor);
    }
    if (answer == KHS_DONE) {
        answer = guard(edges, count);
    }
    return answer == KHS_DONE ? align_points(axis, segments, edges, count, points) : answer;
}

/* Hands out the path. */
static uint8_t print_path(const int32_t fitted_xs[POINTS], const int32_t fitted_ys[POINTS]) {
    uint8_t kinds[MOST_STEPS];
    float places[4 * MOST_STEPS];
    uint32_t count;
    uint8_t answer = khs_path(fitted_xs, POINTS, fitted_ys, POINTS, on_curve, POINTS, ends, CONTOURS, kinds, MOST_STEPS, places, 4 * MOST_STEPS, &count);
    if (answer == KHS_DONE) {
        print_steps(kinds, places, count);
    }
    return answer;
}

/* Asks what a display without grey shows of the points, and tells pieces less holes by *euler. */
static uint8_t ask(const char *name, const int32_t shown_xs[POINTS], const int32_t shown_ys[POINTS], int32_t *euler) {
    uint32_t black;
    uint8_t answer = khs_count_shown(shown_xs, POINTS, shown_ys, POINTS, on_curve, POINTS, ends, CONTOURS, 1, &black, euler);
    if (answer == KHS_DONE) {
        printf("  %-9s %u black pixels, pieces less holes %4d\n", name, (unsigned)black, (int)*euler);
    }
    return answer;
}

/* Tells how the 3 is to be shown: fitted where it has the number of a 3 so, else unfitted where it has it so, else at another size. */
static uint8_t choose(const int32_t fitted_xs[POINTS], const int32_t fitted_ys[POINTS]) {
    int32_t unfitted_xs[POINTS], unfitted_ys[POINTS], fitted, unfitted;
    for (int32_t i = 0; i < POINTS; i++) {
        unfitted_xs[i] = scaled(xs[i]);
        unfitted_ys[i] = scaled(ys[i]);
    }
    uint8_t answer = ask("shown", fitted_xs, fitted_ys, &fitted);
    if (answer == KHS_DONE) {
        answer = ask("unfitted", unfitted_xs, unfitted_ys, &unfitted);
    }
    if (answer == KHS_DONE) {
        printf("  choice    %s\n", fitted == THREE ? "fitted" : unfitted == THREE ? "unfitted" : "another size");
    }
    return answer;
}

int main(void) {
    int32_t fitted_xs[POINTS], fitted_ys[POINTS];
    if (!release_fits()) {
        return 1;
    }
    printf("# digit 3, at %d pixels to the em\n", PIXELS);
    uint8_t answer = fit(&heights, fitted_ys);
    if (answer == KHS_DONE) {
        answer = fit(&widths, fitted_xs);
    }
    if (answer == KHS_DONE) {
        answer = print_path(fitted_xs, fitted_ys);
    }
    if (answer == KHS_DONE) {
        answer = choose(fitted_xs, fitted_ys);
    }
    if (answer != KHS_DONE) {
        printf("refused: %s\n", khs_answer_name(answer));
    }
    return answer;
}
