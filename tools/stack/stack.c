/* Prints how much stack each function of the library wrote to, in bytes: the stack below is painted, the function called on full lists, and the lowest byte looked for that changed. */
#include "khsaemudol.h"

#include <stddef.h>

int printf(const char *format, ...);

enum { DEPTH = 1 << 20, NEAR = 512, PAINT = 0xA5, POINTS = 4096, STANDARDS = 16, FRAMED = 255 };

static struct khs_segment segments[KHS_MOST_SEGMENTS];
static struct khs_edge edges[KHS_MOST_EDGES];
static int32_t originals[POINTS], currents[POINTS], standards[STANDARDS];
static uint8_t touched[POINTS], weak_marks[POINTS];
static int16_t fonts[POINTS];
static uint16_t ends[POINTS / 4], point_counts[] = {POINTS}, contour_counts[] = {POINTS / 4};
static uint16_t before[POINTS], behind[POINTS];
static uint8_t own_answer;
static int32_t first, second, third, fourth, fifth, sixth, seventh;
static uint8_t kinds[POINTS + 2 * (POINTS / 4)];
static float places[4 * sizeof kinds];
static uint32_t number, contours;
static struct khs_fitted fitted;
static uint8_t line[2 * (3 + 6 * FRAMED)];

/* The choices that a function is called with in turn: dimension, group, whether stems are adjusted, and whether widths are snapped. */
static int32_t dim, group, adjusted, rule;

static int32_t *edge_words(void) { return (int32_t *)edges; }
static int32_t *segment_words(void) { return (int32_t *)segments; }

enum {
    EDGE_LIST = KHS_MOST_EDGES * KHS_EDGE_WORDS,
    SEGMENT_LIST = KHS_MOST_SEGMENTS * KHS_SEGMENT_WORDS,
    ALTERED_LIST = KHS_MOST_ALTERED * KHS_ALTERATION_WORDS
};
static int32_t altered[ALTERED_LIST];

static uint8_t weak(void) { return khs_align_weak_points(originals, POINTS, currents, POINTS, touched, POINTS, ends, POINTS / 4); }
static uint8_t catalogue(void) {
    return khs_align_catalogue(originals, POINTS, currents, POINTS, touched, POINTS, ends, POINTS / 4, point_counts, 1, contour_counts, 1, &own_answer, 1);
}
static uint8_t remember(void) { return khs_remember_references(touched, POINTS, ends, POINTS / 4, before, POINTS, behind, POINTS); }
/* The list is that of the outline, which `remember` leaves. */
static uint8_t with_references(void) {
    return khs_align_with_references(originals, POINTS, currents, POINTS, touched, POINTS, ends, POINTS / 4, before, POINTS, behind, POINTS);
}
static uint8_t drag(void) { return khs_drag_point(originals, POINTS, currents, POINTS, touched, POINTS, ends, POINTS / 4, 3 * (POINTS / 6)); }
static uint8_t linking(void) { return khs_link_segments_cjk(segment_words(), SEGMENT_LIST, KHS_DIR_UP, 1000, 65536); }
static uint8_t building(void) {
    return khs_compute_edges(segment_words(), SEGMENT_LIST, edge_words(), EDGE_LIST, dim, KHS_DIR_UP, group, 0, 65536, 3, 0, 65535, &first);
}
static uint8_t blues(void) { return khs_align_edges_to_blues(edge_words(), EDGE_LIST, dim, group, rule, standards, STANDARDS, &first); }
static uint8_t linked(void) { return khs_align_linked_edge(edge_words(), EDGE_LIST, rule, standards, STANDARDS, 1, 2); }
static uint8_t serif(void) { return khs_align_serif_edge(edge_words(), EDGE_LIST, 1, 2); }
static uint8_t adjust(void) { return khs_adjust_link(edge_words(), EDGE_LIST, 2, dim, 0); }
static uint8_t bounds(void) { return khs_latin_remaining_bounds(edge_words(), EDGE_LIST, 2, &first, &second); }
static uint8_t stem(void) { return khs_hint_normal_stem_cjk(edge_words(), EDGE_LIST, dim, group, rule, standards, STANDARDS, 1, 2, 3, &first); }
static uint8_t stems(void) {
    return khs_align_stem_edges(edge_words(), EDGE_LIST, dim, group, adjusted, 0, KHS_NONE, rule, standards, STANDARDS, &first, &second);
}
/* Takes the zones away from KHS_LATIN's horizontal axis, which has none. */
static void keep_zones(void) {
    for (int32_t i = 0; i < KHS_MOST_EDGES && dim == KHS_HORIZONTAL && group == KHS_LATIN; i++) {
        edges[i].blue = edges[i].blue_fitted = 0;
    }
}
static uint8_t joined(void) {
    keep_zones();
    return khs_align_blues_and_stems(edge_words(), EDGE_LIST, dim, group, adjusted, 0, rule, standards, STANDARDS, &first, &second);
}
static uint8_t step(void) { return khs_path_step(originals, POINTS, currents, POINTS, touched, POINTS, ends, POINTS / 4, 4000, kinds, places, &number); }
static uint8_t path(void) {
    return khs_path(originals, POINTS, currents, POINTS, touched, POINTS, ends, POINTS / 4, kinds, sizeof kinds, places, sizeof places / sizeof *places, &number);
}
static uint8_t shown(void) { return khs_count_shown(originals, POINTS, currents, POINTS, touched, POINTS, ends, POINTS / 4, 64, &number, &first); }
/* Gives every edge four segments, one in each quarter of the list, with their rings closed or not, and leaves so many quarters out. */
static void rings(int closed, int left_out) {
    for (int32_t i = 0; i < KHS_MOST_SEGMENTS; i++) {
        int32_t used = (4 - left_out) * KHS_MOST_EDGES;
        segments[i].edge = i < used ? i % KHS_MOST_EDGES : KHS_NONE;
        segments[i].next = i < used && closed ? (i + KHS_MOST_EDGES) % used : KHS_NONE;
    }
    for (int32_t i = 0; i < KHS_MOST_EDGES; i++) {
        edges[i].first = i;
        edges[i].last = i + (3 - left_out) * KHS_MOST_EDGES;
    }
}
static uint8_t mend(void) {
    rings(dim, group);
    return khs_mend(segment_words(), SEGMENT_LIST, edge_words(), EDGE_LIST, altered, ALTERED_LIST, &first);
}
static uint8_t pack(void) {
    rings(1, dim + group);
    return khs_pack_axis(segment_words(), SEGMENT_LIST, edge_words(), EDGE_LIST, &first);
}
static uint8_t turn(void) { return khs_turn_over(segment_words(), SEGMENT_LIST, edge_words(), EDGE_LIST); }
/* Sends every segment around its contour of four points, over its start. */
static void walks(void) {
    rings(1, 0);
    for (int32_t i = 0; i < KHS_MOST_SEGMENTS; i++) {
        segments[i].first = 8 * i + 2;
        segments[i].last = 8 * i + 1;
    }
}
static uint8_t edge_points(void) {
    walks();
    return khs_align_edge_points(segment_words(), SEGMENT_LIST, edge_words(), EDGE_LIST, dim, group, currents, POINTS, touched, POINTS, ends, POINTS / 4);
}
static uint8_t strong(void) { return khs_align_strong_points(edge_words(), EDGE_LIST, fonts, POINTS, originals, POINTS, currents, POINTS, touched, POINTS, weak_marks, POINTS); }
/* Every fifth edge has no link, and is left for remaining edges. */
static uint8_t fit(void) {
    const struct khs_fit numbers = {dim, group, adjusted, 1, 0, rule, 1, 0, adjusted};
    keep_zones();
    walks();
    for (int32_t i = 0; i < KHS_MOST_EDGES; i += 5) {
        edges[i].link = KHS_NONE;
    }
    return khs_fit_axis(segment_words(), SEGMENT_LIST, edge_words(), EDGE_LIST, (const int32_t *)&numbers, KHS_FIT_WORDS, standards, STANDARDS, fonts, POINTS, originals,
                        POINTS, currents, POINTS, touched, POINTS, weak_marks, POINTS, ends, POINTS / 4, (int32_t *)&fitted, KHS_FITTED_WORDS);
}
static uint8_t write_frame(void) { return khs_write_frame(originals, FRAMED, currents, FRAMED, touched, FRAMED, ends, FRAMED / 4, line, sizeof line, &number); }
static uint8_t read_frame(void) {
    return khs_read_frame(line, sizeof line, originals, FRAMED, currents, FRAMED, touched, FRAMED, ends, FRAMED, &number, &contours);
}
static uint8_t guard(void) { return khs_lost_gaps(edge_words(), EDGE_LIST, 0, adjusted, &first, &second, &third, &fourth, &fifth, &sixth, &seventh); }
/* Without an anchor, or with one in the middle. */
static uint8_t remaining(void) {
    return khs_align_remaining_edges(edge_words(), EDGE_LIST, dim, group, KHS_MOST_EDGES, adjusted ? KHS_MOST_EDGES / 2 : KHS_NONE, &first);
}
static uint8_t lowercase_m(void) { return khs_hint_lowercase_m(edge_words(), 12 * KHS_EDGE_WORDS, group); }

static const struct {
    const char *name;
    uint8_t (*call)(void);
} calls[] = {{"khs_align_weak_points", weak}, {"khs_align_catalogue", catalogue}, {"khs_remember_references", remember},
             {"khs_align_with_references", with_references}, {"khs_drag_point", drag}, {"khs_link_segments_cjk", linking}, {"khs_compute_edges", building}, {"khs_align_edges_to_blues", blues},
             {"khs_align_linked_edge", linked}, {"khs_align_serif_edge", serif}, {"khs_adjust_link", adjust}, {"khs_latin_remaining_bounds", bounds},
             {"khs_hint_normal_stem_cjk", stem}, {"khs_align_stem_edges", stems}, {"khs_align_blues_and_stems", joined}, {"khs_align_remaining_edges", remaining}, {"khs_hint_lowercase_m", lowercase_m}, {"khs_lost_gaps", guard}, {"khs_align_edge_points", edge_points}, {"khs_align_strong_points", strong}, {"khs_fit_axis", fit},
             {"khs_path_step", step}, {"khs_path", path}, {"khs_count_shown", shown}, {"khs_mend", mend}, {"khs_pack_axis", pack}, {"khs_turn_over", turn}, {"khs_write_frame", write_frame}, {"khs_read_frame", read_frame}};

/* Segments in pairs, the pairs on 128 heights; edges in stems, each with a zone or done here and there; points touched and weak here and there; the longest frame, all zeros. */
static void fill(void) {
    for (int32_t i = 0; i < KHS_MOST_SEGMENTS; i++) {
        segments[i] = (struct khs_segment){
            .dir = i % 2 == 0 ? KHS_DIR_UP : KHS_DIR_DOWN,
            .pos = i % 128 * 40,
            .min_coord = i,
            .max_coord = i + 500,
            .height = 500,
            .score = 32000,
            .link = i ^ 1,
            .serif = KHS_NONE,
            .edge = KHS_NONE,
            .next = KHS_NONE,
        };
    }
    for (int32_t i = 0; i < KHS_MOST_EDGES; i++) {
        edges[i] = (struct khs_edge){
            .fpos = 40 * i, .opos = 40 * i, .pos = 40 * i, .blue = i % 9 == 0, .blue_fitted = i % 9 == 0 ? 64 * i : 0, .link = i ^ 1, .serif = KHS_NONE};
    }
    for (int32_t i = 0; i < POINTS; i++) {
        originals[i] = i % 100 * 7;
        currents[i] = originals[i] + 9;
        touched[i] = i % 3 == 0;
        fonts[i] = (int16_t)(i % 5300);
        weak_marks[i] = i % 7 == 0;
    }
    for (int32_t i = 0; i < POINTS / 4; i++) {
        ends[i] = (uint16_t)(4 * i + 3);
    }
    for (int32_t i = 0; i < STANDARDS; i++) {
        standards[i] = 30 * (i + 1);
    }
    for (size_t i = 0; i < sizeof line; i++) {
        line[i] = (uint8_t)(i < 6 ? "01FFFF"[i] : '0');
    }
}

/* The bytes below this frame that a call wrote to; what is nearest is the measure's own. */
__attribute__((noinline)) static size_t depth(uint8_t (*call)(void), uint8_t *answer) {
    volatile uint8_t *top = (volatile uint8_t *)__builtin_frame_address(0) - NEAR;
    for (volatile uint8_t *p = top - DEPTH; p < top; p++) {
        *p = PAINT;
    }
    *answer = call();
    volatile uint8_t *p = top - DEPTH;
    while (p < top && *p == PAINT) {
        p++;
    }
    return (size_t)(top - p) + NEAR;
}

int main(void) {
    for (size_t i = 0; i < sizeof calls / sizeof calls[0]; i++) {
        size_t most = 0;
        for (int choices = 0; choices < 16; choices++) {
            uint8_t answer;
            dim = choices & 1, group = choices >> 1 & 1, adjusted = choices >> 2 & 1, rule = choices >> 3;
            fill();
            size_t bytes = depth(calls[i].call, &answer);
            most = bytes > most ? bytes : most;
            if (answer != KHS_DONE) {
                printf("%s was refused by %d\n", calls[i].name, answer);
                return 1;
            }
        }
        printf("%-28s %7lu bytes, %3lu KiB\n", calls[i].name, (unsigned long)most, (unsigned long)(most + 1023) / 1024);
    }
    return 0;
}
