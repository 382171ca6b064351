/* FreeType's own routines on jobs of calls 3, 4, 105, 112, 122 and 129, for `./bench freetype`: weak points, CJK linking, building, its pass over edges, which is
   blue zones, stems, serifs and remaining edges in one function, and that pass with edge points, which snap, strong points and weak points in a row behind it.
   They are static: so the autofitter is compiled with this file, as FreeType compiles it.
   A job is taken to be on the vertical axis, with the thresholds of length and width that FreeType works out by itself and with widths kept, as FreeType keeps
   them where stems are not adjusted. All jobs are lent to one record of hints and one of metrics, which FreeType, too, keeps from glyph to glyph. */
#include "autofit.c"

#include <stdint.h>
#include <stdlib.h>

#include "khsaemudol.h"

enum { WEAK = 3, LINK = 4, BUILD = 105, STEMS = 112, JOINED = 122, FIT = 129 };

/* FreeType's hints and metrics, and the room for edges that are built. */
static union {
    AF_LatinMetricsRec latin;
    AF_CJKMetricsRec cjk;
} metrics;
static AF_GlyphHintsRec hints = {.metrics = &metrics.latin.root};
static AF_EdgeRec room[KHS_MOST_EDGES];
static const AF_AxisHints axis = &hints.axis[AF_DIMENSION_VERT];

/* A job: what the hints and metrics are set to, and of what the call changes how it was given. */
struct fit {
    int32_t call, group, units_per_em, scale, distance;
    AF_Direction major_dir;
    int num_points, num_contours, num_segments, num_edges;
    AF_Point points, *contours;
    AF_Segment segments;
    AF_Edge edges;
    AF_Width zones;
    AF_Point given_points;
    AF_Segment given_segments;
    AF_Edge given_edges;
};

/* FreeType's directions, by the words of ours. */
static const AF_Direction directions[] = {AF_DIR_NONE, AF_DIR_RIGHT, AF_DIR_LEFT, AF_DIR_UP, AF_DIR_DOWN};

/* The word of a direction. */
static int32_t direction_word(int direction) {
    int32_t word = 0;
    while (directions[word] != direction) word++;
    return word;
}

/* The record of a table that a link names, and the link that names a record. */
#define NAMED(table, link) ((link) == KHS_NONE ? NULL : (table) + (link))
#define LINK_TO(table, record) ((record) ? (int32_t)((record) - (table)) : KHS_NONE)

/* The next list of a job, whose elements have so many words, and its length; the words are then those behind it. */
static const int32_t *next_list(const int32_t **words, int size, int *count) {
    const int32_t *list = *words + 1;
    *count = **words;
    *words = list + *count * size;
    return list;
}

/* Takes points: originals, currents, touch marks and contour ends, and of a whole axis font positions in front and weak marks behind the touch marks. */
static void take_points(struct fit *fit, const int32_t *words) {
    const int whole = fit->call == FIT;
    const int32_t *fonts = whole ? next_list(&words, 1, &fit->num_points) : NULL;
    const int32_t *originals = next_list(&words, 1, &fit->num_points), *currents = next_list(&words, 1, &fit->num_points);
    const int32_t *touches = next_list(&words, 1, &fit->num_points), *weak = whole ? next_list(&words, 1, &fit->num_points) : NULL;
    const int32_t *ends = next_list(&words, 1, &fit->num_contours);
    AF_Point points = fit->points = calloc((size_t)fit->num_points, sizeof *points), given = fit->given_points = calloc((size_t)fit->num_points, sizeof *given);
    fit->contours = calloc((size_t)fit->num_contours, sizeof *fit->contours);
    for (int i = 0; i < fit->num_points; i++)
        given[i] = (AF_PointRec){
            .flags = (FT_UShort)((touches[i] ? AF_FLAG_TOUCH_Y : AF_FLAG_NONE) | (whole && weak[i] ? AF_FLAG_WEAK_INTERPOLATION : AF_FLAG_NONE)),
            .fy = (FT_Short)(whole ? fonts[i] : 0),
            .oy = originals[i],
            .y = currents[i],
            .next = points + i + 1,
            .prev = points + i - 1,
        };
    for (int i = 0, first = 0; i < fit->num_contours; first = ends[i++] + 1) {
        fit->contours[i] = points + first;
        given[first].prev = points + ends[i];
        given[ends[i]].next = points + first;
    }
}

/* Takes segments, and tells the words behind them. */
static const int32_t *take_segments(struct fit *fit, const int32_t *words) {
    const struct khs_segment *given = (const struct khs_segment *)next_list(&words, KHS_SEGMENT_WORDS, &fit->num_segments);
    fit->segments = calloc((size_t)fit->num_segments, sizeof *fit->segments);
    fit->given_segments = calloc((size_t)fit->num_segments, sizeof *fit->given_segments);
    for (int i = 0; i < fit->num_segments; i++)
        fit->given_segments[i] = (AF_SegmentRec){
            .flags = (FT_Byte)given[i].flags,
            .dir = (FT_Char)directions[given[i].dir],
            .pos = (FT_Short)given[i].pos,
            .delta = (FT_Short)given[i].delta,
            .min_coord = (FT_Short)given[i].min_coord,
            .max_coord = (FT_Short)given[i].max_coord,
            .height = (FT_Short)given[i].height,
            .score = given[i].score,
            .len = given[i].len,
            .link = NAMED(fit->segments, given[i].link),
            .serif = NAMED(fit->segments, given[i].serif),
        };
    return words;
}

/* Takes edges, each with a zone of its own where it has one, and tells the words behind them. */
static const int32_t *take_edges(struct fit *fit, const int32_t *words) {
    const struct khs_edge *given = (const struct khs_edge *)next_list(&words, KHS_EDGE_WORDS, &fit->num_edges);
    fit->edges = calloc((size_t)fit->num_edges, sizeof *fit->edges);
    fit->zones = calloc((size_t)fit->num_edges, sizeof *fit->zones);
    fit->given_edges = calloc((size_t)fit->num_edges, sizeof *fit->given_edges);
    for (int i = 0; i < fit->num_edges; i++) {
        fit->zones[i].fit = given[i].blue_fitted;
        fit->given_edges[i] = (AF_EdgeRec){
            .fpos = (FT_Short)given[i].fpos,
            .opos = given[i].opos,
            .pos = given[i].pos,
            .flags = (FT_Byte)given[i].flags,
            .dir = (FT_Char)directions[given[i].dir],
            .blue_edge = given[i].blue ? &fit->zones[i] : NULL,
            .link = NAMED(fit->edges, given[i].link),
            .serif = NAMED(fit->edges, given[i].serif),
        };
    }
    return words;
}

/* Takes a whole axis: segments, edges and points, each with what it names of the others. */
static void take_axis(struct fit *fit, const int32_t *words) {
    const struct khs_segment *segments = (const struct khs_segment *)(words + 1);
    words = take_segments(fit, words);
    const struct khs_edge *edges = (const struct khs_edge *)(words + 1);
    words = take_edges(fit, words);
    int count;
    fit->group = next_list(&words, 1, &count)[1];
    (void)next_list(&words, 1, &count);
    take_points(fit, words);
    for (int i = 0; i < fit->num_segments; i++) {
        fit->given_segments[i].first = fit->points + segments[i].first;
        fit->given_segments[i].last = fit->points + segments[i].last;
        fit->given_segments[i].edge = NAMED(fit->edges, segments[i].edge);
    }
    for (int i = 0; i < fit->num_edges; i++) {
        fit->given_edges[i].first = fit->segments + edges[i].first;
        fit->given_edges[i].last = fit->segments + edges[i].last;
    }
}

/* A job of these words. */
struct fit *fit_new(const int32_t *words) {
    struct fit *fit = calloc(1, sizeof *fit);
    fit->call = *words++;
    switch (fit->call) {
    case WEAK: take_points(fit, words); break;
    case LINK:
        words = take_segments(fit, words);
        fit->group = KHS_CJK;
        fit->major_dir = directions[words[0]];
        fit->units_per_em = words[1];
        fit->scale = words[2];
        break;
    case BUILD:
        /* behind the count of old edges, which are none: dimension, major direction, group, order, scale and distance */
        words = take_segments(fit, words) + 1;
        fit->major_dir = directions[words[1]];
        fit->group = words[2];
        fit->scale = words[4];
        fit->distance = words[5];
        break;
    case FIT: take_axis(fit, words); break;
    default:
        words = take_edges(fit, words);
        fit->group = words[1];
    }
    return fit;
}

void fit_free(struct fit *fit) {
    free(fit->points);
    free(fit->contours);
    free(fit->segments);
    free(fit->edges);
    free(fit->zones);
    free(fit->given_points);
    free(fit->given_segments);
    free(fit->given_edges);
    free(fit);
}

/* Sets anew what the call changes. */
void fit_restore(struct fit *fit) {
    if (fit->points) memcpy(fit->points, fit->given_points, (size_t)fit->num_points * sizeof *fit->points);
    if (fit->segments) memcpy(fit->segments, fit->given_segments, (size_t)fit->num_segments * sizeof *fit->segments);
    if (fit->edges) memcpy(fit->edges, fit->given_edges, (size_t)fit->num_edges * sizeof *fit->edges);
}

/* Lends the lists of a job to the hints, and sets what FreeType reads of a style: its group, its units per em, the scale and its edge distance. */
static void lend(const struct fit *fit) {
    hints.points = fit->points;
    hints.num_points = fit->num_points;
    hints.contours = fit->contours;
    hints.num_contours = fit->num_contours;
    hints.y_scale = fit->scale;
    axis->segments = fit->segments;
    axis->num_segments = fit->num_segments;
    axis->edges = fit->edges ? fit->edges : room;
    axis->num_edges = fit->num_edges;
    axis->max_edges = KHS_MOST_EDGES;
    axis->major_dir = fit->major_dir;
    metrics.latin.root.style_class = af_style_classes[fit->group == KHS_CJK ? AF_STYLE_HANI_DFLT : AF_STYLE_LATN_DFLT];
    if (fit->group == KHS_CJK) {
        metrics.cjk.units_per_em = (FT_UInt)fit->units_per_em;
        metrics.cjk.axis[AF_DIMENSION_VERT].edge_distance_threshold = fit->distance;
    } else {
        metrics.latin.axis[AF_DIMENSION_VERT].edge_distance_threshold = fit->distance;
    }
}

/* Calls FreeType's routine. */
void fit_work(struct fit *fit) {
    const int cjk = fit->group == KHS_CJK;
    lend(fit);
    switch (fit->call) {
    case WEAK: af_glyph_hints_align_weak_points(&hints, AF_DIMENSION_VERT); break;
    case LINK: af_cjk_hints_link_segments(&hints, AF_DIMENSION_VERT); break;
    case BUILD: (void)(cjk ? af_cjk_hints_compute_edges : af_latin_hints_compute_edges)(&hints, AF_DIMENSION_VERT); break;
    default: (cjk ? af_cjk_hint_edges : af_latin_hint_edges)(&hints, AF_DIMENSION_VERT);
    }
    if (fit->call == FIT) {
        af_glyph_hints_align_edge_points(&hints, AF_DIMENSION_VERT);
        af_glyph_hints_align_strong_points(&hints, AF_DIMENSION_VERT);
        af_glyph_hints_align_weak_points(&hints, AF_DIMENSION_VERT);
    }
}

/* Writes a list's count, and tells where its elements go. */
static int32_t *put_count(int32_t *out, int count) {
    *out = count;
    return out + 1;
}

static int32_t *put_points(int32_t *out) {
    out = put_count(out, hints.num_points);
    for (int i = 0; i < hints.num_points; i++) *out++ = (int32_t)hints.points[i].y;
    return out;
}

static int32_t *put_segments(int32_t *out) {
    struct khs_segment *put = (struct khs_segment *)put_count(out, axis->num_segments);
    for (AF_Segment from = axis->segments; from < axis->segments + axis->num_segments; from++)
        *put++ = (struct khs_segment){
            .flags = from->flags,
            .dir = direction_word(from->dir),
            .pos = from->pos,
            .delta = from->delta,
            .min_coord = from->min_coord,
            .max_coord = from->max_coord,
            .height = from->height,
            .score = (int32_t)from->score,
            .len = (int32_t)from->len,
            .link = LINK_TO(axis->segments, from->link),
            .serif = LINK_TO(axis->segments, from->serif),
            .edge = LINK_TO(axis->edges, from->edge),
            .next = LINK_TO(axis->segments, from->edge_next),
        };
    return (int32_t *)put;
}

static int32_t *put_edges(int32_t *out) {
    struct khs_edge *put = (struct khs_edge *)put_count(out, axis->num_edges);
    for (AF_Edge from = axis->edges; from < axis->edges + axis->num_edges; from++)
        *put++ = (struct khs_edge){
            .fpos = from->fpos,
            .opos = (int32_t)from->opos,
            .pos = (int32_t)from->pos,
            .flags = from->flags,
            .dir = direction_word(from->dir),
            .blue = from->blue_edge != NULL,
            .blue_fitted = from->blue_edge ? (int32_t)from->blue_edge->fit : 0,
            .link = LINK_TO(axis->edges, from->link),
            .serif = LINK_TO(axis->edges, from->serif),
            .first = from->first ? (int32_t)(from->first - axis->segments) : 0,
            .last = from->last ? (int32_t)(from->last - axis->segments) : 0,
        };
    return (int32_t *)put;
}

/* Writes the lists that the call left, the last that was made, as the words of an answer have them, without points of segments and marks of edges; tells how many words they are. */
size_t fit_lists(struct fit *fit, int32_t *out) {
    int32_t *end = out;
    switch (fit->call) {
    case WEAK: end = put_points(end); break;
    case LINK: end = put_segments(end); break;
    case BUILD: end = put_edges(put_segments(end)); break;
    case FIT: end = put_points(put_edges(end)); break;
    default: end = put_edges(end);
    }
    return (size_t)(end - out);
}
