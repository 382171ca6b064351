/* Answers job lines, as the program `replay` does, by the library's C functions, as a gateway calls them: reads lines from standard input, and writes a line for
 * each to standard output. A job is words of eight upper-case hexadecimal digits: the number of a call, and what it is given. The answer to a line that is no
 * job is the word -1, which is told here, before any call. Every list of length 0 is passed as NULL, and a path has just the room that it asks for. C99, nothing but
 * stdio and memcpy, and no allocation, so that it runs on bare boards too. */
#include "khsaemudol.h"

#include <stdio.h>
#include <string.h>

enum {
    MOST_WORDS = 66576,  /* of a line; no job is as long */
    MOST_NUMBERS = 8191, /* in a list of a job */
    MOST_LENT = 160,     /* edges in a lent list of a job */
    MOST_FRAMED = 255,   /* points of a frame, and contours */
    MOST_INDEX = 65535,
    NOT_A_JOB = -1
};

/* What each call's job holds behind the call's number, NULL where that is no call: w a word, i an index, l an index or none, c a choice, d a direction, k a cursor; lists
 * with their counts in front: N numbers, H 16-bit numbers, B bytes, I indices, S segments, E edges, L lent edges. */
static const char *const formats[] = {
    [1] = "ww",           /* compute_mid_pos: min, max */
    [2] = "ww",           /* compute_mid_delta: min, max */
    [3] = "NNBI",         /* align_weak_points: originals, currents, touch marks, contour ends */
    [4] = "Sdww",         /* link_segments_cjk: segments, major direction, units per em, scale */
    [15] = "NNBI",        /* path: x coordinates, y coordinates, on-curve marks, contour ends */
    [16] = "NNBIk",       /* path_step: the same, cursor */
    [17] = "NNBIIIB",     /* align_catalogue: outlines as of align_weak_points, point counts, contour counts, answers */
    [18] = "BIII",        /* remember_references: touch marks, contour ends, the list: before, behind */
    [19] = "NNBIII",      /* align_with_references: an outline as of align_weak_points, the list */
    [20] = "NNBIi",       /* drag_point: an outline as of align_weak_points, point */
    [25] = "NNBIB",       /* write_frame: an outline as of align_weak_points, line */
    [26] = "B",           /* read_frame: line */
    [105] = "SEcdccwwww", /* compute_edges: segments, old edges, dimension, major direction, group, top to bottom, scale, thresholds */
    [106] = "EcccN",      /* align_edges_to_blues: edges, dimension, group, width rule */
    [107] = "EcNii",      /* align_linked_edge: edges, width rule, base, stem */
    [108] = "Eii",        /* align_serif_edge: edges, base, serif */
    [109] = "Eicc",       /* adjust_link: edges, edge, neighbour, top to bottom */
    [110] = "Ei",         /* latin_remaining_bounds: edges, edge */
    [111] = "EcccNiiw",   /* hint_normal_stem_cjk: edges, dimension, stem adjust, width rule, edge, second edge, delta */
    [112] = "EcccclcN",   /* align_stem_edges: edges, dimension, group, stem adjust, top to bottom, anchor, width rule */
    [113] = "Ec",         /* hint_lowercase_m, table form: edges, group */
    [114] = "Lc",         /* hint_lowercase_m, lent list: edges, group */
    [122] = "EcccccN",    /* align_blues_and_stems: edges, dimension, group, stem adjust, top to bottom, width rule */
    [121] = "SE",         /* mend: segments, edges */
    [123] = "SE",         /* pack_axis: segments, edges */
    [124] = "SE",         /* turn_over: segments, edges */
    [127] = "Ewc",        /* lost_gaps: edges, least width, linked */
    [128] = "SEccNBI",    /* align_edge_points: segments, edges, snap, done alone, currents, touch marks, contour ends */
    [129] = "SENNHNNBBI", /* fit_axis: segments, edges, numbers, standards, font positions, originals, currents, touch marks, weak marks, contour ends */
    [130] = "Eccil",      /* align_remaining_edges: edges, dimension, group, count, anchor */
    [131] = "EHNNBB",     /* align_strong_points: edges, font positions, originals, currents, touch marks, weak marks */
    [132] = "NNBIw"       /* count_shown: x coordinates, y coordinates, on-curve marks, contour ends, magnify */
};
enum { CALLS = sizeof formats / sizeof formats[0], MOST_ITEMS = 10 };

/* The words of an edge and of a segment: s is a 16-bit number, f flags, m a mark, the others as in a format. */
static const char edge_words[KHS_EDGE_WORDS + 1] = "swwfdcwlliim", segment_words[KHS_SEGMENT_WORDS + 1] = "fdssssswwlliill";
enum { EDGE_BLUE = 5, EDGE_FITTED = 6 };
/* The numbers of a fit, in the same way: a job has just these in their list. */
static const char fit_words[KHS_FIT_WORDS + 1] = "cccccccwc";
enum { FIT = 129, FIT_NUMBERS = 2 };

/* A list of a job: its count as the job has it, and the words that the job carries of it. */
struct list {
    int32_t count;
    int32_t *words;
    size_t size;
};

/* A job: its call, and its numbers and lists, each in the job's order. */
struct job {
    int32_t call;
    int32_t number[MOST_ITEMS];
    struct list list[MOST_ITEMS];
};

/* The words of the line that is read. */
static int32_t line[MOST_WORDS];

/* The most steps of a path, and the floats of one. */
enum { MOST_STEPS = 12288, STEP_FLOATS = 4 };

/* The answer's words, with room for any: the longest is that of a path. */
static int32_t answer[2 + (1 + STEP_FLOATS) * MOST_STEPS];
static size_t answered;

/* The table that a call is lent: the job's, and room for one record more. */
static int32_t table[KHS_SEGMENT_WORDS * (KHS_MOST_SEGMENTS + 1)];

/* A list as it is passed, pointer and length: NULL where it is empty. */
#define LIST(pointer, len) ((len) > 0 ? (pointer) : NULL), (len)
/* A list of a job, its words or what they were read into. */
#define WORDS(list) LIST((list).words, (list).size)
#define READ(pointer, list) LIST(pointer, (list).size)

/* Whether a word is one of a field's values. */
static int is_field(char kind, int32_t word)
{
    switch (kind) {
    case 'w': case 'N': return 1;
    case 's': case 'H': return -32768 <= word && word <= 32767;
    case 'i': case 'I': return 0 <= word && word <= MOST_INDEX;
    case 'l': return KHS_NONE <= word && word <= MOST_INDEX;
    case 'c': return word == 0 || word == 1;
    case 'k': return 0 <= word;
    case 'd': return KHS_DIR_NONE <= word && word <= KHS_DIR_DOWN;
    case 'f': return 0 <= word && word <= 15;
    case 'm': return KHS_MARK_NOTHING <= word && word <= KHS_MARK_REMAINING_ANCHOR;
    case 'B': return 0 <= word && word <= 255;
    default: return 0;
    }
}

/* Whether the words of a record are those of its fields. */
static int is_record(const char *kinds, const int32_t *words)
{
    for (size_t i = 0; kinds[i] != '\0'; i++) {
        if (!is_field(kinds[i], words[i]))
            return 0;
    }
    return kinds != edge_words || words[EDGE_BLUE] == 1 || words[EDGE_FITTED] == 0;
}

/* Reads the list of a kind at the head of some words, and tells how many it takes, or 0 where it is none. */
static size_t read_list(char kind, int32_t *words, size_t len, struct list *list)
{
    const char *record = kind == 'S' ? segment_words : kind == 'E' || kind == 'L' ? edge_words : NULL;
    int32_t most = kind == 'L' ? MOST_LENT : record ? MOST_INDEX : MOST_NUMBERS;
    size_t carried = kind == 'S' ? KHS_MOST_SEGMENTS : kind == 'E' ? KHS_MOST_EDGES : MOST_NUMBERS;
    size_t size = record ? strlen(record) : 1;
    if (len == 0 || words[0] < 0 || words[0] > most)
        return 0;
    if ((size_t)words[0] < carried)
        carried = (size_t)words[0];
    list->count = words[0];
    list->words = words + 1;
    list->size = carried * size;
    if (len - 1 < list->size)
        return 0;
    for (size_t i = 0; i < list->size; i += size) {
        if (record ? !is_record(record, list->words + i) : !is_field(kind, list->words[i]))
            return 0;
    }
    return 1 + list->size;
}

/* Whether a list is that of a fit's numbers. */
static int are_fit_numbers(const struct list *list)
{
    return list->count == KHS_FIT_WORDS && is_record(fit_words, list->words);
}

/* Reads a job from its words; 0 where they are none. */
static int read_job(int32_t *words, size_t len, struct job *job)
{
    if (len == 0 || words[0] < 1 || words[0] >= CALLS || !formats[words[0]])
        return 0;
    job->call = words[0];
    size_t at = 1, numbers = 0, lists = 0;
    for (const char *kind = formats[job->call]; *kind != '\0'; kind++) {
        if (strchr("NHBISEL", *kind)) {
            size_t taken = read_list(*kind, words + at, len - at, &job->list[lists++]);
            if (taken == 0)
                return 0;
            at += taken;
        } else {
            if (at == len || !is_field(*kind, words[at]))
                return 0;
            job->number[numbers++] = words[at++];
        }
    }
    return at == len && (job->call != FIT || are_fit_numbers(&job->list[FIT_NUMBERS]));
}

static void say(int32_t word)
{
    answer[answered++] = word;
}

/* Says a count and words. */
static void say_list(int32_t count, const int32_t *words, size_t len)
{
    say(count);
    memcpy(answer + answered, words, len * sizeof *words);
    answered += len;
}

/* Says a count and bytes. */
static void say_bytes(const uint8_t *bytes, size_t len)
{
    say((int32_t)len);
    for (size_t i = 0; i < len; i++)
        say(bytes[i]);
}

/* Says a count and indices. */
static void say_indices(const uint16_t *indices, size_t len)
{
    say((int32_t)len);
    for (size_t i = 0; i < len; i++)
        say(indices[i]);
}

/* Fills the table with that of a job, whose records have a size, and tells its length: of more records than its limit it has one more than that, which is empty. */
static khs_length lend(const struct list *list, size_t size, size_t most)
{
    size_t records = (size_t)list->count > most ? most + 1 : (size_t)list->count;
    memset(table, 0, sizeof table);
    memcpy(table, list->words, list->size * sizeof *table);
    return records * size;
}

/* The marks and the contour ends of an outline, which have types of their own, as counts and answers have. */
static uint8_t marks[MOST_NUMBERS];
static uint16_t ends[MOST_NUMBERS];

static void read_bytes(const struct list *list, uint8_t *bytes)
{
    for (size_t i = 0; i < list->size; i++)
        bytes[i] = (uint8_t)list->words[i];
}

static void read_indices(const struct list *list, uint16_t *indices)
{
    for (size_t i = 0; i < list->size; i++)
        indices[i] = (uint16_t)list->words[i];
}

/* Weak points. */
static void answer_weak(const struct job *job)
{
    const struct list *list = job->list;
    say(khs_align_weak_points(WORDS(list[0]), WORDS(list[1]), READ(marks, list[2]), READ(ends, list[3])));
    say_list(list[1].count, list[1].words, list[1].size);
}

/* The list beside an outline. */
static uint16_t before[MOST_NUMBERS], behind[MOST_NUMBERS];

/* Remembering references, whose job has no coordinates. */
static void answer_remember(const struct job *job)
{
    const struct list *list = job->list;
    read_bytes(&list[0], marks);
    read_indices(&list[1], ends);
    read_indices(&list[2], before);
    read_indices(&list[3], behind);
    say(khs_remember_references(READ(marks, list[0]), READ(ends, list[1]), READ(before, list[2]), READ(behind, list[3])));
    say_indices(before, list[2].size);
    say_indices(behind, list[3].size);
}

/* Weak points with the list. */
static void answer_with(const struct job *job)
{
    const struct list *list = job->list;
    read_indices(&list[4], before);
    read_indices(&list[5], behind);
    say(khs_align_with_references(WORDS(list[0]), WORDS(list[1]), READ(marks, list[2]), READ(ends, list[3]), READ(before, list[4]), READ(behind, list[5])));
    say_list(list[1].count, list[1].words, list[1].size);
}

/* One point dragged. */
static void answer_drag(const struct job *job)
{
    const struct list *list = job->list;
    say(khs_drag_point(WORDS(list[0]), WORDS(list[1]), READ(marks, list[2]), READ(ends, list[3]), (uint32_t)job->number[0]));
    say_list(list[1].count, list[1].words, list[1].size);
}

/* Says floats, by their bits. */
static void say_floats(const float *floats, size_t len)
{
    memcpy(answer + answered, floats, len * sizeof *floats);
    answered += len;
}

/* The floats of a step's places. */
static size_t floats_of(uint8_t kind)
{
    return kind == KHS_CURVE ? 4 : kind == KHS_MOVE || kind == KHS_LINE ? 2 : 0;
}

/* A whole path, in the room that its lists ask for. */
static void answer_path(const struct job *job)
{
    static uint8_t kinds[3 * MOST_NUMBERS];
    static float places[sizeof kinds * STEP_FLOATS];
    const struct list *list = job->list;
    size_t room = list[0].size + 2 * list[3].size;
    uint32_t count = 0;
    say(khs_path(WORDS(list[0]), WORDS(list[1]), READ(marks, list[2]), READ(ends, list[3]), LIST(kinds, room), LIST(places, STEP_FLOATS * room), &count));
    say((int32_t)count);
    for (size_t i = 0; i < count; i++) {
        say(kinds[i]);
        say_floats(places + STEP_FLOATS * i, floats_of(kinds[i]));
    }
}

/* One step of a path. */
static void answer_step(const struct job *job)
{
    const struct list *list = job->list;
    uint8_t kind = KHS_FINISHED;
    float places[STEP_FLOATS] = {0, 0, 0, 0};
    uint32_t next = (uint32_t)job->number[0];
    say(khs_path_step(WORDS(list[0]), WORDS(list[1]), READ(marks, list[2]), READ(ends, list[3]), next, &kind, places, &next));
    say(kind);
    say_floats(places, STEP_FLOATS);
    say((int32_t)next);
}

/* A catalogue. */
static void answer_catalogue(const struct job *job)
{
    static uint8_t answers[MOST_NUMBERS];
    static uint16_t points[MOST_NUMBERS], contours[MOST_NUMBERS];
    const struct list *list = job->list;
    read_indices(&list[4], points);
    read_indices(&list[5], contours);
    read_bytes(&list[6], answers);
    say(khs_align_catalogue(WORDS(list[0]), WORDS(list[1]), READ(marks, list[2]), READ(ends, list[3]), READ(points, list[4]), READ(contours, list[5]),
                            READ(answers, list[6])));
    say_list(list[1].count, list[1].words, list[1].size);
    say_bytes(answers, list[6].size);
}

/* The line of a frame. */
static uint8_t frame[MOST_NUMBERS];

/* Writing a frame. */
static void answer_write(const struct job *job)
{
    const struct list *list = job->list;
    uint32_t count = 0;
    read_bytes(&list[4], frame);
    say(khs_write_frame(WORDS(list[0]), WORDS(list[1]), READ(marks, list[2]), READ(ends, list[3]), READ(frame, list[4]), &count));
    say((int32_t)count);
    say_bytes(frame, list[4].size);
}

/* What is shown. */
static void answer_shown(const struct job *job)
{
    const struct list *list = job->list;
    uint32_t black = 0;
    int32_t euler = 0;
    say(khs_count_shown(WORDS(list[0]), WORDS(list[1]), READ(marks, list[2]), READ(ends, list[3]), job->number[0], &black, &euler));
    say((int32_t)black);
    say(euler);
}

/* The calls over outlines. */
static void answer_outline(const struct job *job)
{
    read_bytes(&job->list[2], marks);
    read_indices(&job->list[3], ends);
    switch (job->call) {
    case 3: answer_weak(job); break;
    case 15: answer_path(job); break;
    case 16: answer_step(job); break;
    case 19: answer_with(job); break;
    case 20: answer_drag(job); break;
    case 25: answer_write(job); break;
    case 132: answer_shown(job); break;
    default: answer_catalogue(job);
    }
}

/* Reading a frame. */
static void answer_read(const struct job *job)
{
    static int32_t originals[MOST_FRAMED], currents[MOST_FRAMED];
    const struct list *list = job->list;
    uint32_t points = 0, contours = 0;
    read_bytes(&list[0], frame);
    say(khs_read_frame(READ(frame, list[0]), originals, MOST_FRAMED, currents, MOST_FRAMED, marks, MOST_FRAMED, ends, MOST_FRAMED, &points, &contours));
    say_list((int32_t)points, originals, points);
    say_list((int32_t)points, currents, points);
    say_bytes(marks, points);
    say_indices(ends, contours);
}

/* Linking and building. Building has no old table in C: one that is too long is refused here, and what a refusal leaves is handed back. */
static void answer_segments(const struct job *job)
{
    static int32_t edges[KHS_EDGE_WORDS * KHS_MOST_EDGES];
    const int32_t *n = job->number;
    const struct list *segments = &job->list[0], *old = &job->list[1];
    khs_length len = lend(segments, KHS_SEGMENT_WORDS, KHS_MOST_SEGMENTS);
    if (job->call == 4) {
        say(khs_link_segments_cjk(LIST(table, len), n[0], n[1], n[2]));
        say_list(segments->count, table, segments->size);
        return;
    }
    int32_t count = old->count;
    memcpy(edges, old->words, old->size * sizeof *edges);
    say(old->count > KHS_MOST_EDGES ? KHS_TOO_LONG : khs_compute_edges(LIST(table, len), edges, KHS_EDGE_WORDS * KHS_MOST_EDGES, n[0], n[1], n[2], n[3], n[4], n[5], n[6], n[7], &count));
    say_list(segments->count, table, segments->size);
    say_list(count, edges, KHS_EDGE_WORDS * (size_t)(count > KHS_MOST_EDGES ? KHS_MOST_EDGES : count));
}

/* The edges of an axis, whose segments are in the table. */
static int32_t axis_edges[KHS_EDGE_WORDS * (KHS_MOST_EDGES + 1)];

/* Fills both with the lists of a job, and tells their lengths: a list of edges that is too long has one edge more than its limit, too. */
static void lend_axis(const struct job *job, khs_length *len, khs_length *edges_len)
{
    *edges_len = lend(&job->list[1], KHS_EDGE_WORDS, KHS_MOST_EDGES);
    memcpy(axis_edges, table, sizeof axis_edges);
    *len = lend(&job->list[0], KHS_SEGMENT_WORDS, KHS_MOST_SEGMENTS);
}

/* Edge points, whose lists stand behind those of the axis. */
static void answer_edge_points(const struct job *job)
{
    const struct list *list = job->list;
    khs_length len, edges_len;
    lend_axis(job, &len, &edges_len);
    read_bytes(&list[3], marks);
    read_indices(&list[4], ends);
    say(khs_align_edge_points(LIST(table, len), LIST(axis_edges, edges_len), job->number[0], job->number[1], WORDS(list[2]), READ(marks, list[3]), READ(ends, list[4])));
    say_list(list[2].count, list[2].words, list[2].size);
    say_bytes(marks, list[3].size);
}

/* The calls that write an axis. Of segments that are left out the places are said behind the edges. */
static void answer_axis(const struct job *job)
{
    static int32_t altered[KHS_ALTERATION_WORDS * KHS_MOST_ALTERED];
    const struct list *given = &job->list[1], *segments = &job->list[0];
    khs_length len, edges_len;
    lend_axis(job, &len, &edges_len);
    int32_t kept = segments->count, alterations = 0;
    switch (job->call) {
    case 121: say(khs_mend(LIST(table, len), LIST(axis_edges, edges_len), altered, KHS_ALTERATION_WORDS * KHS_MOST_ALTERED, &alterations)); break;
    case 123: say(khs_pack_axis(LIST(table, len), LIST(axis_edges, edges_len), &kept)); break;
    default: say(khs_turn_over(LIST(table, len), LIST(axis_edges, edges_len)));
    }
    size_t freed = KHS_SEGMENT_WORDS * (size_t)(segments->count - kept), front = segments->size - freed;
    say_list(kept, table, front);
    say_list(given->count, axis_edges, given->size);
    if (job->call == 121)
        say_list(alterations, altered, KHS_ALTERATION_WORDS * (size_t)alterations);
    if (job->call == 123)
        say_list(segments->count - kept, table + front, freed);
}

/* The font positions and the weak marks of points. */
static int16_t fonts[MOST_NUMBERS];
static uint8_t weak[MOST_NUMBERS];

static void read_fonts(const struct list *list)
{
    for (size_t i = 0; i < list->size; i++)
        fonts[i] = (int16_t)list->words[i];
}

/* Fitting an axis, whose numbers and lists of points stand behind it. */
static void answer_fit(const struct job *job)
{
    const struct list *list = job->list;
    int32_t fitted[KHS_FITTED_WORDS] = {0, 0, 0, KHS_NONE, KHS_NONE, 0, 0, 0, KHS_NONE};
    khs_length len, edges_len;
    lend_axis(job, &len, &edges_len);
    read_fonts(&list[4]);
    read_bytes(&list[7], marks);
    read_bytes(&list[8], weak);
    read_indices(&list[9], ends);
    say(khs_fit_axis(LIST(table, len), LIST(axis_edges, edges_len), WORDS(list[FIT_NUMBERS]), WORDS(list[3]), READ(fonts, list[4]), WORDS(list[5]), WORDS(list[6]), READ(marks, list[7]),
                     READ(weak, list[8]), READ(ends, list[9]), fitted, KHS_FITTED_WORDS));
    for (size_t i = 0; i < KHS_FITTED_WORDS; i++)
        say(fitted[i]);
    say_list(list[1].count, axis_edges, list[1].size);
    say_list(list[6].count, list[6].words, list[6].size);
    say_bytes(marks, list[7].size);
}

/* Strong points, whose answer has no edges. */
static void answer_strong(const struct job *job)
{
    const struct list *list = job->list;
    khs_length len = lend(&list[0], KHS_EDGE_WORDS, KHS_MOST_EDGES);
    read_fonts(&list[1]);
    read_bytes(&list[4], marks);
    read_bytes(&list[5], weak);
    say(khs_align_strong_points(LIST(table, len), READ(fonts, list[1]), WORDS(list[2]), WORDS(list[3]), READ(marks, list[4]), READ(weak, list[5])));
    say_list(list[3].count, list[3].words, list[3].size);
    say_bytes(marks, list[4].size);
}

/* The guard, whose answer has no edges. */
static void answer_gaps(const struct job *job)
{
    khs_length len = lend(&job->list[0], KHS_EDGE_WORDS, KHS_MOST_EDGES);
    int32_t count = 0, first = KHS_NONE, second = KHS_NONE, before = 0, after = 0, stems = 0, not_done = 0;
    say(khs_lost_gaps(LIST(table, len), job->number[0], job->number[1], &count, &first, &second, &before, &after, &stems, &not_done));
    say(count);
    say(first);
    say(second);
    say(before);
    say(after);
    say(stems);
    say(not_done);
}

/* The calls over edges. What they hand back beside stands between their number and the edges. */
static void answer_edges(const struct job *job)
{
    const int32_t *n = job->number;
    const struct list *edges = &job->list[0], *standards = &job->list[1];
    khs_length len = lend(edges, KHS_EDGE_WORDS, job->call == 114 ? MOST_LENT : KHS_MOST_EDGES);
    int32_t number = 0, index = KHS_NONE, second = KHS_NONE;
    switch (job->call) {
    case 106:
        say(khs_align_edges_to_blues(LIST(table, len), n[0], n[1], n[2], WORDS(*standards), &index));
        say(index);
        break;
    case 107:
        say(khs_align_linked_edge(LIST(table, len), n[0], WORDS(*standards), n[1], n[2]));
        break;
    case 108:
        say(khs_align_serif_edge(LIST(table, len), n[0], n[1]));
        break;
    case 109:
        say(khs_adjust_link(LIST(table, len), n[0], n[1], n[2]));
        break;
    case 110:
        say(khs_latin_remaining_bounds(LIST(table, len), n[0], &index, &second));
        say(index);
        say(second);
        return;
    case 111:
        say(khs_hint_normal_stem_cjk(LIST(table, len), n[0], n[1], n[2], WORDS(*standards), n[3], n[4], n[5], &number));
        say(number);
        break;
    case 112:
        say(khs_align_stem_edges(LIST(table, len), n[0], n[1], n[2], n[3], n[4], n[5], WORDS(*standards), &number, &index));
        say(number);
        say(index);
        break;
    case 122:
        say(khs_align_blues_and_stems(LIST(table, len), n[0], n[1], n[2], n[3], n[4], WORDS(*standards), &number, &index));
        say(number);
        say(index);
        break;
    case 130:
        say(khs_align_remaining_edges(LIST(table, len), n[0], n[1], n[2], n[3], &index));
        say(index);
        break;
    default:
        say(khs_hint_lowercase_m(LIST(table, len), n[0]));
    }
    say_list(edges->count, table, edges->size);
}

/* Answers the first words of the line. */
static void answer_line(size_t len)
{
    struct job job;
    answered = 0;
    if (!read_job(line, len, &job)) {
        say(NOT_A_JOB);
        return;
    }
    switch (job.call) {
    case 1:
    case 2:
        say(KHS_DONE);
        say((job.call == 1 ? khs_compute_mid_pos : khs_compute_mid_delta)(job.number[0], job.number[1]));
        break;
    case 3:
    case 15:
    case 16:
    case 17:
    case 19:
    case 20:
    case 25:
    case 132: answer_outline(&job); break;
    case 18: answer_remember(&job); break;
    case 26: answer_read(&job); break;
    case 4:
    case 105: answer_segments(&job); break;
    case 121:
    case 123:
    case 124: answer_axis(&job); break;
    case 127: answer_gaps(&job); break;
    case 128: answer_edge_points(&job); break;
    case FIT: answer_fit(&job); break;
    case 131: answer_strong(&job); break;
    default: answer_edges(&job);
    }
}

/* Reads a line, and tells how many words it has: 0 where it is not words, or too long. Hands back -1 at the end of the input. */
static long read_line(void)
{
    static const char digits[] = "0123456789ABCDEF";
    uint32_t word = 0;
    long count = 0;
    int broken = 0, c = getchar();
    if (c == EOF)
        return -1;
    for (; c != EOF && c != '\n'; c = getchar()) {
        const char *digit = c == '\0' ? NULL : strchr(digits, c);
        if (!digit || count == 8L * MOST_WORDS) {
            broken = 1;
            continue;
        }
        word = word << 4 | (uint32_t)(digit - digits);
        if (++count % 8 == 0)
            line[count / 8 - 1] = (int32_t)word;
    }
    return broken || count % 8 != 0 ? 0 : count / 8;
}

int main(void)
{
    for (long len = read_line(); len >= 0; len = read_line()) {
        answer_line((size_t)len);
        for (size_t i = 0; i < answered; i++)
            printf("%08lX", (unsigned long)(uint32_t)answer[i]);
        putchar('\n');
    }
    return fflush(stdout) != 0;
}
