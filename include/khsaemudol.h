/* Khsaemudol: a grid-fitter whose every answer is proved. The calls of the static library libkhsaemudol.a, for C99 and later, and for C++. A program is linked by
 * `cc program.c libkhsaemudol.a`, with nothing else on Linux.
 *
 * Versions. KHS_VERSION is the release of this header and khs_version() that of the archive, each major * 10,000 + minor * 100 + patch. A program asks khs_version_fits() once, at
 * its start, whether it was compiled with a header for which the archive is good: a linker does not tell. Between two releases
 *   - of the same major and minor number nothing differs that a caller was promised: no declaration, and no answer or result of what this header gives;
 *   - of the same major number the later one may have more: calls, answers, marks, names. What was there keeps its name, its parameters, its words and its results, so a program goes with
 *     an archive of its header's release or a later one without being compiled anew. Take an answer that you do not know for a refusal, and a mark for none that you handle;
 *   - of another major number anything may differ. Read CHANGELOG.md, and compile anew.
 *
 * Units. Lengths and positions "in units" are 26.6: 64 units make a pixel. Font positions are whole design units. A scale is 16.16 and takes design units to
 * units: it is pixels per em * 64 * 65,536 / units per em, reckoned in 64 bits; its fraction may be dropped or rounded, for all calls alike. A position p comes to
 * p * scale / 65,536 units, to the nearest, halves away from zero. So building scales its edges, and so the caller scales points, else the two do not meet:
 *     int64_t product = (int64_t)p * scale;
 *     int32_t units = (int32_t)(product < 0 ? -((32768 - product) / 65536) : (product + 32768) / 65536);
 *
 * Axes. An outline is fitted one axis at a time. On the vertical axis positions are heights (y), segments run right or left, and a stem is a bar; on the
 * horizontal axis positions are x, segments run up or down, and a stem is upright. The major direction is the one in which the lower or left side of a stem
 * runs: linking takes a segment of that direction for the first side of a stem, and one of the opposite direction above or right of it for the second. With y
 * upward and outer contours that go clockwise it is KHS_DIR_LEFT on the vertical axis and KHS_DIR_UP on the horizontal one; counter-clockwise the opposite.
 *
 * The chain. An axis of a glyph goes through the calls so. Steps 4 to 6 are one call, khs_fit_axis: the calls that it is made of are for who wants to look in between, or to
 * choose otherwise than it does.
 *   1. The caller finds the segments, and begins each with KHS_SEGMENT_INIT. khs_link_segments_cjk links those of KHS_CJK. Those of KHS_LATIN the caller links: the two sides of a stem
 *      name each other by link, with serif KHS_NONE; a serif has link KHS_NONE and names by serif the segment that it is a serif of.
 *   2. khs_compute_edges makes edges of them, without blue zones; a segment's edge tells which is its own.
 *   3. The caller gives edges their zones: blue, blue_fitted, and KHS_FLAG_NEUTRAL where a zone is neutral. A blue zone is a height that glyphs of a font share,
 *      as their foot or their head, and comes to blue_fitted, which the caller chooses; a neutral one gives way to a zone on the other side of the stem. Edges of
 *      KHS_LATIN have none on the horizontal axis.
 *   4. khs_align_blues_and_stems puts edges on their zones, and places the stems, beginning with the anchor that the zones give. It is khs_align_edges_to_blues and
 *      khs_align_stem_edges in a row, for who wants to look in between. khs_hint_lowercase_m evens out an m, on its horizontal axis.
 *      khs_lost_gaps then tells whether a gap or a stem between two placed edges is lost to the display, turned or without a row of pixels, as it can happen where few
 *      pixels are left. Show such a glyph at another size, or fitted with KHS_SNAP in place of KHS_KEEP: the unfitted outline was more often worse than
 *      better, where that was looked at.
 *   5. An edge without KHS_FLAG_DONE has not been placed: serifs, single edges, CJK stems that stand too close. khs_align_remaining_edges places them, by the count and the
 *      anchor that the stems handed back; the Rust code of which this is a port calls it where that count is not 0 or there is no anchor, and where both are otherwise it changes
 *      nothing. It may turn edges: ask khs_lost_gaps behind it rather than in front, with least 0 and linked 0, where the order is to be kept. A caller may leave such
 *      an edge instead, and its points to step 6, or place it by khs_align_serif_edge and khs_adjust_link or as it likes, and set its flag, by flags |= KHS_FLAG_DONE.
 *   6. khs_align_edge_points moves the points of every segment to its edge's pos, and touches them: those of all edges behind khs_align_remaining_edges, which places edges of
 *      KHS_CJK that are not done then; else those of done edges alone. khs_align_strong_points moves those that are not touched now and not weak by the edges around them, and
 *      touches them; left out, they go with the weak ones, which breaks slanted strokes where few pixels are left.
 *      khs_align_weak_points moves the points that are not touched then, and khs_align_catalogue those of many outlines at once. Where one touched point is moved by hand
 *      afterwards, khs_drag_point moves those that depend on it.
 *   7. When both axes are fitted, khs_count_shown tells what the pixels will look like: pieces less holes. Show the glyph where that number is the one that you keep for the
 *      character, and else the same with KHS_KEEP, unfitted or a pixel larger, whichever has the number first. khs_path makes the path for a rasteriser, in pixels.
 * Edges stand by rising positions. Tables that were built and saved the other way, from top to bottom, go through khs_turn_over once. Saved axes with indices of
 * records that are gone, or with rings that do not close, go through khs_mend first: khs_turn_over and khs_pack_axis, which drops
 * the segments that serve no edge before an axis is sent, take what that hands on.
 *
 * Advance widths. Fitting moves the left side of a glyph by pos - opos of the first edge of its horizontal axis, and its right side by that of the last: these four numbers are what the
 * Rust code of which this is a port hands back as EdgeMetrics. With two edges or more, left and right, in units, are where the glyph's own place in the line then begins and ends, in whole
 * pixels, as FreeType takes them; advance is its scaled advance width:
 *     int32_t left = first.pos - first.opos - (first.opos < 24 ? 8 : 0), behind = advance - last.opos;
 *     int32_t right = last.pos + behind + (behind < 24 ? 8 : 0);
 *     left = (left + 32) & -64;
 *     right = (right + 32) & -64;
 *     if (left >= first.pos && first.opos > 0) left -= 64;
 *     if (right <= last.pos && behind > 0) right += 64;
 * With fewer edges left is 0 and right (advance + 32) & -64, and so of glyphs of KHS_CJK, of fonts whose glyphs have one width, and of figures of one width. Subtract left from every x;
 * the advance width is right - left. An advance of 0 stays 0.
 *
 * An example: a bar from 0 to 80 of 1,000 design units to the em, at 12 pixels to the em, whose foot has a zone at 0; it goes clockwise, its upper side runs over the
 * contour's start, and its point 1 lies at 40 between the sides. It leaves 64 32 0 0 64 in currents. In the repository examples/fit.c fits a figure 3 so, and examples/three.c
 * by the calls one by one.
 *     if (!khs_version_fits()) return 1;
 *     int32_t scale = (int32_t)((int64_t)12 * 64 * 65536 / 1000), standards[1] = {64}, count;
 *     struct khs_segment segments[2] = {
 *         {0, KHS_DIR_RIGHT, 80, 0, 10, 200, 190, 32000, 0, 1, KHS_NONE, 4, 0, KHS_NONE, KHS_NONE},
 *         {0, KHS_DIR_LEFT, 0, 0, 10, 200, 190, 32000, 0, 0, KHS_NONE, 2, 3, KHS_NONE, KHS_NONE}};
 *     struct khs_edge edges[KHS_MOST_EDGES];
 *     struct khs_fit numbers = {KHS_VERTICAL, KHS_LATIN, 0, 1, 0, KHS_SNAP, 0, 32, 1};
 *     struct khs_fitted fitted;
 *     int32_t originals[5] = {61, 31, 0, 0, 61}, currents[5] = {61, 31, 0, 0, 61};
 *     int16_t fonts[5] = {80, 40, 0, 0, 80};
 *     uint8_t touched[5] = {0}, weak[5] = {0};
 *     uint16_t ends[1] = {4};
 *     if (khs_compute_edges((int32_t *)segments, 2 * KHS_SEGMENT_WORDS, (int32_t *)edges, KHS_MOST_EDGES * KHS_EDGE_WORDS, KHS_VERTICAL, KHS_DIR_LEFT, KHS_LATIN,
 *                           0, scale, 16, 0, (32 * 65536 + scale / 2) / scale, &count) != KHS_DONE) return 1;
 *     edges[segments[1].edge].blue = 1;
 *     edges[segments[1].edge].blue_fitted = 0;
 *     if (khs_fit_axis((int32_t *)segments, 2 * KHS_SEGMENT_WORDS, (int32_t *)edges, (khs_length)count * KHS_EDGE_WORDS, (int32_t *)&numbers, KHS_FIT_WORDS, standards, 1,
 *                      fonts, 5, originals, 5, currents, 5, touched, 5, weak, 5, ends, 1, (int32_t *)&fitted, KHS_FITTED_WORDS) != KHS_DONE) return 1;
 *     if (fitted.gaps + fitted.stems > 0) return 1;
 *
 * Lists. A list is passed as a pointer to its first element and its length in elements. Edges and segments are lists of 32-bit words: an edge has KHS_EDGE_WORDS
 * words and a segment KHS_SEGMENT_WORDS, in the order of struct khs_edge and struct khs_segment, and nothing stands in front of the first. An array of n
 * such structs is passed as `(int32_t *)array, n * KHS_EDGE_WORDS`: the length is in words. A length in records is refused, but where it happens to be that of whole
 * records too: KHS_EDGE_WORDS means one edge, and KHS_SEGMENT_WORDS one segment. What khs_fit_axis is told, and what it hands back, is a struct each, passed by its
 * words in the same way. Of every list and of every place for a result:
 *   - A list of length 0 may be NULL, as an empty std::vector's data() may be: nothing is read or written through its pointer, whatever that is. Every other list has a
 *     pointer, standards with KHS_KEEP too, and so has every place for a result.
 *   - Its pointer is aligned as C asks of its type: to 4 bytes for int32_t, uint32_t and float, 2 for uint16_t and int16_t.
 *   - It overlaps no other list or place of the same call, unless both are const.
 * A call that is given anything else, or a length beyond its list, is undefined, as in C; everything else that can be passed is answered.
 *
 * Answers. Every call but khs_version, khs_compute_mid_pos and khs_compute_mid_delta returns a number of enum khs_answer: KHS_DONE, or why it refused; khs_answer_name has its name. A
 * call over edges or segments tests in this order:
 *   1. KHS_NOT_WORDS: the length of edges or segments is not that of whole records, or a room, for built edges or for alterations, has not exactly its length, and so of the
 *      two structs of khs_fit_axis.
 *   2. KHS_TOO_LONG: there are more edges or segments than their limit, or, in khs_align_edge_points and khs_fit_axis, more points, or their lists differ in length. None of
 *      their words has been read then.
 *   3. KHS_NOT_WORDS: a word is none of its field's values. The fields are those of an edge and of a segment, and also these numbers of a call: a direction, dimension,
 *      group, rule or neighbour, a number that is 0 or 1, and the count of khs_align_remaining_edges. So dim 2 and stem_adjust -1 are KHS_NOT_WORDS.
 *   4. KHS_RETIRED, then KHS_BAD_PARAMETER, KHS_BAD_INDEX, KHS_OUT_OF_RANGE and KHS_NO_ROOM; but khs_mend tests KHS_OUT_OF_RANGE, then KHS_BAD_INDEX and
 *      KHS_BROKEN_RING; khs_align_strong_points tests here first whether its lists of points are KHS_TOO_LONG; and khs_align_remaining_edges and khs_align_strong_points
 *      test KHS_TOO_STEEP behind KHS_OUT_OF_RANGE. khs_fit_axis tests all that it is given so, and behind it what its steps leave each other.
 * Every other number of a call takes every word: an edge named in a call, and an anchor other than KHS_NONE, is KHS_BAD_INDEX where it is not below the count
 * of edges, whatever its word; scale, units per em, thresholds, standards and a gap's least width are KHS_BAD_PARAMETER and a delta KHS_OUT_OF_RANGE outside of their
 * limits.
 * The calls over points have no such fields, and test KHS_TOO_LONG, KHS_BAD_INDEX, KHS_OUT_OF_RANGE and, where they align, KHS_TOO_STEEP in this order;
 * khs_align_catalogue so of each outline; khs_count_shown tests KHS_BAD_PARAMETER in front of KHS_BAD_INDEX. khs_align_with_references tests KHS_NOT_MATCHING behind KHS_BAD_INDEX.
 * khs_read_frame tests KHS_NOT_WORDS, a room of another length, and then KHS_NOT_FRAME.
 *
 * A refused call writes nothing: every list and every place holds what it held, marks too. With KHS_DONE a list of edges or segments that is not const holds what
 * the call made of it, every word within its field's values, and every place for a result holds the result; of the room for built edges that is so of the edges
 * that were built, and what stands behind them stays. Results may leave the limits of what is accepted, and are then refused if they are passed again. But the edges
 * that khs_compute_edges and khs_align_edges_to_blues leave are accepted by every call over edges, but for khs_turn_over, khs_pack_axis, khs_align_edge_points and khs_fit_axis,
 * which hold first and last against the segments too, khs_hint_lowercase_m, which wants 6 or 12 of them, and khs_align_blues_and_stems and khs_fit_axis, which take no zone on
 * KHS_LATIN's horizontal axis.
 *
 * No call allocates, keeps a pointer, prints or fails otherwise. Each may be called from any thread, and on other lists at the same time. Working tables stand on
 * the stack: on x86-64 and aarch64 khs_turn_over was measured to use 7 KiB of it, khs_compute_edges 3 KiB and every other call at most 1 KiB, but for
 * khs_align_remaining_edges, khs_count_shown, khs_pack_axis and khs_mend, of which 7, 7, 5 and 4 KiB were measured on x86-64, and khs_fit_axis, of which 28 KiB were with a
 * glyph at all limits: it keeps copies to put back; and 4 KiB more where a dynamic linker looks up memcpy or memset in the call. A stack of 36 KiB has
 * room for all of that, and one of 24 KiB is enough for every other call. */
#ifndef KHSAEMUDOL_H
#define KHSAEMUDOL_H

#include <stdint.h>

#ifdef __cplusplus
extern "C" {
#endif

/* The release of this header. */
#define KHS_VERSION 10000

/* The release of the archive. */
uint32_t khs_version(void);

/* Whether the archive is of the header's release, or a later one of the same major number: 1, or else 0. */
static inline int khs_version_fits(void) {
    const uint32_t version = khs_version();
    return version / 10000 == KHS_VERSION / 10000 && version >= KHS_VERSION;
}

/* The length of a list. It has 64 bits on every processor, as in the code that is proved; a size_t of 32 bits is widened by the call. */
typedef uint64_t khs_length;

/* Answers. */
enum khs_answer {
    KHS_DONE = 0,          /* done */
    KHS_TOO_LONG = 1,      /* a list is longer than its limit (4,096 points, 512 segments, 128 edges), lists of one outline differ in length, a path or a
                            * line has too little room, a frame more than 255 points or contours, or a catalogue's counts do not fit its lists */
    KHS_BAD_PARAMETER = 2, /* a scale, units per em, threshold, a gap's least width, the m call's count or how many times an outline is magnified is outside its
                            * limits, the standards break their rule, or an edge has a zone on an axis that khs_align_blues_and_stems and khs_fit_axis take none on */
    KHS_BAD_INDEX = 3,     /* a contour end breaks its rule, a link, serif, ring index, anchor or named edge is not below its list's length, or a segment with an edge does
                            * not go from a point to another of the same contour where that is asked */
    KHS_OUT_OF_RANGE = 4,  /* a coordinate, position, score, len or passed delta is outside its limits; in building also a scaled position */
    KHS_NO_ROOM = 5,       /* building calls for one edge more than 128 */
    KHS_NOT_FRAME = 6,     /* a line of a log is not a whole frame */
    KHS_BROKEN_RING = 7,   /* the segments of an edge are no sound ring; in khs_mend: none can be made of them, since there is none */
    KHS_TOO_STEEP = 8,     /* an untouched point lies between two touched ones that were 2 units apart and are 65,536 or more, or were 3 and are 98,304 or more; in
                            * khs_align_remaining_edges: an edge would be given a pos that is not accepted; in khs_align_strong_points: the same of a point, or it lies between
                            * two edges whose pos are 32,768 times as far apart as their fpos, or more */
    KHS_NOT_MATCHING = 9,  /* the lists of khs_align_with_references are not what khs_remember_references writes for these marks and contours */
    KHS_RETIRED = 10,      /* the order from top to bottom is asked for, which is retired: on either axis and for either group */
    KHS_NOT_WORDS = 255    /* a length is not that of whole records, a room has not exactly its length, or a word is none of its field's values */
};

/* The name of an answer, for logs; "unknown" where it is none. */
static inline const char *khs_answer_name(int32_t answer) {
    switch (answer) {
    case KHS_DONE: return "done";
    case KHS_TOO_LONG: return "too long";
    case KHS_BAD_PARAMETER: return "bad parameter";
    case KHS_BAD_INDEX: return "bad index";
    case KHS_OUT_OF_RANGE: return "out of range";
    case KHS_NO_ROOM: return "no room";
    case KHS_NOT_FRAME: return "not a frame";
    case KHS_BROKEN_RING: return "broken ring";
    case KHS_TOO_STEEP: return "too steep";
    case KHS_NOT_MATCHING: return "not matching";
    case KHS_RETIRED: return "retired";
    case KHS_NOT_WORDS: return "not words";
    default: return "unknown";
    }
}

/* Words with few values. */
enum { KHS_NONE = -1 };                                                                           /* no index */
enum { KHS_DIR_NONE = 0, KHS_DIR_RIGHT = 1, KHS_DIR_LEFT = 2, KHS_DIR_UP = 3, KHS_DIR_DOWN = 4 }; /* a direction */
enum { KHS_HORIZONTAL = 0, KHS_VERTICAL = 1 };                                                    /* a dimension */
enum { KHS_LATIN = 0, KHS_CJK = 1 };                                                              /* a group of scripts; Latin's is the default */
enum { KHS_KEEP = 0, KHS_SNAP = 1 };                                                              /* a width rule */
enum { KHS_PREVIOUS = 0, KHS_NEXT = 1 };                                                          /* a neighbour */
enum { KHS_FLAG_ROUND = 1, KHS_FLAG_SERIF = 2, KHS_FLAG_DONE = 4, KHS_FLAG_NEUTRAL = 8 };         /* flags, added up */

enum { KHS_FINISHED = 0, KHS_MOVE = 1, KHS_LINE = 2, KHS_CURVE = 3, KHS_CLOSE = 4 };              /* the kind of a path's step */

/* The mark of an edge: what last gave it its position, if only the one that it had. A call writes mark where it writes pos, but for an edge that is done already when
 * it is put on its zone: that one keeps its mark. No call reads marks: positions, answers and refusals are as without them. */
enum khs_mark {
    KHS_MARK_NOTHING = 0,          /* nothing yet: it stands where building put it */
    KHS_MARK_BLUE_ANCHOR = 1,      /* its blue zone, the first zone that the call came to */
    KHS_MARK_BLUE = 2,             /* its blue zone, another one */
    KHS_MARK_LINKED = 3,           /* an edge on the other side of the stem, at the fitted width from it */
    KHS_MARK_ANCHOR = 4,           /* its own stem, the first one, where there was no anchor yet */
    KHS_MARK_STEM = 5,             /* its stem, both of whose edges were placed */
    KHS_MARK_ADJUSTED = 6,         /* its link, which was done before, for a stem beside an anchor */
    KHS_MARK_BOUND = 7,            /* its neighbour, which it had passed */
    KHS_MARK_SERIF = 8,            /* the edge that it was placed by as a serif */
    KHS_MARK_LOWERCASE_M = 9,      /* the rule of the lowercase m, whose third stem it moves with */
    KHS_MARK_BETWEEN = 10,         /* the nearest done edges on both sides, between which it was placed */
    KHS_MARK_SPACED = 11,          /* the anchor, from which it was placed at its distance */
    KHS_MARK_REMAINING_ANCHOR = 12 /* itself, as the anchor of the edges that were left */
};

/* The name of a mark, the same way. */
static inline const char *khs_mark_name(int32_t mark) {
    switch (mark) {
    case KHS_MARK_NOTHING: return "nothing yet";
    case KHS_MARK_BLUE_ANCHOR: return "blue anchor";
    case KHS_MARK_BLUE: return "blue";
    case KHS_MARK_LINKED: return "linked";
    case KHS_MARK_ANCHOR: return "anchor";
    case KHS_MARK_STEM: return "stem";
    case KHS_MARK_ADJUSTED: return "adjusted";
    case KHS_MARK_BOUND: return "bound";
    case KHS_MARK_SERIF: return "serif";
    case KHS_MARK_LOWERCASE_M: return "lowercase m";
    case KHS_MARK_BETWEEN: return "between";
    case KHS_MARK_SPACED: return "spaced";
    case KHS_MARK_REMAINING_ANCHOR: return "remaining anchor";
    default: return "unknown";
    }
}

enum { KHS_EDGE_WORDS = 12, KHS_SEGMENT_WORDS = 15, KHS_MOST_EDGES = 128, KHS_MOST_SEGMENTS = 512 };
enum { KHS_FRAME_PLACES = 255, KHS_MOST_DIGITS = 3066 }; /* the most points, and contours, of a frame, and the digits of the longest */

/* The words of an edge. "Index" is 0 to 65,535, "link" an index or KHS_NONE. A word outside of what its line gives is KHS_NOT_WORDS, and one outside of what is
 * "accepted" KHS_OUT_OF_RANGE. Link and serif are tested to be below the count of edges that are passed, else KHS_BAD_INDEX. In a struct that is only zeroed, an edge or
 * a segment, they name record 0 and are accepted so: begin with KHS_EDGE_INIT or KHS_SEGMENT_INIT, which have none. */
struct khs_edge {
    int32_t fpos;        /* position in design units, 16-bit signed */
    int32_t opos;        /* scaled position in units; accepted from -65,535 to 65,535 */
    int32_t pos;         /* fitted position in units; accepted from -16,777,216 to 16,777,216 */
    int32_t flags;       /* 0 to 15; KHS_FLAG_ROUND is read for CJK stems, KHS_FLAG_NEUTRAL for zones, KHS_FLAG_SERIF by no call */
    int32_t dir;         /* a direction */
    int32_t blue;        /* 1 where the edge has a blue zone, 0 where not */
    int32_t blue_fitted; /* the zone's fitted position in units, accepted from -65,535 to 65,535; 0 where blue is 0, else KHS_NOT_WORDS */
    int32_t link;        /* link: the edge on the other side of the stem */
    int32_t serif;       /* link: the edge that this one is a serif of */
    int32_t first;       /* index of its first segment, as building wrote it; held against no list but by khs_turn_over, khs_pack_axis, khs_align_edge_points and khs_fit_axis */
    int32_t last;        /* index of its last segment; the same */
    int32_t mark;        /* 0 to 12, of enum khs_mark: a negative word or one above 12 is KHS_NOT_WORDS */
};

/* An edge of which nothing is known: every number 0, no zone, every link none. */
#define KHS_EDGE_INIT {0, 0, 0, 0, KHS_DIR_NONE, 0, 0, KHS_NONE, KHS_NONE, 0, 0, KHS_MARK_NOTHING}

/* The words of a segment, in the same way. Link and serif, in linking also next, and in khs_turn_over, khs_pack_axis, khs_align_edge_points and khs_fit_axis next and edge, are
 * tested to be below their list's count. */
struct khs_segment {
    int32_t flags;     /* 0 to 15; KHS_FLAG_ROUND, where the outline is curved there, is read by building, and no other */
    int32_t dir;       /* the direction in which it runs; KHS_DIR_NONE for a single point */
    int32_t pos;       /* its position on the axis in design units, 16-bit signed, as the next four: khs_compute_mid_pos of its points' least and greatest */
    int32_t delta;     /* how far its points are from pos: khs_compute_mid_delta of the same two */
    int32_t min_coord; /* from where on the other axis; read by linking alone */
    int32_t max_coord; /* to where on the other axis; the same */
    int32_t height;    /* its length, max_coord - min_coord or as the caller measures it; building compares it with its length threshold */
    int32_t score;     /* how bad its link is: 32,000 before linking, and where the caller links; accepted from 0 to 65,535; read by linking alone */
    int32_t len;       /* how far it and its link overlap: 0 before linking, and where the caller links; the same */
    int32_t link;      /* link: the segment on the other side of the stem */
    int32_t serif;     /* link: the segment that this one is a serif of */
    int32_t first;     /* index of its first point; held against no list but by khs_align_edge_points and khs_fit_axis, where it has an edge */
    int32_t last;      /* index of its last point; the same */
    int32_t edge;      /* link: the edge that it belongs to, or KHS_NONE where building left it out */
    int32_t next;      /* link: the next segment of its edge, which form a ring */
};

/* A segment of which nothing is known, not linked yet: score 32,000, every other number 0, every link none. */
#define KHS_SEGMENT_INIT {0, KHS_DIR_NONE, 0, 0, 0, 0, 0, 32000, 0, KHS_NONE, KHS_NONE, 0, 0, KHS_NONE, KHS_NONE}

/* The words of an alteration, which khs_mend lists. */
struct khs_alteration {
    int32_t table; /* KHS_SEGMENTS or KHS_EDGES */
    int32_t index; /* of the record in its list */
    int32_t field; /* which field of it, of enum khs_field */
    int32_t was;   /* the index that it held, or KHS_NONE */
    int32_t is;    /* the index that it holds now, or KHS_NONE */
};
enum { KHS_SEGMENTS = 0, KHS_EDGES = 1 };
enum khs_field { KHS_LINK = 0, KHS_SERIF = 1, KHS_RING_NEXT = 2, KHS_RING_FIRST = 3, KHS_RING_LAST = 4 };
enum { KHS_ALTERATION_WORDS = 5, KHS_MOST_ALTERED = 2048 }; /* the most are 3 of each of 512 segments and 4 of each of 128 edges */

/* What khs_fit_axis is told, passed as `(const int32_t *)&numbers, KHS_FIT_WORDS`. A choice that is not one of its two values is KHS_NOT_WORDS. */
struct khs_fit {
    int32_t dim;         /* KHS_HORIZONTAL or KHS_VERTICAL */
    int32_t group;       /* KHS_LATIN or KHS_CJK */
    int32_t stem_adjust; /* 0 or 1, read for KHS_CJK: as in khs_hint_normal_stem_cjk; 1 for a display without grey */
    int32_t snap;        /* 0 or 1: as in khs_align_edge_points */
    int32_t done_alone;  /* 0 or 1: the same */
    int32_t rule;        /* KHS_KEEP or KHS_SNAP: the width rule, whose standards are a list of their own */
    int32_t lowercase_m; /* 1 where the glyph is an m, else 0 */
    int32_t least;       /* 0 to 65,535, else KHS_BAD_PARAMETER: as in khs_lost_gaps */
    int32_t linked;      /* 0 or 1: the same */
};
enum { KHS_FIT_WORDS = 9 };

/* What khs_fit_axis hands back, passed as `(int32_t *)&fitted, KHS_FITTED_WORDS`. */
struct khs_fitted {
    int32_t gaps;        /* how many gaps are lost, as khs_lost_gaps counts them */
    int32_t stems;       /* how many stems are */
    int32_t not_done;    /* how many edges are not done */
    int32_t first;       /* the lower edge of the first lost pair, of a gap or a stem, or KHS_NONE */
    int32_t second;      /* the upper one, or KHS_NONE */
    int32_t before;      /* the pair's width before, in units, or 0 */
    int32_t after;       /* its width after, or 0 */
    int32_t passed_over; /* how many edges the stems passed over, as khs_align_stem_edges counts them */
    int32_t anchor;      /* the edge that is the anchor in the end, or KHS_NONE */
};
enum { KHS_FITTED_WORDS = 9 };

/* The width rule of the calls below is `rule`, KHS_KEEP or KHS_SNAP, with `standards`, the standard widths in units. Keep takes widths as they are and does
 * not read the standards: their list may be of any length, and is NULL at length 0 alone. Snap wants 0 to 16 of them, strictly rising, each 1 to 16,383, else
 * KHS_BAD_PARAMETER; a width then becomes the standard nearest to its magnitude, the smaller on a tie, with the width's sign, where that is at most 16 units
 * away, and else stays; then a nonzero width of less than a pixel, 64 units, becomes a pixel, with its sign, whether or not it was a standard. 0 stays 0.
 * For a display without grey let the standards be whole pixels, 64, 128 and so on, as the font's widths come nearest: they are not rounded, and 72 gives stems of 1 8/64 pixels, of which
 * one side or the other lies inside a pixel.
 *
 * An edge named in a call (base, stem, serif, edge, edge2) is its index in the list. Two may be the same. A call over edges takes at most 128 of them, else
 * KHS_TOO_LONG. Fields of edges and segments that a call is not said to write hold what they held. */

/* The middle of two coordinates, a segment's pos: their sum wraps at 32 bits, is halved downward, and its low 16 bits are read as signed. For all pairs. */
int16_t khs_compute_mid_pos(int32_t min, int32_t max);

/* Half of max - min, a segment's delta, the same way. For all pairs. */
int16_t khs_compute_mid_delta(int32_t min, int32_t max);

/* Moves the untouched points of one axis of an outline with the touched ones around them.
 * originals, currents, touched: one entry for each point, at most 4,096, else KHS_TOO_LONG, and so it is where the three differ in length. Originals are the scaled
 * coordinates in units, currents where the points are now, both from -65,535 to 65,535; any nonzero mark means touched.
 * ends: the index of the last point of each contour, strictly rising, each below the count of points. A contour starts behind the one before; points behind the
 * last contour stay where they are, and so do those of a contour without a touched point, or with one alone whose current is its original. So the current of a point
 * that is not touched is to be its original; everywhere else it is written over.
 * So a dot without a touched point stays behind where the rest of its glyph moves. Behind khs_align_strong_points, and in khs_fit_axis, that is a contour whose points are all weak: give one
 * of them the weak mark 0, and it goes by the edges and takes the others along as they are; give it to the lowest and the highest too, and between two edges the dot is stretched as these
 * are. Who calls this alone adds to all currents of the dot the pos - opos of the edge next to it.
 * Two touched points that were close and are far apart have no slope of 32 bits for a point between them: KHS_TOO_STEEP, behind the other answers, where the original of
 * some untouched point lies strictly between those of the touched ones nearest before and behind it around the contour, and these are 2 apart and their currents 65,536 or
 * more, or 3 and 98,304 or more. So an outline whose currents are less than 65,536 apart never is.
 * Writes currents. Answers: KHS_DONE, KHS_TOO_LONG, KHS_BAD_INDEX, KHS_OUT_OF_RANGE, KHS_TOO_STEEP. */
uint8_t khs_align_weak_points(const int32_t *originals, khs_length originals_len, int32_t *currents, khs_length currents_len, const uint8_t *touched,
                              khs_length touched_len, const uint16_t *ends, khs_length ends_len);

/* Writes who refers to whom, found once for an outline that is fitted at many sizes with the same touched points: for each point the index of the nearest touched point
 * before it around its contour, and of the nearest behind it; or, the same number in both lists, 65,535 where it is touched, whatever else holds, 65,534 where it has no
 * contour, and 65,533 where its contour has one touched point or none.
 * touched, ends: as in khs_align_weak_points. before, behind: one place for each point, else KHS_TOO_LONG; what they hold is not read.
 * Writes before and behind. Answers: KHS_DONE, KHS_TOO_LONG, KHS_BAD_INDEX. */
uint8_t khs_remember_references(const uint8_t *touched, khs_length touched_len, const uint16_t *ends, khs_length ends_len, uint16_t *before, khs_length before_len,
                                uint16_t *behind, khs_length behind_len);

/* Moves the untouched points of one axis of an outline by these lists: the currents are those that khs_align_weak_points leaves, at every size.
 * originals, currents, touched, ends: as there. before, behind: one entry for each point, else KHS_TOO_LONG. They are to be what khs_remember_references writes for these
 * marks and ends: every entry is tested, those of touched points too, and KHS_NOT_MATCHING is answered where one is another, behind KHS_BAD_INDEX and in front of
 * KHS_OUT_OF_RANGE. Other marks of the same touched points match. A list that was written for these touched points and ends is never refused so.
 * The test reads every mark, which is all that the search without lists reads, so the lists pay little in time: on x86-64 this call takes 0.88 to 0.92 of the time of
 * khs_align_weak_points on outlines like glyphs of 16 to 4,096 points, 0.91 to 0.92 with one scattered point in 4 touched, and 1.04 to 1.08 with one in 16, where many
 * contours have no two touched points. They pay most where a caller reads them: who refers to whom is known without a search.
 * Writes currents. Answers: KHS_DONE, KHS_TOO_LONG, KHS_BAD_INDEX, KHS_NOT_MATCHING, KHS_OUT_OF_RANGE, KHS_TOO_STEEP. */
uint8_t khs_align_with_references(const int32_t *originals, khs_length originals_len, int32_t *currents, khs_length currents_len, const uint8_t *touched,
                                  khs_length touched_len, const uint16_t *ends, khs_length ends_len, const uint16_t *before, khs_length before_len,
                                  const uint16_t *behind, khs_length behind_len);

/* Moves what depends on one touched point, whose current the caller has set: the untouched points of its contour of which it is the nearest touched one before or behind,
 * so all of them where it is the only one. Each gets what khs_align_weak_points would give it; nothing else is written, the point's own current neither.
 * originals, currents, touched, ends: as there, and with its answers for the whole of them. point: the index of the touched point; one that is not below the count of
 * points, whatever its word, or not touched, is KHS_BAD_INDEX. A touched point of no contour moves nothing.
 * On the currents that khs_align_weak_points left, with this one then set, the call leaves what khs_align_weak_points would leave. Currents that it left may be beyond what
 * is accepted, and are KHS_OUT_OF_RANGE then.
 * A surprise: where the only touched point of a contour is set back on its original, the others do not come back: they keep what they held, since a point that has not
 * moved moves nothing. To bring them back set their currents to their originals too.
 * Writes currents. Answers: KHS_DONE, KHS_TOO_LONG, KHS_BAD_INDEX, KHS_OUT_OF_RANGE, KHS_TOO_STEEP. */
uint8_t khs_drag_point(const int32_t *originals, khs_length originals_len, int32_t *currents, khs_length currents_len, const uint8_t *touched, khs_length touched_len,
                       const uint16_t *ends, khs_length ends_len, uint32_t point);

/* Moves the untouched points of one axis of every outline of a catalogue, as khs_align_weak_points does those of one. The outlines stand one behind another in
 * shared lists, which have no limit.
 * originals, currents, touched: one entry for each point of every outline. ends: the contour ends of every outline, each an index from its own outline's first
 * point on.
 * point_counts, contour_counts: for each outline how many of the points and of the contour ends are its own; the next outline begins behind them.
 * answers: one place for each outline; what it holds is not read.
 * Refused, and then nothing is written, are a catalogue whose point counts do not add up to the length of originals, of currents and of touched, one whose contour
 * counts do not add up to that of ends, and one whose lists of counts and of answers differ in length. Each sum is tested without wrapping around.
 * Writes answers and currents, else: the answer of each outline is that of khs_align_weak_points on its own entries, KHS_DONE, KHS_TOO_LONG, KHS_BAD_INDEX,
 * KHS_OUT_OF_RANGE or KHS_TOO_STEEP, and its currents are what that call leaves. So a refused outline keeps its currents, and those behind it are aligned all the
 * same; an outline of no points and no contours is KHS_DONE. No refusal of an outline shows in the answer of the whole call.
 * Answers: KHS_DONE, KHS_TOO_LONG. */
uint8_t khs_align_catalogue(const int32_t *originals, khs_length originals_len, int32_t *currents, khs_length currents_len, const uint8_t *touched,
                            khs_length touched_len, const uint16_t *ends, khs_length ends_len, const uint16_t *point_counts, khs_length point_counts_len,
                            const uint16_t *contour_counts, khs_length contour_counts_len, uint8_t *answers, khs_length answers_len);

/* Links CJK segments into stems and serifs.
 * segments: at most 512, KHS_SEGMENT_WORDS words each. major_dir: a direction. units_per_em: 16 to 16,384. scale: 1 to 16,777,216.
 * What the segments hold is linked on, and not forgotten: an old link stays, and is taken for one that was found, where no segment is better than the old score and len, and an old serif
 * stays where none is written. So with a score of 0 nothing is linked. Begin anew, at another scale too, with link and serif KHS_NONE, score 32,000 and len 0, as KHS_SEGMENT_INIT has them.
 * Writes link, serif, score and len of segments. Answers: KHS_DONE, KHS_TOO_LONG, KHS_BAD_PARAMETER, KHS_BAD_INDEX, KHS_OUT_OF_RANGE, KHS_NOT_WORDS. */
uint8_t khs_link_segments_cjk(int32_t *segments, khs_length segments_len, int32_t major_dir, int32_t units_per_em, int32_t scale);

/* Builds the edges of segments.
 * segments: at most 512; their old edge and next are forgotten, and may be any link. edges: room for exactly KHS_MOST_EDGES edges, not read.
 * dim: a dimension. major_dir: a direction; of edges with the same fpos a new one goes behind the others where it has that direction, and else in front of them.
 * group: a group. scale: 1 to 16,777,216; every segment's pos at that scale must be from -65,535 to 65,535 units.
 * top_to_bottom: 0; 1 is KHS_RETIRED. Edges stand by rising positions.
 * distance, length, width: thresholds in design units, 0 to 65,535. One segment after the other joins the first edge of its direction whose fpos is less than d from its pos; where
 * there is none it makes one. d is distance, of which at most a quarter of a pixel counts: with m = (distance * scale + 32,768) / 65,536, in whole numbers of 64 bits, it is for KHS_LATIN
 * ((m < 16 ? m : 16) * 65,536 + scale / 2) / scale, and for KHS_CJK distance itself where m is at most 16, else the same. For KHS_CJK the nearest such edge is joined, and by a segment
 * with a link only one whose segments' links are all less than d from its own.
 * As distance pass a fifth of the font's standard width on this axis, in design units and whole numbers: the least width of the stems of its standard letter, an o for Latin, or, where
 * that has none, 50 * units per em / 2,048. KHS_CJK reads distance alone: length and width are held to their limits, and 0 will do.
 * For KHS_LATIN a segment without direction makes no edge, and joins, behind all others, the first one near enough of any direction. Any other is left out if its
 * height is below length, or below one and a half of it where it has a serif, or if its delta is above width. As width pass half a pixel, (32 * 65,536 + scale / 2) /
 * scale in whole numbers; as length 0 on the vertical axis and on the horizontal one a pixel, (64 * 65,536 + s / 2) / s, where s is the scale of the vertical axis.
 * The Rust code of which this is a port, skrifa 0.49.0, takes the same length and width; that distance is FreeType's, whose autofitter it follows.
 * Writes edge and next of segments; edges, the built ones from the front on, in their order, what stands behind them stays; count, how many were built. A built edge
 * has fpos and dir of its first segment, opos and pos at the scaled position, no zone, KHS_MARK_NOTHING, and of the flags at most round, where some of its segments
 * are and not fewer than are not, and serif. Each of its segments names an edge, if any: that of its serif, where it is another one, as the edge's serif, or else
 * that of its link as the edge's link. The first stays, until a segment is nearer to the one that it names than the edge is to the one that it has. An edge with a
 * link keeps no serif.
 * Pass the first count * KHS_EDGE_WORDS words to the calls below.
 * Answers: KHS_DONE, KHS_TOO_LONG, KHS_RETIRED, KHS_BAD_PARAMETER, KHS_BAD_INDEX, KHS_OUT_OF_RANGE, KHS_NO_ROOM, KHS_NOT_WORDS. */
uint8_t khs_compute_edges(int32_t *segments, khs_length segments_len, int32_t *edges, khs_length edges_len, int32_t dim, int32_t major_dir, int32_t group,
                          int32_t top_to_bottom, int32_t scale, int32_t distance, int32_t length, int32_t width, int32_t *count);

/* Puts edges on their blue zones, and their linked edges behind them. Edges that are not done are visited one after the other: where an edge and its link both have
 * a zone and one is neutral, that one first loses zone and flag, the link before the edge; then the edge goes to its own zone, or else its link to the link's,
 * and the other of the two to its fitted width from it, unless it has a zone too. What is placed so is done.
 * KHS_LATIN has zones on the vertical axis alone: on the horizontal one the answer is KHS_DONE behind the same refusals, the edges stay as they are, and the
 * anchor is KHS_NONE.
 * dim: a dimension. group: a group. rule, standards: the width rule.
 * Writes pos, mark, flags, blue and blue_fitted of edges; anchor, the first edge whose visit found a zone, its own or its link's, or KHS_NONE. The edge that comes
 * to its zone in the anchor's visit is marked KHS_MARK_BLUE_ANCHOR, and in a later one KHS_MARK_BLUE; the other of the two KHS_MARK_LINKED, done before or not. So
 * the anchor may be marked as linked.
 * Answers: KHS_DONE, KHS_TOO_LONG, KHS_BAD_PARAMETER, KHS_BAD_INDEX, KHS_OUT_OF_RANGE, KHS_NOT_WORDS. */
uint8_t khs_align_edges_to_blues(int32_t *edges, khs_length edges_len, int32_t dim, int32_t group, int32_t rule, const int32_t *standards,
                                 khs_length standards_len, int32_t *anchor);

/* Places the edge stem by the edge base: its fitted width away from base's pos. Neither is made done.
 * Writes pos and mark, KHS_MARK_LINKED, of the edge stem. Answers: KHS_DONE, KHS_TOO_LONG, KHS_BAD_PARAMETER, KHS_BAD_INDEX, KHS_OUT_OF_RANGE, KHS_NOT_WORDS. */
uint8_t khs_align_linked_edge(int32_t *edges, khs_length edges_len, int32_t rule, const int32_t *standards, khs_length standards_len, int32_t base,
                              int32_t stem);

/* Places the edge serif as far from the edge base as it was: base's pos and the distance of their opos. Neither is made done.
 * Writes pos and mark, KHS_MARK_SERIF, of the edge serif. Answers: KHS_DONE, KHS_TOO_LONG, KHS_BAD_INDEX, KHS_OUT_OF_RANGE, KHS_NOT_WORDS. */
uint8_t khs_align_serif_edge(int32_t *edges, khs_length edges_len, int32_t base, int32_t serif);

/* Gives an edge the pos of its neighbour where it has passed it, and its link's pos is more than 16 units from the previous edge's, whichever the neighbour.
 * It is not made done.
 * dir: KHS_PREVIOUS, the edge before it in the list, or KHS_NEXT, the edge behind it. top_to_bottom: 0; 1 is KHS_RETIRED. An edge has passed the previous one
 * where it is below it, and the next one where it is above it.
 * Edge 0 stays, whichever the neighbour, and so does an edge without link. Toward the next edge an edge stays where that one is not done, or is not there.
 * Writes pos and mark, KHS_MARK_BOUND, of the edge, or nothing: KHS_DONE is the answer whether or not it moved.
 * Answers: KHS_DONE, KHS_TOO_LONG, KHS_RETIRED, KHS_BAD_INDEX, KHS_OUT_OF_RANGE, KHS_NOT_WORDS. */
uint8_t khs_adjust_link(int32_t *edges, khs_length edges_len, int32_t edge, int32_t dir, int32_t top_to_bottom);

/* Finds the neighbours of a remaining edge in the list: the edge before it, done or not, and the edge behind it where that is done. The Rust code tells them to its
 * recorder alone: what it places such an edge by is in step 5 above.
 * Writes lower and upper, each an index or KHS_NONE. Answers: KHS_DONE, KHS_TOO_LONG, KHS_BAD_INDEX, KHS_OUT_OF_RANGE, KHS_NOT_WORDS. */
uint8_t khs_latin_remaining_bounds(const int32_t *edges, khs_length edges_len, int32_t edge, int32_t *lower, int32_t *upper);

/* Places both edges of a CJK stem, at its fitted width, moved so that it meets the pixels. Neither is made done.
 * dim: a dimension. stem_adjust: 0 or 1; with 0 a stem is moved by at most 14 units, and not at all where it is wide and a side of it is near a pixel's side already. Pass 1 for a display
 * without grey: 0 is for light and LCD rendering, for which FreeType keeps widths too, as KHS_KEEP does.
 * rule, standards: the width rule. edge, edge2: the stem's two edges. delta: the passed delta, from -16,383 to 16,383 units, by which the stem's centre is shifted first.
 * Writes pos and mark, KHS_MARK_STEM, of both edges; own_delta, the stem's own delta, to which the passed one is not added.
 * Answers: KHS_DONE, KHS_TOO_LONG, KHS_BAD_PARAMETER, KHS_BAD_INDEX, KHS_OUT_OF_RANGE, KHS_NOT_WORDS. */
uint8_t khs_hint_normal_stem_cjk(int32_t *edges, khs_length edges_len, int32_t dim, int32_t stem_adjust, int32_t rule, const int32_t *standards,
                                 khs_length standards_len, int32_t edge, int32_t edge2, int32_t delta, int32_t *own_delta);

/* Aligns all stems that are not done, one edge after the other. An edge without link, and a CJK stem less than a pixel behind the last one, is passed over and
 * counted; an edge that is done already is neither.
 * dim: a dimension. group: a group. stem_adjust: 0 or 1, read for KHS_CJK. top_to_bottom: 0; 1 is KHS_RETIRED, for KHS_CJK too.
 * anchor: the edge that KHS_LATIN's stems are placed by, as khs_align_edges_to_blues hands it back, or KHS_NONE: then the first stem is placed by itself and is
 * the anchor of the others. For KHS_CJK every stem that is placed with both its edges becomes the anchor. rule, standards: the width rule.
 * Beside an anchor, a thin stem's centre moves at most half a pixel from where the anchor's shift puts it, before its edge is held to the previous one (thin:
 * KHS_LATIN, a fitted width below 96, and a link that is neither done nor on a zone).
 * Writes pos, mark and flags of edges; count, how many edges were passed over; found, the anchor afterwards, or KHS_NONE. With a count of 0 every edge is done. Any other is what
 * khs_align_remaining_edges takes, and no count of what is not done: an edge that was passed over may be placed by a later one that links to it, and khs_lost_gaps counts those that
 * are not done.
 * Both edges of a stem are marked KHS_MARK_STEM. But beside an anchor a KHS_LATIN edge whose link is done is marked alone, KHS_MARK_ADJUSTED, and one that is then held
 * to the previous edge KHS_MARK_BOUND; the edge that becomes KHS_LATIN's anchor KHS_MARK_ANCHOR, and its link KHS_MARK_LINKED, until that one's own visit adjusts
 * it, or for good where the anchor is its own link; and an edge whose link is on a zone, or for KHS_CJK in front of it, KHS_MARK_LINKED.
 * Answers: KHS_DONE, KHS_TOO_LONG, KHS_RETIRED, KHS_BAD_PARAMETER, KHS_BAD_INDEX, KHS_OUT_OF_RANGE, KHS_NOT_WORDS. */
uint8_t khs_align_stem_edges(int32_t *edges, khs_length edges_len, int32_t dim, int32_t group, int32_t stem_adjust, int32_t top_to_bottom, int32_t anchor,
                             int32_t rule, const int32_t *standards, khs_length standards_len, int32_t *count, int32_t *found);

/* Puts edges on their blue zones, and then aligns all stems that are not done: khs_align_edges_to_blues, and behind it khs_align_stem_edges with the anchor that it
 * hands back, in one call. What it writes and hands back is what the two in a row do, and what they accept it accepts, but for this: KHS_LATIN has zones on the
 * vertical axis alone, and on the horizontal one an edge with a zone, done or not, is KHS_BAD_PARAMETER. So no edge that the zones leave undone has a link on a
 * zone, and the stems place none by such a link.
 * dim: a dimension. group: a group. stem_adjust: 0 or 1, read for KHS_CJK. top_to_bottom: 0; 1 is KHS_RETIRED. rule, standards: the width rule.
 * Writes pos, mark, flags, blue and blue_fitted of edges, as the two calls do; count, how many edges the stems passed over; anchor, the edge that is the anchor
 * behind the stems, or KHS_NONE.
 * Answers: KHS_DONE, KHS_TOO_LONG, KHS_RETIRED, KHS_BAD_PARAMETER, KHS_BAD_INDEX, KHS_OUT_OF_RANGE, KHS_NOT_WORDS. */
uint8_t khs_align_blues_and_stems(int32_t *edges, khs_length edges_len, int32_t dim, int32_t group, int32_t stem_adjust, int32_t top_to_bottom, int32_t rule,
                                  const int32_t *standards, khs_length standards_len, int32_t *count, int32_t *anchor);

/* Places the edges that zones and stems have left, those without KHS_FLAG_DONE, one behind the other.
 * dim: a dimension, which decides nothing. group: a group. count: 0 to 65,535, else KHS_NOT_WORDS: how many edges are left, as the stem pass counts them; read for KHS_CJK.
 * anchor: the edge that is the anchor, or KHS_NONE; read for KHS_LATIN, and tested for both.
 * An edge of KHS_LATIN goes by the first of these that it can:
 *   - its serif, where that one's opos is less than 80 units from its own, done or not: as far from its pos as its opos is from its opos. KHS_MARK_SERIF.
 *   - itself, where there is no anchor yet, even between done edges: at its opos, to the nearest pixel; it is the anchor of those behind it. KHS_MARK_REMAINING_ANCHOR.
 *   - the nearest done edges before and behind it in the list, where both are there: between their pos as its opos is between theirs, to the nearest, halves away from zero, and
 *     at the first one's pos where these are equal. KHS_MARK_BETWEEN.
 *   - the anchor: at its pos and the distance of their opos and 16, down to a multiple of 32. KHS_MARK_SPACED.
 * It is done then, so that those behind it may go by it; and khs_adjust_link toward the previous and then toward the next edge holds it, KHS_MARK_BOUND. Behind the call every edge is done.
 * Of KHS_CJK every edge with a serif goes by that first, at any distance, KHS_MARK_SERIF; it is done, and lowers the count, not below 0. Where the count is not 0 then, every other
 * one goes between the nearest done edges before and behind it, as its fpos is between theirs, KHS_MARK_BETWEEN, or, where there is one of them alone, as far from it as its opos
 * is, KHS_MARK_SERIF, or stays. These are not done, and nothing goes by them.
 * KHS_TOO_STEEP, behind the other answers, where a pos that is given on the way, also one that is then held to a neighbour's, is not from -16,777,216 to 16,777,216, as it can happen
 * where edges that are close by opos or fpos stand far apart. So what is left is accepted by the other calls over edges as before; khs_align_edge_points holds pos to 65,535.
 * Where opos do not fall, for KHS_CJK fpos, an edge that is placed between two lies between their pos, ends included; but those may be turned, by this call too: of edges at 40, 50 and 60, of which the last alone is done, and no
 * anchor, it makes 64, 62 and 60.
 * Writes pos, mark and flags of edges; found, the anchor: the one that was passed, or the edge that became it, or KHS_NONE.
 * Answers: KHS_DONE, KHS_TOO_LONG, KHS_BAD_INDEX, KHS_OUT_OF_RANGE, KHS_TOO_STEEP, KHS_NOT_WORDS. */
uint8_t khs_align_remaining_edges(int32_t *edges, khs_length edges_len, int32_t dim, int32_t group, int32_t count, int32_t anchor, int32_t *found);

/* Evens out the three stems of a lowercase m by moving the third to the distance that the first two have.
 * edges: 6, whose stems begin at edges 0, 2 and 4, or 12, at edges 1, 5 and 9; else KHS_BAD_PARAMETER. group: a group.
 * Nothing moves where the two distances of their opos differ by 8 units or more, or for KHS_CJK where a stem is not linked to the edge behind it.
 * Writes pos, mark and flags of the third stem and of its link, which are done then, and of twelve edges pos and mark of edges 8 and 11; the mark is
 * KHS_MARK_LOWERCASE_M, also where the third stem stood at that distance already.
 * Answers: KHS_DONE, KHS_TOO_LONG, KHS_BAD_PARAMETER, KHS_BAD_INDEX, KHS_OUT_OF_RANGE, KHS_NOT_WORDS. */
uint8_t khs_hint_lowercase_m(int32_t *edges, khs_length edges_len, int32_t group);

/* The guard: tells whether a display that colours a pixel by its centre still shows every gap and every stem between placed edges, so that a caller may show a glyph
 * otherwise that it would show wrong.
 * The rows between two positions p and q are the rows of pixels whose centre, 64 k + 32, is at p or above it, and below q: the lower and left side belongs to a shape. There
 * are none where q is not above p. Those edges count that are done, and with linked 1 only those of them that have a link. A pair is two edges that count with none that
 * counts between them in the list; it is a stem where one names the other by link, else a gap. Its width before is the second's opos less the first's, and its width after
 * the same of pos. A gap is lost where it was at least `least` wide, and is now turned, below 0, or without a row though it was above 0 wide; a stem, whatever its width,
 * where it is turned, or without a row though it was above 0 wide.
 * least: 0 to 65,535 units, else KHS_BAD_PARAMETER. 32 is half a pixel. Where nothing is lost every gap that was at least that wide, and above 0, has a row, and so has every
 * stem that was above 0 wide.
 * linked: 0 or 1. An edge without a link may stand inside a stem, as the end of an open stroke does, and is no side of a gap there: with 1 it makes no false alarm, and a gap
 * that it is a side of is not seen. With 0, and 0 for least, and nothing lost, on edges whose opos do not fall, as building leaves them, all done edges stand in their order,
 * and those that were apart still are.
 * It does not see slanted strokes and curves, which have no edges, nor edges that are not done: not_done tells how many those are, and a caller that places them asks behind
 * that. It knows one axis: a pair whose edges do not overlap on the other one, so that nothing was between them, is told as lost all the same.
 * Writes count, how many gaps are lost; of the first lost pair of either kind first and second, its two edges, and before and after, its widths in units: where none is,
 * KHS_NONE twice and 0 twice; stems, how many stems are lost; not_done, how many edges are not done, whatever linked is. The edges are not written.
 * Answers: KHS_DONE, KHS_TOO_LONG, KHS_BAD_PARAMETER, KHS_BAD_INDEX, KHS_OUT_OF_RANGE, KHS_NOT_WORDS. */
uint8_t khs_lost_gaps(const int32_t *edges, khs_length edges_len, int32_t least, int32_t linked, int32_t *count, int32_t *first, int32_t *second, int32_t *before,
                      int32_t *after, int32_t *stems, int32_t *not_done);

/* Moves the points of segments to where the edges of these segments are, and touches them.
 * segments: at most 512. edges: at most 128, and no room behind them. Neither is written. Their indices are held against their lists as in khs_turn_over: link, serif, next and
 * edge of segments, link, serif, first and last of edges.
 * snap: 0 or 1. With 1 a point comes to its edge's pos; with 0 it moves by the edge's pos - opos. Points of KHS_LATIN are to be snapped; the Rust code of which this is a port
 * leaves the choice to callers for KHS_CJK.
 * done_alone: 0 or 1. With 1 edges without KHS_FLAG_DONE, which stand where building put them or where nobody looked, move nothing; with 0 every edge does, as in the Rust code,
 * which has placed all of them by then.
 * currents, touched: one entry for each point, at most 4,096, else KHS_TOO_LONG, and so it is where the two differ in length. Currents are from -65,535 to 65,535.
 * ends: as in khs_align_weak_points.
 * The segments are taken in their order. One without an edge does nothing. Every other one goes from its first point to its last, each next one around their contour, whose last
 * point is followed by its first: so its last may be below its first; where it is the point directly before it, that is the whole contour; where it is the first itself, one point. Each
 * point on the way is moved, and its mark becomes 1, also where it stood there already. With snap the last segment decides of a point that several have; without, each of them
 * moves it. Every other point keeps its current and its mark.
 * First and last of a segment with an edge, done or not, are points of one contour, else KHS_BAD_INDEX; a point behind the last contour is on none. Those of a segment without an edge
 * may be any. The pos of an edge by which points are moved, that is, one that a segment names and that is done or, with done_alone 0, any, is from -65,535 to 65,535, else
 * KHS_OUT_OF_RANGE. So with snap khs_align_weak_points takes every current that is left; without, one may come to 67,173,375.
 * Writes currents and touched. Answers: KHS_DONE, KHS_TOO_LONG, KHS_BAD_INDEX, KHS_OUT_OF_RANGE, KHS_NOT_WORDS. */
uint8_t khs_align_edge_points(const int32_t *segments, khs_length segments_len, const int32_t *edges, khs_length edges_len, int32_t snap, int32_t done_alone,
                              int32_t *currents, khs_length currents_len, uint8_t *touched, khs_length touched_len, const uint16_t *ends, khs_length ends_len);

/* Moves the strong points of one axis, those that are neither touched nor weak, by the edges around them, and touches them: so a slanted stroke goes with the stems that it joins.
 * edges: at most 128, as building leaves them, by rising fpos; not written. Those that are not done count like the others: place them first, by khs_align_remaining_edges.
 * fonts, originals, currents, touched, weak: one entry for each point, at most 4,096, else KHS_TOO_LONG, and so it is where two of the five differ in length. fonts are the positions
 * of the points in design units; originals and currents as in khs_align_weak_points; any nonzero mark means touched, or weak.
 * Weak are the points that are very near other points, or that lack a dominant direction inward or outward. A caller who has no such marks passes none: every weak mark is 0
 * then, and every point that is not touched is moved here.
 * A strong point with its place u in fonts
 *   - at or below the first edge's fpos moves with that edge: to its pos and as far from it as the original is from its opos;
 *   - else at or above the last edge's moves with that one in the same way;
 *   - else on an edge's fpos comes to its pos: of up to eight edges to that of the first one there, of more to that of the one that halving finds;
 *   - else comes between the two edges around it: to the lower one's pos and the fixed product of u less its fpos and the fixed quotient of their pos by their fpos, both to the nearest,
 *     halves away from zero, which lies between their pos, ends included.
 * Its mark becomes 1. Every other point keeps its current and its mark. Without edges nothing is moved.
 * KHS_TOO_STEEP, behind the other answers, where a strong point lies strictly between two edges whose pos are at least 32,768 times as far apart as their fpos, or would come to
 * a place that is not from -16,777,216 to 16,777,216. Currents that are left may be beyond what khs_align_weak_points accepts.
 * Where fpos and pos of the edges do not fall, points keep the order of their fonts and originals, to the unit: all those between the first and the last edge among themselves, those
 * below and those above, and all of them where originals and opos are scaled from design units by one scale.
 * Writes currents and touched. Answers: KHS_DONE, KHS_TOO_LONG, KHS_BAD_INDEX, KHS_OUT_OF_RANGE, KHS_TOO_STEEP, KHS_NOT_WORDS. */
uint8_t khs_align_strong_points(const int32_t *edges, khs_length edges_len, const int16_t *fonts, khs_length fonts_len, const int32_t *originals,
                                khs_length originals_len, int32_t *currents, khs_length currents_len, uint8_t *touched, khs_length touched_len, const uint8_t *weak,
                                khs_length weak_len);

/* Fits one axis behind building, from its edges to its points: steps 4 to 6 of the chain in one call. It does these, each on what the one before left:
 *   - khs_align_blues_and_stems, by dim, group, stem_adjust, rule and standards;
 *   - where lowercase_m is 1, dim is KHS_HORIZONTAL and there are 6 or 12 edges, khs_hint_lowercase_m;
 *   - where the stems passed over edges or there is no anchor, khs_align_remaining_edges, by that count and that anchor;
 *   - khs_lost_gaps, by least and linked, and it goes on whatever that tells;
 *   - khs_align_edge_points, by snap and done_alone;
 *   - khs_align_strong_points;
 *   - khs_align_weak_points.
 * What it leaves in edges, currents and touched, and what it hands back, is what these calls in a row do.
 * segments: at most 512, as building leaves them; not written. edges: at most 128, with their zones, and no room behind them.
 * numbers: a struct khs_fit, and exactly its words. standards: those of the width rule.
 * fonts, originals, currents, touched, weak: one entry for each point, at most 4,096, as in khs_align_strong_points. On an axis that is not fitted yet currents are the originals,
 * and no point is touched. ends: as in khs_align_weak_points.
 * fitted: a place for a struct khs_fitted, and exactly its words; what it holds is not read.
 * snap is taken as it is given, for KHS_LATIN too. The Rust code of which this is a port snaps points of that group always: pass 1 there.
 * Whether the glyph is shown is the caller's choice, by what is handed back of each axis and by khs_count_shown of the whole glyph: a lost gap or stem is no refusal.
 * In front it tests all that is given, and answers the first of these that applies:
 *   - KHS_NOT_WORDS: a length that is not of whole records, or not exactly that of its struct;
 *   - KHS_TOO_LONG: more segments, edges or points than there may be, or two of the five lists of points that differ in length;
 *   - KHS_NOT_WORDS: a word of a segment or of an edge that is none of its field's values, or a choice that is none;
 *   - KHS_BAD_PARAMETER: standards that break their rule, least outside its limits, or an edge with a zone on KHS_LATIN's horizontal axis;
 *   - KHS_BAD_INDEX: an index of segments or edges, a contour end, or first and last of a segment with an edge, as in khs_align_edge_points;
 *   - KHS_OUT_OF_RANGE: score or len of a segment, opos, pos or blue_fitted of an edge, an original or a current outside of what is accepted.
 * On the way a step may refuse what those before it left, in the order of the steps: by KHS_OUT_OF_RANGE the lowercase m, remaining edges and the guard a pos beyond 16,777,216, edge
 * points a pos by which points are moved beyond 65,535, and strong and weak points such a current; by KHS_TOO_STEEP remaining edges, strong points and weak points, as they say.
 * Beside a refusal, in front or on the way, nothing has changed: edges, currents, touched and fitted hold what they held.
 * Writes pos, mark, flags, blue and blue_fitted of edges; currents; touched; fitted.
 * Answers: KHS_DONE, KHS_TOO_LONG, KHS_BAD_PARAMETER, KHS_BAD_INDEX, KHS_OUT_OF_RANGE, KHS_TOO_STEEP, KHS_NOT_WORDS. */
uint8_t khs_fit_axis(const int32_t *segments, khs_length segments_len, int32_t *edges, khs_length edges_len, const int32_t *numbers, khs_length numbers_len,
                     const int32_t *standards, khs_length standards_len, const int16_t *fonts, khs_length fonts_len, const int32_t *originals,
                     khs_length originals_len, int32_t *currents, khs_length currents_len, uint8_t *touched, khs_length touched_len, const uint8_t *weak,
                     khs_length weak_len, const uint16_t *ends, khs_length ends_len, int32_t *fitted, khs_length fitted_len);

/* The path of an outline is a list of steps. Each contour gives a KHS_MOVE to its start, lines and quadratic curves around it, and a KHS_CLOSE; a straight way
 * back to the start is left to the close. The start is the contour's first point that is on the curve, or where none is, halfway between its last and its first
 * point. Two points in a row that are off the curve have one on it halfway between them. Points behind the last contour give no step.
 * A step has up to two places, x and y of each, in pixels: KHS_MOVE and KHS_LINE where they go, KHS_CURVE its control point and then its end, KHS_CLOSE none.
 * Every place is exact: units divided by 64, or the sum of two divided by 128; a zero is never negative.
 * xs, ys, marks: one entry for each point, at most 4,096. xs and ys are the fitted coordinates in units, each from -196,605 to 196,605, which is as far as
 * khs_align_weak_points goes; any nonzero mark means on the curve. ends: as in khs_align_weak_points. */

/* One step of a path. cursor: its number, counted from 0.
 * Writes kind, a kind; places, the x and y of its places in their order, and 0 for those that it has not; next, the cursor of the next step. A cursor that is not
 * below the count of steps is KHS_FINISHED, and next is the cursor then. Each call tests the whole outline: for a whole path call khs_path.
 * Answers: KHS_DONE, KHS_TOO_LONG, KHS_BAD_INDEX, KHS_OUT_OF_RANGE. */
uint8_t khs_path_step(const int32_t *xs, khs_length xs_len, const int32_t *ys, khs_length ys_len, const uint8_t *marks, khs_length marks_len,
                      const uint16_t *ends, khs_length ends_len, uint32_t cursor, uint8_t *kind, float places[4], uint32_t *next);

/* All steps of a path, in time that grows with the points alone.
 * kinds, places: room for the steps, one kind and four floats each. The room is known before the call, by the lengths alone: no path has more than
 * xs_len + 2 * ends_len steps, at most 12,288, and kinds must have as many entries and places four times as many, or more, whatever the path is.
 * Writes count, how many steps there are; for each its kind and its four floats as khs_path_step does. What stands behind them stays.
 * Answers: KHS_DONE, KHS_TOO_LONG (of two causes: kinds or places has too little room; or, as in khs_path_step, the point lists differ in length or have more than 4,096
 * entries, which is the only cause where the room is as above), KHS_BAD_INDEX, KHS_OUT_OF_RANGE. */
uint8_t khs_path(const int32_t *xs, khs_length xs_len, const int32_t *ys, khs_length ys_len, const uint8_t *marks, khs_length marks_len, const uint16_t *ends,
                 khs_length ends_len, uint8_t *kinds, khs_length kinds_len, float *places, khs_length places_len, uint32_t *count);

/* What a display without grey shows of an outline: how many pixels are black, and their Euler number, which is pieces less holes. Black pixels hang together by sides and corners, white
 * ones by sides: a 3 has 1, an 8 -1, a 0 0, a 4 that is broken one more than it should, a 3 that has closed to an 8 two fewer.
 * The number that a glyph should have is the caller's. It is kept for each character as a typesetter set it, and a fitted glyph is shown where its own is the same: guard an axis by
 * khs_lost_gaps while it is fitted, and ask this before showing. A number that differs means another shape. One that is equal is needed and not enough: a piece more and a hole more
 * cancel.
 * xs, ys, marks, ends: an outline as khs_path takes it. magnify: how many times it is made larger first, 1 to 64, else KHS_BAD_PARAMETER; with 1 the pixels are those of the display,
 * with more it is a closer look at the outline itself, whose time grows with it. Take no number from there unseen: at any magnification a slanted notch falls apart towards its end. Every
 * coordinate, also of points behind the last contour, is from -65,535 to 65,535 when it is magnified, else KHS_OUT_OF_RANGE.
 * The pixel of column i and row j has its centre at 64 i + 32 and 64 j + 32 units. It is black where the path winds around that: where the sum of +1 for each line that crosses the
 * centre's row upward and -1 for each that crosses it downward, at or left of the centre, is not 0. A line crosses the rows whose centre is at or above its lower end and below its
 * upper end. So the left and lower side of a shape is taken in, its right and upper side left out. A curve is sixteen lines, through its exact places at each sixteenth; a contour's way
 * back to its start is a line. A rasteriser that fills nonzero by pixel centres shows these pixels, but where a centre is on the outline, or between a curve and its lines.
 * An outline that is moved by whole pixels keeps both numbers.
 * Writes black, at most 4,194,304; euler, the Euler number: corners less sides plus pixels of the black squares taken together.
 * Answers: KHS_DONE, KHS_TOO_LONG, KHS_BAD_PARAMETER, KHS_BAD_INDEX, KHS_OUT_OF_RANGE. */
uint8_t khs_count_shown(const int32_t *xs, khs_length xs_len, const int32_t *ys, khs_length ys_len, const uint8_t *marks, khs_length marks_len,
                        const uint16_t *ends, khs_length ends_len, int32_t magnify, uint32_t *black, int32_t *euler);

/* Writes what khs_align_weak_points is given as one line of a log, so that it can be run again later: `refit` reads such lines. The line is the frame's bytes, each
 * as two upper-case hexadecimal digits: 01, the count of points, the count of contours, for each point its mark, original and current, then the contour ends. A
 * number is two bytes, signed, the high one first.
 * originals, currents, touched: one entry for each point, at most KHS_FRAME_PLACES, numbers from -32,768 to 32,767; a mark is kept as it is. ends: at most
 * KHS_FRAME_PLACES, each at most 255. They need not be what khs_align_weak_points accepts: what it refuses can be logged too.
 * line: room for the digits, 6 and 10 for each point and 2 for each contour; KHS_MOST_DIGITS is always enough. The line feed is the caller's.
 * Writes line, from its beginning on, digits alone: what stands behind them stays, so that no zero byte ends them; digits, how many they are.
 * Answers: KHS_DONE, KHS_TOO_LONG (the point lists differ in length, there are more than 255 points or contours, or the line is too short), KHS_BAD_INDEX (an end
 * above 255), KHS_OUT_OF_RANGE (a number that two signed bytes do not hold). */
uint8_t khs_write_frame(const int32_t *originals, khs_length originals_len, const int32_t *currents, khs_length currents_len, const uint8_t *touched,
                        khs_length touched_len, const uint16_t *ends, khs_length ends_len, uint8_t *line, khs_length line_len, uint32_t *digits);

/* Reads a line of a log, which is given without its line feed.
 * originals, currents, touched, ends: room for exactly KHS_FRAME_PLACES entries each.
 * Writes the rooms, from their beginnings on, what stands behind stays; points and contours, how many there are. Pass the first `points` entries of the first three
 * and the first `contours` of ends to khs_align_weak_points, which may refuse them. Written again they are the line, digit for digit.
 * Answers: KHS_DONE, KHS_NOT_FRAME (lower case, a carriage return or anything else that is no digit, a line that is cut, or has digits left over),
 * KHS_NOT_WORDS (a room of another length). */
uint8_t khs_read_frame(const uint8_t *line, khs_length line_len, int32_t *originals, khs_length originals_len, int32_t *currents, khs_length currents_len,
                       uint8_t *touched, khs_length touched_len, uint16_t *ends, khs_length ends_len, uint32_t *points, uint32_t *contours);

/* Turns the edges of an axis over, so that a table that was saved from top to bottom stands as the calls above want it: the last edge comes first, and so on.
 * segments: at most 512. edges: at most 128, KHS_EDGE_WORDS words each, and no room behind them. Either order is taken, and rings as they are, sound or not: turning
 * over twice gives both lists back. Every index is held against its list: link, serif, next and edge of segments, link, serif, first and last of edges.
 * A turned table need not be what khs_compute_edges makes of the segments.
 * Writes edges: each comes to stand in the place counted from the other end, with link and serif renumbered and all else, its mark too, as it was; and edge of
 * segments, renumbered.
 * Answers: KHS_DONE, KHS_TOO_LONG, KHS_BAD_INDEX, KHS_OUT_OF_RANGE, KHS_NOT_WORDS. */
uint8_t khs_turn_over(int32_t *segments, khs_length segments_len, int32_t *edges, khs_length edges_len);

/* Mends an axis that was saved with indices of records that are gone, or with rings that do not close.
 * A link or serif, of segments and of edges, that is not below its list's count becomes KHS_NONE, and so does such a next of a segment without an edge. The ring of an
 * edge is sound when following next from its first segment meets each segment whose edge it is once, no other, and ends at its last, whose next is its first. Where it is
 * not, first becomes the lowest of these segments, last the highest, and each leads to the next higher one, the last to the first. Nothing else is altered: a sound ring
 * stays in any order, and so does a next of a segment without an edge that is below the count. Mended again, nothing is altered.
 * segments: at most 512. edges: at most 128. altered: a room of exactly KHS_MOST_ALTERED * KHS_ALTERATION_WORDS words, else KHS_NOT_WORDS.
 * Writes link, serif and next of segments, link, serif, first and last of edges; altered, from the front on, a struct khs_alteration for each of these fields that is not
 * what it was, segments before edges, by index, and in a record in the order of this line; what stands behind them stays; count, how many there are: 0 where there was
 * nothing to mend.
 * Answers: KHS_DONE, KHS_TOO_LONG, KHS_OUT_OF_RANGE, KHS_BAD_INDEX (a segment's edge is not below the count of edges), KHS_BROKEN_RING (an edge is no segment's),
 * KHS_NOT_WORDS. */
uint8_t khs_mend(int32_t *segments, khs_length segments_len, int32_t *edges, khs_length edges_len, int32_t *altered, khs_length altered_len, int32_t *count);

/* Keeps of an axis the segments that serve its edges: those that have an edge, and those that kept ones name by link or serif, and no other.
 * segments: at most 512. edges: at most 128, and no room behind them. Every index is held against its list, those of segments that will be dropped too: link, serif, next and
 * edge of segments, link, serif, first and last of edges. The ring of every edge must be sound: from first each next leads to a segment of that edge, every one once and no other,
 * and ends at last, whose next is first. Numbers are not tested, and stay.
 * Writes segments: the kept ones in front, in their order, with link, serif and next renumbered, and next KHS_NONE where the segment has no edge; behind them, up to the old
 * count, empty segments, all 0 but link, serif, edge and next, which are KHS_NONE; first and last of edges, renumbered; count, how many are kept. Pass the first
 * count * KHS_SEGMENT_WORDS words to other calls. Every edge has the same segments in the same order as before. Done twice, nothing more changes.
 * Answers: KHS_DONE, KHS_TOO_LONG, KHS_BAD_INDEX, KHS_BROKEN_RING, KHS_NOT_WORDS. */
uint8_t khs_pack_axis(int32_t *segments, khs_length segments_len, int32_t *edges, khs_length edges_len, int32_t *count);

#ifdef __cplusplus
}
#endif

#endif
