/* What client.c keeps of a glyph for the programs that look at it: by axis and step, the tables that the step left, in the words of the library, and the job that led to them, in those of `replay`. */
#ifndef KHS_KEPT_H_
#define KHS_KEPT_H_

#include <stdint.h>

/* The steps of an axis: each but the last is a call in place of a routine of FreeType's, the last is all from blue zones to weak points in one call. */
enum { AF_KHS_LINKED, AF_KHS_BUILT, AF_KHS_BLUES, AF_KHS_STEMS, AF_KHS_M, AF_KHS_REMAINING, AF_KHS_EDGE_POINTS, AF_KHS_STRONG, AF_KHS_WEAK, AF_KHS_FITTED, AF_KHS_STEPS };

/* Words, as many as the largest job has: segments, edges, six lists of points, standards and numbers. */
enum { AF_KHS_ROOM = 512 * 15 + 128 * 12 + 6 * 4096 + 64 };
struct af_khs_words {
    int count;
    int32_t words[AF_KHS_ROOM];
};

#endif
