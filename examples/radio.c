/* Sends a saved axis by radio, as a gateway does: mends it and prints what was altered, packs it so that segments that serve no edge stay behind, and prints how many words
 * go out. An axis that is refused is not sent. */
#include "khsaemudol.h"

#include <stdio.h>

/* The lengths of the axis's two lists, in words. */
enum { SEGMENTS_LEN = 4 * KHS_SEGMENT_WORDS, EDGES_LEN = 2 * KHS_EDGE_WORDS };

/* A bar from 0 to 80. Its lower side had segments 1, 3 and 4 when it was saved. Segment 4 was removed since, but the link of segment 0, the next of segment 3 and the last of
 * edge 0 still name it. Segment 2 was too short for an edge. */
static struct khs_segment segments[4] = {
    /* flags, dir, pos, delta, min_coord, max_coord, height, score, len, link, serif, first, last, edge, next */
    {0, KHS_DIR_RIGHT, 80, 0, 10, 400, 390, 32000, 0, 4, KHS_NONE, 0, 1, 1, 0},
    {0, KHS_DIR_LEFT, 0, 0, 250, 400, 150, 32000, 0, 0, KHS_NONE, 2, 3, 0, 3},
    {0, KHS_DIR_LEFT, 20, 0, 240, 250, 10, 32000, 0, 0, KHS_NONE, 4, 5, KHS_NONE, KHS_NONE},
    {0, KHS_DIR_LEFT, 0, 0, 120, 240, 120, 32000, 0, 0, KHS_NONE, 6, 7, 0, 4},
};
static struct khs_edge edges[2] = {
    /* fpos, opos, pos, flags, dir, blue, blue_fitted, link, serif, first, last, mark */
    {0, 0, 0, 0, KHS_DIR_LEFT, 0, 0, 1, KHS_NONE, 1, 4, KHS_MARK_NOTHING},
    {80, 61, 61, 0, KHS_DIR_RIGHT, 0, 0, 0, KHS_NONE, 0, 0, KHS_MARK_NOTHING},
};

/* Why mending or packing refuses an axis. */
static const char *reason(uint8_t answer)
{
    switch (answer) {
    case KHS_TOO_LONG:
        return "it has too many segments or edges";
    case KHS_BAD_INDEX:
        return "an index is beyond its list";
    case KHS_OUT_OF_RANGE:
        return "a number is outside its limits";
    case KHS_BROKEN_RING:
        return "the segments of an edge are no ring, or it has none";
    case KHS_NOT_WORDS:
        return "a word is none of its field's values";
    default:
        return "none that the header gives";
    }
}

/* Prints an index, or that there is none. */
static void print_index(int32_t index)
{
    if (index == KHS_NONE)
        printf(" none");
    else
        printf(" %d", (int)index);
}

/* Mends the axis, and prints each index that was altered. */
static uint8_t mend(void)
{
    static const char *const fields[] = {"link", "serif", "next", "first", "last"};
    static struct khs_alteration altered[KHS_MOST_ALTERED];
    int32_t count;
    uint8_t answer = khs_mend((int32_t *)segments, SEGMENTS_LEN, (int32_t *)edges, EDGES_LEN, (int32_t *)altered,
                              KHS_MOST_ALTERED * KHS_ALTERATION_WORDS, &count);
    if (answer != KHS_DONE)
        return answer;
    printf("mended %d indices\n", (int)count);
    for (int32_t i = 0; i < count; i++) {
        printf("  %s of %s %d:", fields[altered[i].field], altered[i].table == KHS_EDGES ? "edge" : "segment", (int)altered[i].index);
        print_index(altered[i].was);
        printf(" ->");
        print_index(altered[i].is);
        printf("\n");
    }
    return answer;
}

/* Packs the axis, and tells by *kept how many segments are left. */
static uint8_t pack(int32_t *kept)
{
    uint8_t answer = khs_pack_axis((int32_t *)segments, SEGMENTS_LEN, (int32_t *)edges, EDGES_LEN, kept);
    if (answer == KHS_DONE)
        printf("packed to %d segments\n", (int)*kept);
    return answer;
}

/* Sends the axis, and hands back how many words went out. */
static int send_axis(FILE *radio, int32_t kept)
{
    size_t sent = fwrite(segments, sizeof(int32_t), (size_t)kept * KHS_SEGMENT_WORDS, radio);
    return (int)(sent + fwrite(edges, sizeof(int32_t), EDGES_LEN, radio));
}

int main(void)
{
    int32_t kept;
    FILE *radio = tmpfile(); /* it stands for the radio */
    if (!khs_version_fits())
        return 1;
    uint8_t answer = mend();
    if (answer == KHS_DONE)
        answer = pack(&kept);
    if (answer != KHS_DONE)
        printf("not sent, refused by %d: %s\n", answer, reason(answer));
    if (answer != KHS_DONE || !radio)
        return 1;
    printf("sent %d words in place of %d\n", send_axis(radio, kept), SEGMENTS_LEN + EDGES_LEN);
    return 0;
}
