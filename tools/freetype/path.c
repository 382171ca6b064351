/* FreeType's walk as answers to jobs: job lines of call 15 on stdin, on stdout what FT_Outline_Decompose hands out, in the words of an answer to call 15.
   FreeType has no close: it ends a contour by a line back to the start or by a curve to it. That line is written as the close, and behind that curve a close
   is put, so that what differs from the oracle's answer is where the walk goes. The argument is FreeType's own shift, 0 if there is none: places are its units,
   shifted, divided by 64 shifted alike. What is no job of call 15 with lists that fit each other answers -1, and so does what FreeType refuses. */
#include <ft2build.h>
#include FT_FREETYPE_H
#include FT_OUTLINE_H
#include <stdint.h>
#include <stdio.h>
#include <stdlib.h>
#include <string.h>

enum { MOST = 8191, MOVE = 1, LINE = 2, CURVE = 3, CLOSE = 4, STEPS = 4 * MOST };

static int32_t words[4 * (MOST + 1) + 1];
static FT_Vector points[MOST + 1];
static char tags[MOST + 1];
static short ends[MOST];

/* What was handed out. */
static struct {
    int kind;
    FT_Vector first, second;
} steps[STEPS];
static int count;

/* Takes one step; an error where there is no room. */
static int take(int kind, FT_Vector first, FT_Vector second) {
    if (count == STEPS) return 1;
    steps[count].kind = kind;
    steps[count].first = first;
    steps[count++].second = second;
    return 0;
}

/* A contour's last line is the way back to its start; behind a curve to the start there is none. */
static int close_contour(void) {
    static const FT_Vector none;
    if (count == 0) return 0;
    if (steps[count - 1].kind != LINE) return take(CLOSE, none, none);
    steps[count - 1].kind = CLOSE;
    return 0;
}

static int move_to(const FT_Vector *to, void *user) { return (void)user, close_contour() || take(MOVE, *to, *to); }

static int line_to(const FT_Vector *to, void *user) { return (void)user, take(LINE, *to, *to); }

static int conic_to(const FT_Vector *control, const FT_Vector *to, void *user) { return (void)user, take(CURVE, *control, *to); }

/* The words of a line, how many; 0 if it is no line of words. */
static long parse(const char *line) {
    size_t length = strspn(line, "0123456789ABCDEF");
    if (line[length] != 0 || length % 8 || length / 8 > sizeof words / sizeof *words) return 0;
    for (size_t i = 0; i < length / 8; i++) {
        char digits[9] = {0};
        memcpy(digits, line + 8 * i, 8);
        words[i] = (int32_t)strtoul(digits, NULL, 16);
    }
    return (long)(length / 8);
}

/* Makes the outline of a job whose contour ends are below its point count; 0 if it is none. */
static int make(long length, FT_Outline *outline) {
    const int32_t *list[4];
    long at = 1;
    for (int i = 0; i < 4; at += 1 + words[at], i++) {
        if (at >= length || words[at] < 0 || words[at] > MOST) return 0;
        list[i] = words + at;
    }
    if (at != length || words[0] != 15 || *list[0] != *list[1] || *list[0] != *list[2]) return 0;
    for (int i = 0; i < *list[0]; i++) {
        points[i].x = list[0][i + 1];
        points[i].y = list[1][i + 1];
        tags[i] = list[2][i + 1] ? FT_CURVE_TAG_ON : FT_CURVE_TAG_CONIC;
    }
    for (int i = 0; i < *list[3]; i++) {
        if (list[3][i + 1] < 0 || list[3][i + 1] >= *list[0]) return 0;
        ends[i] = (short)list[3][i + 1];
    }
    *outline = (FT_Outline){.n_points = (short)*list[0], .n_contours = (short)*list[3], .points = points, .tags = tags, .contours = ends};
    return 1;
}

static void print_place(FT_Vector place, int shift) {
    float pixels[2] = {(float)place.x / (float)(64 << shift), (float)place.y / (float)(64 << shift)};
    uint32_t bits[2];
    memcpy(bits, pixels, sizeof bits);
    printf("%08X%08X", bits[0], bits[1]);
}

static void print_steps(int shift) {
    printf("%08X%08X", 0, count);
    for (int i = 0; i < count; i++) {
        printf("%08X", steps[i].kind);
        if (steps[i].kind != CLOSE) print_place(steps[i].first, shift);
        if (steps[i].kind == CURVE) print_place(steps[i].second, shift);
    }
    putchar('\n');
}

int main(int argc, char **argv) {
    int shift = argc > 1 ? atoi(argv[1]) : 0;
    FT_Outline_Funcs functions = {.move_to = move_to, .line_to = line_to, .conic_to = conic_to, .shift = shift};
    char *line = NULL;
    size_t room = 0;
    while (getline(&line, &room, stdin) > 0) {
        FT_Outline outline;
        line[strcspn(line, "\n")] = 0;
        count = 0;
        if (make(parse(line), &outline) && !FT_Outline_Decompose(&outline, &functions, NULL) && !close_contour()) print_steps(shift);
        else puts("FFFFFFFF");
    }
    free(line);
    return 0;
}
