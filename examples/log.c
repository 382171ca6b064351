/* Logs two weak-point jobs, a line each, as a gateway does before it aligns them, then reads the lines as a reader of the log does and runs the jobs again: prints each line, and
 * where its points come to. */
#include "khsaemudol.h"

#include <stdio.h>
#include <string.h>

/* An outline on one axis. A list of length 0 may be NULL. */
struct outline {
    const int32_t *originals, *currents;
    const uint8_t *touched;
    khs_length points;
    const uint16_t *ends;
    khs_length contours;
};

/* Writes a job as a line of a log. The frame is digits alone: behind it stands neither a zero byte nor a line feed. */
static int log_job(FILE *log, const struct outline *job)
{
    uint8_t line[KHS_MOST_DIGITS];
    uint32_t digits;
    uint8_t answer = khs_write_frame(job->originals, job->points, job->currents, job->points, job->touched, job->points, job->ends, job->contours, line,
                                     sizeof line, &digits);
    return answer == KHS_DONE && fprintf(log, "%.*s\n", (int)digits, (const char *)line) > 0;
}

/* Runs the job of a line again, which is given without its line feed. */
static int run_line(const char *line)
{
    static int32_t originals[KHS_FRAME_PLACES], currents[KHS_FRAME_PLACES];
    static uint8_t touched[KHS_FRAME_PLACES];
    static uint16_t ends[KHS_FRAME_PLACES];
    uint32_t points, contours;
    if (khs_read_frame((const uint8_t *)line, strlen(line), originals, KHS_FRAME_PLACES, currents, KHS_FRAME_PLACES, touched, KHS_FRAME_PLACES, ends,
                       KHS_FRAME_PLACES, &points, &contours) != KHS_DONE)
        return 0;
    if (khs_align_weak_points(originals, points, currents, points, touched, points, ends, contours) != KHS_DONE)
        return 0;
    printf("%s:", line);
    for (uint32_t i = 0; i < points; i++)
        printf(" %d", (int)currents[i]);
    printf("\n");
    return 1;
}

int main(void)
{
    /* three points of one contour, of which the first was moved from 0 to 5; and an outline without points */
    const int32_t originals[] = {0, 10, 20}, currents[] = {5, 99, 20};
    const uint8_t touched[] = {1, 0, 0};
    const uint16_t ends[] = {2};
    const struct outline moved = {originals, currents, touched, 3, ends, 1}, empty = {NULL, NULL, NULL, 0, NULL, 0};
    char line[KHS_MOST_DIGITS + 2]; /* the line feed and a zero byte */
    FILE *log = tmpfile();
    if (!khs_version_fits() || !log || !log_job(log, &moved) || !log_job(log, &empty))
        return 1;
    rewind(log);
    while (fgets(line, sizeof line, log)) {
        line[strcspn(line, "\n")] = '\0';
        if (!run_line(line))
            return 1;
    }
    return 0;
}
