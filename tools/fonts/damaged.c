/* Fonts with bytes changed at random through the three builds: each run in a process of its own, which ends alike and with the same outlines in all, or is told. */
#include "fonts.h"

#include <signal.h>
#include <stdio.h>
#include <stdlib.h>
#include <string.h>
#include <sys/wait.h>
#include <unistd.h>

/* How many glyphs of a run are loaded at each of the sizes, and how many seconds a run may take. */
enum { GLYPHS = 96, SECONDS = 20, TOLD = 10 };
static const int sizes[] = {9, 12, 16};

/* What a run came to: what it ended with, a digest of all outlines and errors, how many glyphs were loaded, and how many calls were refused. */
struct end {
    int status;
    uint64_t digest;
    long loaded, refused;
};

static uint32_t state;
static uint32_t below(uint32_t limit) {
    state ^= state << 13, state ^= state >> 17, state ^= state << 5;
    return state % limit;
}

/* Changes up to so many bytes; half of the time in the first 4,096, where the tables' places are. */
static void damage(unsigned char *bytes, size_t length) {
    int count = 1 + (int)below(below(2) ? 4 : 256);
    size_t limit = below(2) && length > 4096 ? 4096 : length;
    while (count--) bytes[below((uint32_t)limit)] = below(4) ? (unsigned char)below(256) : below(2) ? 0xFF : 0;
}

static void add(uint64_t *digest, const void *data, size_t length) {
    for (size_t i = 0; i < length; i++) *digest = (*digest ^ ((const unsigned char *)data)[i]) * 1099511628211U;
}

/* Loads glyphs of a font in memory, all over it. */
static void load_all(struct build *build, const struct asked *asked, const struct file *file, struct end *end) {
    FT_Error error = build->open(build->library, file->bytes, (FT_Long)file->length, 0, &build->face);
    add(&end->digest, &error, sizeof error);
    if (error) return;
    FT_ULong count = (FT_ULong)build->face->num_glyphs;
    for (size_t s = 0; s < sizeof sizes / sizeof *sizes; s++) {
        set_size(build, sizes[s]);
        for (FT_ULong i = 0; i < GLYPHS && i < count; i++) {
            const FT_Outline *outline = &build->face->glyph->outline;
            error = build->load(build->face, (FT_UInt)(count <= GLYPHS ? i : i * count / GLYPHS), hinted(asked));
            add(&end->digest, &error, sizeof error);
            if (error) continue;
            end->loaded++;
            add(&end->digest, outline->points, (size_t)outline->n_points * sizeof *outline->points);
            add(&end->digest, outline->tags, (size_t)outline->n_points);
        }
    }
    end->refused = *build->refused;
    build->close(build->face);
}

/* A run in a process of its own. */
static struct end run(struct build *build, const struct asked *asked, const struct file *file) {
    struct end end;
    int ends[2], status;
    memset(&end, 0, sizeof end); /* what is between its fields is sent, too */
    end.digest = 14695981039346656037U;
    fflush(stdout);
    if (pipe(ends)) exit(2);
    pid_t child = fork();
    if (child < 0) exit(2);
    if (!child) {
        alarm(SECONDS);
        load_all(build, asked, file, &end);
        _exit(write(ends[1], &end, sizeof end) != sizeof end);
    }
    close(ends[1]);
    if (read(ends[0], &end, sizeof end) != sizeof end) end = (struct end){0, 0, 0, 0};
    close(ends[0]);
    waitpid(child, &status, 0);
    end.status = WIFSIGNALED(status) ? WTERMSIG(status) : WEXITSTATUS(status) ? -WEXITSTATUS(status) : 0;
    return end;
}

int damaged(const struct asked *asked) {
    long different = 0, faults = 0, late = 0, loaded = 0, opened_at_all = 0, refused[BUILDS] = {0};
    struct file *files = calloc((size_t)asked->font_count, sizeof *files);
    for (int i = 0; i < asked->font_count; i++) {
        files[i] = read_file(asked->fonts[i]);
        if (!files[i].length) return fprintf(stderr, "fonts: %s cannot be read\n", asked->fonts[i]), 2;
    }
    state = asked->seed * 2654435761U | 1;
    for (long n = 0; n < asked->count; n++) {
        const struct file *whole = &files[n % asked->font_count];
        struct file file = {malloc(whole->length), whole->length};
        struct end ends[BUILDS];
        if (!file.bytes) return 2;
        memcpy(file.bytes, whole->bytes, whole->length);
        damage(file.bytes, file.length);
        int rule = (int)(n / asked->font_count % RULES);
        for (int b = 0; b < BUILDS; b++) {
            *builds[b].rule = rule;
            ends[b] = run(&builds[b], asked, &file);
            refused[b] += ends[b].refused;
        }
        free(file.bytes);
        loaded += ends[OWN].loaded;
        opened_at_all += ends[OWN].loaded > 0;
        faults += ends[OWN].status > 0 && ends[OWN].status != SIGALRM;
        late += ends[OWN].status == SIGALRM;
        for (int b = CALLS; b < BUILDS; b++)
            if ((ends[b].status != ends[OWN].status || ends[b].digest != ends[OWN].digest) && different++ < TOLD)
                printf("  different: run %ld of %s, by %s: ends with %d, FreeType's own with %d\n", n, base_of(asked->fonts[n % asked->font_count]), build_names[b], ends[b].status, ends[OWN].status);
    }
    printf("%ld damaged fonts, made of %d, seed %u: %ld with glyphs that can be loaded, %ld glyphs; %ld end by a fault of FreeType's own, %ld are not done in %d seconds; refused calls %ld and %ld; %ld end otherwise by the "
           "library\n", asked->count, asked->font_count, asked->seed, opened_at_all, loaded, faults, late, (int)SECONDS, refused[CALLS], refused[ONE], different);
    return different != 0;
}
