/* fonts MODE [OPTION..] FONT..: what the commands in tools/fonts run, ./bench fonts and ./specimen --font. The three builds stand beside the program; see fonts.h. */
#include "fonts.h"

#include <dlfcn.h>
#include <stdio.h>
#include <stdlib.h>
#include <string.h>

struct build builds[BUILDS];
const char *const build_names[BUILDS] = {"own", "calls", "one"}, *const rule_names[RULES] = {"keep", "snap"};
const char *const step_names[AF_KHS_STEPS] = {"linking", "building", "blues", "stems", "lowercase m", "remaining edges", "edge points", "strong points", "weak points", "one call"};

static void fail(const char *what) {
    fprintf(stderr, "fonts: %s\n", what);
    exit(2);
}

static void *named(void *library, const char *name) {
    void *found = dlsym(library, name);
    if (!found) fail(dlerror());
    return found;
}

/* Loads a build, each with its own names. */
static void load(struct build *build, const char *program, const char *name) {
    char path[4096];
    FT_Error (*init)(FT_Library *);
    snprintf(path, sizeof path, "%.*s%s.so", (int)(base_of(program) - program), program, name);
    void *library = dlopen(path, RTLD_NOW | RTLD_LOCAL);
    if (!library) fail(dlerror());
    init = named(library, "FT_Init_FreeType");
    build->open = named(library, "FT_New_Memory_Face");
    build->close = named(library, "FT_Done_Face");
    build->size = named(library, "FT_Set_Char_Size");
    build->load = named(library, "FT_Load_Glyph");
    build->first = named(library, "FT_Get_First_Char");
    build->next = named(library, "FT_Get_Next_Char");
    build->index = named(library, "FT_Get_Char_Index");
    build->rule = named(library, "af_khs_rule");
    build->watch = named(library, "af_khs_watch");
    build->timed = named(library, "af_khs_timed");
    build->time = named(library, "af_khs_time");
    build->answers = named(library, "af_khs_answers");
    build->refused = named(library, "af_khs_refused");
    build->left = named(library, "af_khs_left");
    build->tables = named(library, "af_khs_tables");
    build->jobs = named(library, "af_khs_jobs");
    if (init(&build->library)) fail("FreeType cannot be started");
}

const char *base_of(const char *path) { return strrchr(path, '/') ? strrchr(path, '/') + 1 : path; }

FT_Int32 hinted(const struct asked *asked) { return FT_LOAD_FORCE_AUTOHINT | FT_LOAD_NO_BITMAP | asked->target; }

struct file read_file(const char *path) {
    FILE *in = fopen(path, "rb");
    struct file file = {NULL, 0};
    long length = in && !fseek(in, 0, SEEK_END) ? ftell(in) : 0;
    if (length > 0) {
        rewind(in);
        file.bytes = malloc((size_t)length);
        if (file.bytes && fread(file.bytes, 1, (size_t)length, in) == (size_t)length) file.length = (size_t)length;
    }
    if (in) fclose(in);
    return file;
}

int opened(struct build *build, const char *path) {
    static struct file file;
    static const char *of;
    if (of != path) {
        free(file.bytes);
        file = read_file(path), of = path;
    }
    return file.length && !build->open(build->library, file.bytes, (FT_Long)file.length, 0, &build->face);
}

int all_opened(const char *path) {
    for (int b = 0; b < BUILDS; b++)
        if (!opened(&builds[b], path)) {
            fprintf(stderr, "fonts: %s is no font that can be read\n", path);
            return 0;
        }
    return 1;
}

void close_all(void) {
    for (int b = 0; b < BUILDS; b++) builds[b].close(builds[b].face);
}

int each_font(const struct asked *asked, font_work *work) {
    for (int i = 0; i < asked->font_count; i++) {
        if (!all_opened(asked->fonts[i])) return 0;
        for (int rule = KEEP; rule < RULES; rule++)
            if (asked->rules[rule]) work(asked, asked->fonts[i], rule);
        close_all();
    }
    return 1;
}

void set_size(struct build *build, int pixels) { build->size(build->face, pixels * 64, pixels * 64, 72, 72); }

/* The next character of a text in UTF-8, or 0 at its end; a byte that begins none is itself. */
static FT_ULong character(const unsigned char **text) {
    FT_ULong c = *(*text)++;
    int more = c >= 0xF0 ? 3 : c >= 0xE0 ? 2 : c >= 0xC0 ? 1 : 0;
    if (more) c &= 0x3FUL >> more;
    for (; more && (**text & 0xC0) == 0x80; more--) c = c << 6 | (*(*text)++ & 0x3F);
    return c;
}

int glyphs_of(struct build *build, const char *text, struct glyph **list) {
    size_t most = (size_t)build->face->num_glyphs + 1;
    char *seen = calloc(most, 1);
    const unsigned char *at = (const unsigned char *)text;
    FT_UInt index = 0;
    int n = 0;
    *list = calloc(most, sizeof **list);
    if (!seen || !*list) fail("there is no memory left");
    for (FT_ULong c = text ? character(&at) : build->first(build->face, &index); text ? c : index; c = text ? character(&at) : build->next(build->face, c, &index)) {
        if (text) index = build->index(build->face, c);
        if (!index || index >= most || seen[index]) continue;
        seen[index] = 1;
        (*list)[n++] = (struct glyph){index, c};
    }
    free(seen);
    return n;
}

void print_words(const struct af_khs_words *words) {
    for (int i = 0; i < words->count; i++) printf("%08X", (unsigned)words->words[i]);
    printf("\n");
}

static int is(const char *word, const char *name) { return !strcmp(word, name); }

/* Reads the words of a command, or ends with status 2. */
static struct asked read_words(int count, char **words) {
    struct asked asked = {8, 24, {1, 1}, FT_LOAD_TARGET_NORMAL, NULL, 10000, 1, 0, words};
    for (int i = 0; i < count; i++) {
        if (words[i][0] != '-') {
            asked.fonts[asked.font_count++] = words[i];
            continue;
        }
        if (i + 1 == count) fail("an option wants a word behind it");
        char *option = words[i], *word = words[++i], *behind;
        if (is(option, "--sizes")) {
            asked.smallest = asked.largest = (int)strtol(word, &behind, 10);
            if (*behind == '-') asked.largest = (int)strtol(behind + 1, &behind, 10);
            if (*behind || asked.smallest < 1 || asked.largest < asked.smallest || asked.largest > 255) fail("--sizes is FROM-TO, of 1 to 255 pixels");
        } else if (is(option, "--rule")) {
            if (!is(word, "keep") && !is(word, "snap")) fail("--rule is keep or snap");
            asked.rules[KEEP] = is(word, "keep"), asked.rules[SNAP] = is(word, "snap");
        } else if (is(option, "--target")) {
            if (!is(word, "normal") && !is(word, "mono") && !is(word, "light")) fail("--target is normal, mono or light");
            asked.target = is(word, "normal") ? FT_LOAD_TARGET_NORMAL : is(word, "mono") ? FT_LOAD_TARGET_MONO : FT_LOAD_TARGET_LIGHT;
        } else if (is(option, "--text")) asked.text = word;
        else if (is(option, "--count")) asked.count = strtol(word, NULL, 10);
        else if (is(option, "--seed")) asked.seed = (unsigned)strtoul(word, NULL, 10);
        else fail("an option is none");
    }
    if (!asked.font_count) fail("no font is named");
    return asked;
}

int main(int argc, char **argv) {
    static const struct { const char *name; int (*run)(const struct asked *); } modes[] = {{"compare", compare}, {"damaged", damaged}, {"time", timed}, {"label", labels}, {"jobs", jobs}};
    if (argc < 2) fail("compare, damaged, time, label or jobs?");
    for (int b = 0; b < BUILDS; b++) load(&builds[b], argv[0], build_names[b]);
    struct asked asked = read_words(argc - 2, argv + 2);
    for (size_t m = 0; m < sizeof modes / sizeof *modes; m++)
        if (is(argv[1], modes[m].name)) return modes[m].run(&asked);
    fail("compare, damaged, time, label or jobs?");
}
