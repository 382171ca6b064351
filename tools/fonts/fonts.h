/* Three FreeTypes in one program: FreeType's own routines, the library call by call, and the library with one call behind building. */
#ifndef KHS_FONTS_H
#define KHS_FONTS_H

#include <ft2build.h>
#include <freetype/freetype.h>

#include "kept.h"

enum { OWN, CALLS, ONE, BUILDS };
enum { KEEP, SNAP, RULES };

struct build {
    FT_Error (*open)(FT_Library, const FT_Byte *, FT_Long, FT_Long, FT_Face *);
    FT_Error (*close)(FT_Face);
    FT_Error (*size)(FT_Face, FT_F26Dot6, FT_F26Dot6, FT_UInt, FT_UInt);
    FT_Error (*load)(FT_Face, FT_UInt, FT_Int32);
    FT_ULong (*first)(FT_Face, FT_UInt *);
    FT_ULong (*next)(FT_Face, FT_ULong, FT_UInt *);
    FT_UInt (*index)(FT_Face, FT_ULong);
    FT_Library library;
    FT_Face face;
    /* the client's, see client.c */
    int *rule, *watch, *timed;
    double *time;
    long (*answers)[256], *refused, *left;
    struct af_khs_words (*tables)[AF_KHS_STEPS], (*jobs)[AF_KHS_STEPS];
};

/* What the words of a command ask for: its options, and behind them its fonts. */
struct asked {
    int smallest, largest;             /* --sizes: pixels to the em */
    int rules[RULES];                  /* --rule: keep or snap, else both */
    FT_Int32 target;                   /* --target: normal, mono or light */
    const char *text;                  /* --text: characters, in UTF-8, else all that the font has */
    long count;                        /* --count */
    unsigned seed;                     /* --seed */
    int font_count;
    char **fonts;
};

extern struct build builds[BUILDS];
extern const char *const build_names[BUILDS], *const rule_names[RULES], *const step_names[AF_KHS_STEPS];

/* The modes of the program: each tells its status. */
int compare(const struct asked *asked);
int damaged(const struct asked *asked);
int timed(const struct asked *asked);
int labels(const struct asked *asked);
int jobs(const struct asked *asked);

/* How a glyph is loaded: hinted by the autofitter whatever the font has. */
FT_Int32 hinted(const struct asked *asked);

/* The bytes of a file, none where it cannot be read; the caller frees them. */
struct file {
    unsigned char *bytes;
    size_t length;
};
struct file read_file(const char *path);

/* Opens a font in a build, or in all, and tells whether that was done. It is read once: what is opened stays until another is. */
int opened(struct build *build, const char *path);
int all_opened(const char *path);
void close_all(void);

/* Work on one font, opened by every build, by one rule. */
typedef void font_work(const struct asked *asked, const char *path, int rule);

/* Does it with every font and rule asked for; tells whether all could be opened. */
int each_font(const struct asked *asked, font_work *work);

/* Sets a size, in pixels to the em. */
void set_size(struct build *build, int pixels);

/* A glyph and the character that leads to it. */
struct glyph {
    FT_UInt index;
    FT_ULong character;
};

/* The glyphs of a text, or those that characters of the font map to, each once; the caller frees the list. */
int glyphs_of(struct build *build, const char *text, struct glyph **list);

/* A path without its folders. */
const char *base_of(const char *path);

/* Writes words as a job line. */
void print_words(const struct af_khs_words *words);

#endif
