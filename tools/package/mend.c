/* mend [--axes] [FILE]: ./mend as one program over the library, which needs neither the kit nor Perl: mends the axes of a file, each a line, the job of call 121, by khs_mend, and prints what was
 * altered, a line for each field; or, with --axes, the mended axes. It holds one line at a time, and of a line that is longer than every axis as much as the longest axis has. */
#include "khsaemudol.h"
#include "linux.h"

enum {
    MEND = 121, /* the number of the call, a job's first word */
    DIGITS = 8, /* of a word */
    MOST_COUNT = 65535,
    MOST_WORDS = 3 + KHS_SEGMENT_WORDS * KHS_MOST_SEGMENTS + KHS_EDGE_WORDS * KHS_MOST_EDGES
};

/* A list of an axis: how many records it has, and the words of those that a job carries, which are not more than the limit. */
struct table {
    int32_t count;
    int32_t *words;
    khs_length len;
};

struct axis {
    struct table segments, edges;
    uint8_t answer;  /* of khs_mend */
    int32_t altered; /* how many fields */
};

static uint8_t line[DIGITS * MOST_WORDS]; /* the beginning of the line that is read */
static size_t length;                     /* how many bytes of it are held, and one more where that is not all */
static uint64_t number;                   /* of the lines that have ended */
static int32_t words[MOST_WORDS];
static struct khs_alteration alterations[KHS_MOST_ALTERED];
static uint8_t printed[65536];
static size_t waiting; /* of what is printed */
static int axes_alone; /* with --axes */

static const char cannot_read[] = "mend: the file cannot be read";

static void flush(void)
{
    for (size_t at = 0; at < waiting;) {
        long put = write(OUTPUT, printed + at, waiting - at);
        if (put < 0)
            fail("mend: the output cannot be written");
        at += (size_t)put;
    }
    waiting = 0;
}

static void print_byte(uint8_t byte)
{
    if (waiting == sizeof printed)
        flush();
    printed[waiting++] = byte;
}

static void print(const char *text)
{
    while (*text != '\0')
        print_byte((uint8_t)*text++);
}

static void print_number(uint64_t number)
{
    if (number >= 10)
        print_number(number / 10);
    print_byte((uint8_t)('0' + number % 10));
}

static void print_index(int32_t index)
{
    if (index < 0)
        print("none");
    else
        print_number((uint64_t)index);
}

static void print_word(int32_t word)
{
    for (int shift = 28; shift >= 0; shift -= 4)
        print_byte((uint8_t)"0123456789ABCDEF"[(uint32_t)word >> shift & 15]);
}

/* The value of an upper-case hexadecimal digit, or -1. */
static int digit(uint8_t byte)
{
    if ('0' <= byte && byte <= '9')
        return byte - '0';
    return 'A' <= byte && byte <= 'F' ? byte - 'A' + 10 : -1;
}

/* Reads the words of the line, and tells how many they are, or 0 where it is none of whole words. */
static size_t read_words(void)
{
    if (length > sizeof line || length % DIGITS != 0)
        return 0;
    for (size_t i = 0; i < length / DIGITS; i++) {
        uint32_t word = 0;
        for (size_t j = 0; j < DIGITS; j++) {
            int value = digit(line[DIGITS * i + j]);
            if (value < 0)
                return 0;
            word = word << 4 | (uint32_t)value;
        }
        words[i] = (int32_t)word;
    }
    return length / DIGITS;
}

/* Reads a list at the head of some words, and tells how many it takes, or 0 where it is none. */
static size_t read_table(struct table *table, int32_t *from, size_t len, int32_t most, size_t size)
{
    if (len == 0 || from[0] < 0 || from[0] > MOST_COUNT)
        return 0;
    table->count = from[0];
    table->words = from + 1;
    table->len = (khs_length)(from[0] < most ? from[0] : most) * size;
    return table->len < len ? (size_t)table->len + 1 : 0;
}

/* Mends the axis that the line is, and tells whether it is one. A list beyond its limit is mended as far as it is carried, to learn whether all its words are those of their fields. */
static int mend_line(struct axis *axis)
{
    size_t count = read_words();
    if (count == 0 || words[0] != MEND)
        return 0;
    size_t at = 1, size = read_table(&axis->segments, words + at, count - at, KHS_MOST_SEGMENTS, KHS_SEGMENT_WORDS);
    at += size;
    if (size == 0)
        return 0;
    size = read_table(&axis->edges, words + at, count - at, KHS_MOST_EDGES, KHS_EDGE_WORDS);
    if (size == 0 || at + size != count)
        return 0;
    axis->answer = khs_mend(axis->segments.words, axis->segments.len, axis->edges.words, axis->edges.len, (int32_t *)alterations,
                            KHS_MOST_ALTERED * KHS_ALTERATION_WORDS, &axis->altered);
    if (axis->answer == KHS_NOT_WORDS)
        return 0;
    if (axis->segments.count > KHS_MOST_SEGMENTS || axis->edges.count > KHS_MOST_EDGES)
        axis->answer = KHS_TOO_LONG;
    return 1;
}

/* The lowest edge that is no segment's. */
static int32_t empty_edge(const struct axis *axis)
{
    const struct khs_segment *segments = (const struct khs_segment *)axis->segments.words;
    for (int32_t edge = 0;; edge++) {
        int32_t i = 0;
        while (i < axis->segments.count && segments[i].edge != edge)
            i++;
        if (i == axis->segments.count)
            return edge;
    }
}

static void print_begin(void)
{
    print_number(number);
    print(": ");
}

static void tell(const char *text)
{
    print_begin();
    print(text);
    print("\n");
}

/* Tells of a field what it held, and what it holds. */
static void tell_field(const struct khs_alteration *alteration)
{
    static const char *const tables[] = {"segment ", "edge "}, *const fields[] = {" link ", " serif ", " next ", " first ", " last "};
    print_begin();
    print(tables[alteration->table]);
    print_index(alteration->index);
    print(fields[alteration->field]);
    print_index(alteration->was);
    print(" -> ");
    print_index(alteration->is);
    print("\n");
}

/* Tells why an axis was refused. */
static void tell_refusal(const struct axis *axis)
{
    print_begin();
    print("refused by ");
    print_number(axis->answer);
    if (axis->answer == KHS_BROKEN_RING) {
        print(", edge ");
        print_index(empty_edge(axis));
        print(" has no segments");
    }
    print("\n");
}

/* Tells what is altered of the line, or why nothing is. */
static void tell_line(void)
{
    struct axis axis;
    if (!mend_line(&axis)) {
        tell("not an axis");
    } else if (axis.answer != KHS_DONE) {
        tell_refusal(&axis);
    } else {
        for (int32_t i = 0; i < axis.altered; i++)
            tell_field(&alterations[i]);
        if (axis.altered == 0)
            tell("nothing to mend");
    }
}

static void print_held(void)
{
    for (size_t i = 0; i < length; i++)
        print_byte(line[i]);
}

/* Prints the line with its axis mended, or as it came; one that is not held whole is printed already. */
static void print_axis(void)
{
    struct axis axis;
    if (mend_line(&axis) && axis.answer == KHS_DONE) {
        for (size_t i = 0; i < length / DIGITS; i++)
            print_word(words[i]);
    } else if (length <= sizeof line) {
        print_held();
    }
    print("\n");
}

/* Prints what there is to print of the line, which ends here. */
static void end_line(void)
{
    number++;
    if (axes_alone)
        print_axis();
    else
        tell_line();
    length = 0;
}

/* Takes a byte of the line. Where lines are printed as they came, what is not held is printed, behind what is. */
static void take(uint8_t byte)
{
    if (length < sizeof line) {
        line[length++] = byte;
        return;
    }
    if (axes_alone && length == sizeof line)
        print_held();
    length = sizeof line + 1;
    if (axes_alone)
        print_byte(byte);
}

int start_with(char **arguments)
{
    static uint8_t block[65536];
    axes_alone = arguments[0] != NULL && same(arguments[0], "--axes");
    take_input(arguments + axes_alone,
               "usage: mend [--axes] [FILE], or mend [--axes] <FILE: mends saved axes, each a line, and prints what was altered, or the axes (docs/REFIT.md)\n", cannot_read);
    for (;;) {
        flush();
        long got = read(INPUT, block, sizeof block);
        if (got < 0)
            fail(cannot_read);
        if (got == 0)
            break;
        for (long i = 0; i < got; i++) {
            if (block[i] == '\n')
                end_line();
            else
                take(block[i]);
        }
    }
    if (length > 0)
        end_line();
    flush();
    return 0;
}
