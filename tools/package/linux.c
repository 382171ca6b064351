/* A program on Linux without a C library, for x86-64 and AArch64: where it starts, the calls of the system that refit and mend make, and the texts of their errors as the C library has them.
 * What the library wants beside that, memcpy and the like, is tools/driver/bare.c's. */
#include "linux.h"

#if defined __x86_64__
enum { READ = 0, WRITE = 1, OPEN_AT = 257, DUPLICATE = 292, EXIT_ALL = 231 };
__asm__(".globl _start\n_start:\n xor %ebp, %ebp\n mov %rsp, %rdi\n and $-16, %rsp\n call begin\n");

/* A call of the system: what it answers, or less than 0, its error. */
static long call(long number, long first, long second, long third, long fourth)
{
    long answer;
    register long last __asm__("r10") = fourth;
    __asm__ volatile("syscall" : "=a"(answer) : "a"(number), "D"(first), "S"(second), "d"(third), "r"(last) : "rcx", "r11", "memory");
    return answer;
}
#elif defined __aarch64__
enum { READ = 63, WRITE = 64, OPEN_AT = 56, DUPLICATE = 24, EXIT_ALL = 94 };
__asm__(".globl _start\n_start:\n mov x29, #0\n mov x30, #0\n mov x0, sp\n bl begin\n");

static long call(long number, long first, long second, long third, long fourth)
{
    register long which __asm__("x8") = number;
    register long answer __asm__("x0") = first;
    register long x1 __asm__("x1") = second;
    register long x2 __asm__("x2") = third;
    register long x3 __asm__("x3") = fourth;
    __asm__ volatile("svc #0" : "+r"(answer) : "r"(which), "r"(x1), "r"(x2), "r"(x3) : "memory");
    return answer;
}
#endif

enum { AT_FOLDER = -100 }; /* a name is looked up in the folder that the program runs in */

static const struct {
    int number;
    const char *text;
} errors[] = {
    {1, "Operation not permitted"}, {2, "No such file or directory"}, {4, "Interrupted system call"}, {5, "Input/output error"}, {6, "No such device or address"}, {9, "Bad file descriptor"},
    {11, "Resource temporarily unavailable"}, {12, "Cannot allocate memory"}, {13, "Permission denied"}, {14, "Bad address"}, {19, "No such device"}, {20, "Not a directory"}, {21, "Is a directory"},
    {22, "Invalid argument"}, {23, "Too many open files in system"}, {24, "Too many open files"}, {27, "File too large"}, {28, "No space left on device"}, {30, "Read-only file system"},
    {32, "Broken pipe"}, {36, "File name too long"}, {40, "Too many levels of symbolic links"}, {104, "Connection reset by peer"}, {107, "Transport endpoint is not connected"},
    {110, "Connection timed out"}, {116, "Stale file handle"}, {121, "Remote I/O error"}, {122, "Disk quota exceeded"},
};

/* The error of the last call that failed, and whether something was said on standard error. */
static int error, said;

static long tried(long answer)
{
    if (answer >= 0)
        return answer;
    error = (int)-answer;
    return -1;
}

long read(int from, void *to, size_t len) { return tried(call(READ, from, (long)to, (long)len, 0)); }

long write(int to, const void *from, size_t len)
{
    said |= to == MESSAGES;
    return tried(call(WRITE, to, (long)from, (long)len, 0));
}

/* The two functions by which the kit's library `os` tells why a call failed. */
int rattle_errno(void) { return error; }

int __xpg_strerror_r(int number, char *to, size_t len)
{
    const char *text = "an error that this program has no text for";
    for (size_t i = 0; i < sizeof errors / sizeof errors[0]; i++) {
        if (errors[i].number == number)
            text = errors[i].text;
    }
    for (size_t i = 0; i < len; i++) {
        to[i] = *text;
        if (*text++ == '\0')
            return 0;
    }
    return -1;
}

int same(const char *first, const char *second)
{
    while (*first != '\0' && *first == *second)
        first++, second++;
    return *first == *second;
}

static size_t length_of(const char *text)
{
    size_t len = 0;
    while (text[len] != '\0')
        len++;
    return len;
}

void say(const char *sentence) { write(MESSAGES, sentence, length_of(sentence)); }

_Noreturn void end(int status)
{
    for (;;)
        call(EXIT_ALL, status == 0 && said ? 1 : status, 0, 0, 0);
}

_Noreturn void fail(const char *sentence)
{
    char why[64] = "";
    __xpg_strerror_r(error, why, sizeof why);
    say(sentence);
    say(": ");
    say(why);
    say("\n");
    end(1);
}

void take_input(char **words, const char *usage, const char *sentence)
{
    if (words[0] == NULL)
        return;
    if (same(words[0], "--help") || same(words[0], "-h"))
        end(write(OUTPUT, usage, length_of(usage)) < 0);
    if (words[1] != NULL || words[0][0] == '-') {
        say(usage);
        end(2);
    }
    long file = tried(call(OPEN_AT, AT_FOLDER, (long)words[0], 0, 0));
    if (file < 0 || (file != INPUT && tried(call(DUPLICATE, file, INPUT, 0, 0)) < 0))
        fail(sentence);
}

int start_with(char **words);

/* Runs the program with the words of its command, behind its name, as Linux lays them on the stack. */
void begin(long *stack)
{
    end(start_with((char **)(stack + 2)));
}
