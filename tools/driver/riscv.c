/* Standard input and output of replay.c on a bare RISC-V board whose console is the emulator's (semihosting), for picolibc; a fault ends it with status 1. */
#include <stdint.h>
#include <stdio.h>

enum { OPEN = 1, WRITE = 5, READ = 6, EXIT = 0x20 };  /* what is asked of the emulator */
enum { MODE_READ = 0, MODE_WRITE = 4, STOPPED = 0x20026 };

/* Asks the emulator, by the three instructions that it looks for. */
static uintptr_t ask(uintptr_t what, const uintptr_t *given)
{
    register uintptr_t a0 __asm__("a0") = what;
    register const uintptr_t *a1 __asm__("a1") = given;
    __asm__ volatile(".option push\n.option norvc\nslli zero, zero, 0x1f\nebreak\nsrai zero, zero, 7\n.option pop" : "+r"(a0) : "r"(a1) : "memory");
    return a0;
}

static uintptr_t opened(uintptr_t mode)
{
    const uintptr_t given[] = {(uintptr_t) ":tt", mode, 3};
    return ask(OPEN, given);
}

static int get(FILE *file)
{
    static unsigned char block[4096];
    static size_t len, at;
    static uintptr_t input;
    (void)file;
    if (at == len) {
        if (input == 0)
            input = opened(MODE_READ);
        const uintptr_t given[] = {input, (uintptr_t)block, sizeof block};
        len = sizeof block - ask(READ, given);
        at = 0;
        if (len == 0)
            return _FDEV_EOF;
    }
    return block[at++];
}

static char line[4096];
static size_t used;

static int flush(FILE *file)
{
    static uintptr_t output;
    (void)file;
    if (output == 0)
        output = opened(MODE_WRITE);
    const uintptr_t given[] = {output, (uintptr_t)line, used};
    used = 0;
    return ask(WRITE, given) == 0 ? 0 : EOF;
}

static int put(char c, FILE *file)
{
    line[used++] = c;
    return used == sizeof line && flush(file) != 0 ? EOF : (unsigned char)c;
}

static FILE console = FDEV_SETUP_STREAM(put, get, flush, _FDEV_SETUP_RW);
FILE *const stdin = &console, *const stdout = &console, *const stderr = &console;

void _exit(int status)
{
    const uintptr_t given[] = {STOPPED, (uintptr_t)status};
    for (;;)
        ask(EXIT, given);
}

/* Where a fault leads to, as by a pointer that is NULL: the board has nothing at address 0. */
__attribute__((aligned(4))) static void fault(void)
{
    _exit(1);
}

__attribute__((constructor)) static void watch(void)
{
    __asm__ volatile(".option push\n.option arch, +zicsr\ncsrw mtvec, %0\n.option pop" : : "r"(fault));
}
