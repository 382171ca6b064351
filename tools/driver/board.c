/* The start of replay.c on a bare Cortex-M board whose console is the emulator's (semihosting): the vectors, the memory as C expects it, and, behind the run, the
 * stack that it took, told on standard error. The stack is painted before, and what is no longer paint was written to. The memory at address 0 is shut, so that what
 * reads or writes through NULL is stopped, as it is on a system. */
#include <stdint.h>
#include <stdio.h>
#include <stdlib.h>

/* Places that board.ld names. */
extern uint32_t bss_start[], bss_end[], stack_bottom[], paint_end[], stack_top[];

void initialise_monitor_handles(void); /* of the C library: opens the console */
int main(void);

enum { PAINT = 0x5A5A5A5A };

/* The core's memory protection: its control register, and the place, size and rights of a region. */
enum { MPU_CONTROL = 0xE000ED94, MPU_PLACE = 0xE000ED9C, MPU_RIGHTS = 0xE000EDA0 };
enum { MPU_ON = 1, MPU_ELSE_OPEN = 4, REGION_0 = 0x10, NO_ACCESS_256_BYTES = 7 << 1 | 1 };

/* What the C library calls around main: there is nothing to do. */
void _init(void) {}
void _fini(void) {}

/* The first 256 bytes, the vectors, are shut for the program; the core still reads them. */
static void shut_null(void)
{
    *(volatile uint32_t *)MPU_PLACE = REGION_0;
    *(volatile uint32_t *)MPU_RIGHTS = NO_ACCESS_256_BYTES;
    *(volatile uint32_t *)MPU_CONTROL = MPU_ON | MPU_ELSE_OPEN;
}

static void fault(void)
{
    fprintf(stderr, "a fault, as by a pointer that is NULL\n");
    exit(1);
}

static void start(void)
{
    for (uint32_t *word = bss_start; word < bss_end; word++)
        *word = 0;
    for (volatile uint32_t *word = stack_bottom; word < paint_end; word++)
        *word = PAINT;
    initialise_monitor_handles();
    shut_null();
    int status = main();
    const volatile uint32_t *deepest = stack_bottom;
    while (*deepest == PAINT)
        deepest++;
    fprintf(stderr, "%lu bytes of stack\n", (unsigned long)((stack_top - deepest) * sizeof *deepest));
    exit(status);
}

/* What the core reads: where the stack begins, and where the program does; NMI; and where a fault leads to. */
__attribute__((section(".vectors"), used)) static void *const vectors[] = {stack_top, (void *)start, (void *)fault, (void *)fault};
