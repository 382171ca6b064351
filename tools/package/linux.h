/* What linux.c gives a program that runs on Linux without a C library. */
#ifndef LINUX_H
#define LINUX_H

#include <stddef.h>

enum { INPUT = 0, OUTPUT = 1, MESSAGES = 2 };

/* Read or write at most len bytes, and tell how many they were, or -1. */
long read(int from, void *to, size_t len);
long write(int to, const void *from, size_t len);

/* Whether two texts are the same. */
int same(const char *first, const char *second);

/* Says a sentence on standard error. */
void say(const char *sentence);

/* Ends the program with a status, which is 1 in place of 0 where something was said on standard error. */
_Noreturn void end(int status);

/* Says a sentence and why the last call of the system failed, and ends the program. */
_Noreturn void fail(const char *sentence);

/* Takes the words of a command that are left: none for standard input, or the name of a file to read in its place. `--help` prints the usage, and what is more than that is refused by
 * it, with status 2. */
void take_input(char **words, const char *usage, const char *sentence);

#endif
