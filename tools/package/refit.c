/* refit [FILE]: the program of crates/refit, as it is proved, behind the words of a command. */
#include "linux.h"

/* The program's own start: it reads standard input. */
int main(void);

int start_with(char **words)
{
    take_input(words,
               "usage: refit [FILE], or refit <FILE: runs the weak-point jobs of a log again, and prints a reply for each of its lines (docs/REFIT.md)\n",
               "refit: the log cannot be read");
    return main();
}
