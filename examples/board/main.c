/* Calls the board's program, which is Rust, and prints where the points of the header's bar come to. */
#include <stdint.h>
#include <stdio.h>

uint8_t fit_bar(int32_t currents[5]);

int main(void)
{
    int32_t currents[5];
    uint8_t answer = fit_bar(currents);
    for (int i = 0; answer == 0 && i < 5; i++)
        printf("%s%d", i ? " " : "", (int)currents[i]);
    printf("\n");
    return answer;
}
