/* Times the proved erosion beside that of plain.c, in one run, and prints ns a pixel and ratios. */
#include <stdio.h>
#include <string.h>
#include <time.h>
#include "plain.h"

enum { TURNS = 15 };
static uint8_t memory[2][2 * AREA];
static const char *shapes[] = { "cross, 5", "3 x 3, 9", "5 x 5 without corners, 21", "7 x 7, 49" };
static const uint32_t orders[] = { 2, 4, 10, 24 };

static double now(void)
{
    struct timespec t;
    clock_gettime(CLOCK_MONOTONIC, &t);
    return t.tv_sec * 1e9 + t.tv_nsec;
}

int main(void)
{
    uint32_t state = 1;
    double worst = 0;
    int agree = 1;
    for (int i = 0; i < AREA; i++) {
        state = state * 1664525 + 1013904223;
        memory[0][i] = memory[1][i] = state >> 24;
    }
    for (uint32_t shape = 0; shape < 4; shape++) {
        double best[2] = { 1e30, 1e30 };
        for (int turn = 0; turn < TURNS; turn++)
            for (int side = 0; side < 2; side++) {
                double from = now();
                agree &= (side ? rattle_erode : plain_erode)(shape, orders[shape], memory[side], 2 * AREA) == 0;
                double took = (now() - from) / AREA;
                if (took < best[side]) best[side] = took;
            }
        agree &= memcmp(memory[0], memory[1], 2 * AREA) == 0;
        if (best[1] / best[0] > worst) worst = best[1] / best[0];
        printf("  %-26s order %2u: %6.1f / %6.1f = %4.2f\n", shapes[shape], orders[shape], best[1], best[0], best[1] / best[0]);
    }
    printf("each: ns a pixel proved / plain C = ratio; worst ratio %4.2f; planes %s\n", worst, agree ? "agree" : "DIFFER");
    return agree ? 0 : 1;
}
