/* Times the proved selectors beside those of plain.c, in one run, and prints ns and ratios. */
#include <stdio.h>
#include <stdlib.h>
#include <time.h>
#include "plain.h"

enum { CODES = 49 * 2000, RANKS = 40000, TURNS = 15 };
static uint32_t codes[CODES], ranks[RANKS];
static const char *kinds[] = { "gate", "histogram", "ladder" };
static const size_t sizes[] = { 5, 9, 21, 49 };

enum loop { FILLS, SELECTS, WINDOWS, EMPTIES, LOOPS };
static const char *loops[] = { "put (empty and a window of puts, a put)", "select", "window (empty, puts, select)", "empty (and one put)" };

static double now(void)
{
    struct timespec t;
    clock_gettime(CLOCK_MONOTONIC, &t);
    return t.tv_sec * 1e9 + t.tv_nsec;
}

static uint32_t play(int rattle, enum loop loop, uint32_t kind, size_t window, size_t n)
{
    switch (loop) {
    case FILLS: return rattle ? rattle_fills(kind, codes, n, window) : plain_fills(kind, codes, n, window);
    case SELECTS: return rattle ? rattle_selects(kind, codes, window, ranks, RANKS) : plain_selects(kind, codes, window, ranks, RANKS);
    case WINDOWS: return rattle ? rattle_windows(kind, codes, n, window) : plain_windows(kind, codes, n, window);
    default: return rattle ? rattle_empties(kind, codes, n) : plain_empties(kind, codes, n);
    }
}

/* ns for one operation: the best of some turns, taken alternately with the other side's */
static int measure(enum loop loop, uint32_t kind, size_t window, double best[2])
{
    size_t n = CODES / window * window;
    double count = loop == FILLS ? n : loop == SELECTS ? RANKS : loop == WINDOWS ? n / window : n;
    uint32_t sum[2];
    best[0] = best[1] = 1e30;
    for (int turn = 0; turn < TURNS; turn++)
        for (int side = 0; side < 2; side++) {
            double from = now();
            sum[side] = play(side, loop, kind, window, n);
            double took = (now() - from) / count;
            if (took < best[side]) best[side] = took;
        }
    return sum[0] == sum[1];
}

int main(void)
{
    int agree = 1;
    double worst = 0;
    for (int loop = 0; loop < LOOPS; loop++) {
        printf("%s\n", loops[loop]);
        for (uint32_t kind = 0; kind < 3; kind++) {
            printf("  %-10s", kinds[kind]);
            for (int k = 0; k < 4; k++) {
                uint32_t state = 1;
                double best[2];
                for (int i = 0; i < CODES; i++) {
                    state = state * 1664525 + 1013904223;
                    codes[i] = kind == HISTOGRAM ? state >> 24 : state >> 7;
                }
                for (int i = 0; i < RANKS; i++) {
                    state = state * 1664525 + 1013904223;
                    ranks[i] = (state >> 8) % sizes[k] + 1;
                }
                if (loop == EMPTIES && k > 0) continue;
                agree &= measure(loop, kind, sizes[k], best);
                if (best[1] / best[0] > worst) worst = best[1] / best[0];
                if (loop == EMPTIES) printf("  ");
                else printf("  %2zu:", sizes[k]);
                printf(" %7.1f / %7.1f = %4.2f", best[1], best[0], best[1] / best[0]);
            }
            printf("\n");
        }
    }
    printf("each: ns proved / ns plain C = ratio; worst ratio %4.2f; answers %s\n", worst, agree ? "agree" : "DIFFER");
    return agree ? 0 : 1;
}
