/* Times a card of the crate cards beside that of plain.c, in one run, and prints ns a pixel redone and ratios.
 *
 * One call makes a card clean (open, install, work) and then lays some patches, with work after each. The whole card
 * is the time of a call without patches. A patch is the time of a call with PATCHES of them, less that of one without,
 * divided by PATCHES. Each time is the best of TURNS, the sides and the two calls in turn, and is that of the processor,
 * since the calls are long and the machine may be shared. Each patch has other greys.
 */
#include <stdio.h>
#include <string.h>
#include <time.h>
#include "plain.h"

enum { TURNS = 21, PATCHES = 256, PLAIN = 0, PROVED = 1 };
static uint8_t memory[2][3 * AREA], tones[PATCHES * PATCH];
static const char *shapes[] = { "cross, 5", "3 x 3, 9", "5 x 5 without corners, 21", "7 x 7, 49" };

static double now(void)
{
    struct timespec t;
    clock_gettime(CLOCK_PROCESS_CPUTIME_ID, &t);
    return t.tv_sec * 1e9 + t.tv_nsec;
}

static uint8_t grey(void)
{
    static uint32_t state = 1;
    state = state * 1664525 + 1013904223;
    return state >> 24;
}

/* Makes the raw card anew, then times one call. */
static double timed(int side, uint32_t shape, const uint8_t *raw, size_t patches, size_t *rows)
{
    memcpy(memory[side], raw, AREA);
    double from = now();
    *rows = (side ? rattle_card : plain_card)(shape, 2, memory[side], 3 * AREA, tones, patches * PATCH);
    return now() - from;
}

int main(void)
{
    static uint8_t raw[AREA];
    double worst = 0, most = 0;
    int agree = 1;
    for (int i = 0; i < AREA; i++) raw[i] = grey();
    for (int i = 0; i < PATCHES * PATCH; i++) tones[i] = grey();
    for (uint32_t shape = 0; shape < 4; shape++) {
        double best[2][2] = { { 1e30, 1e30 }, { 1e30, 1e30 } };
        size_t rows[2][2];
        for (int turn = 0; turn < TURNS; turn++)
            for (int many = 0; many < 2; many++) {
                for (int side = 0; side < 2; side++) {
                    double took = timed(side, shape, raw, many ? PATCHES : 0, &rows[many][side]);
                    if (took < best[many][side]) best[many][side] = took;
                }
                agree &= rows[many][PLAIN] == rows[many][PROVED] && rows[many][PROVED] > 0;
                agree &= memcmp(memory[PLAIN], memory[PROVED], 3 * AREA) == 0;
            }
        size_t pixels = pixels_patch(shape), whole_rows = rows[0][PROVED], patch_rows = (rows[1][PROVED] - whole_rows) / PATCHES;
        double whole[2], patch[2];
        for (int side = 0; side < 2; side++) {
            whole[side] = best[0][side] / pixels_whole();
            patch[side] = (best[1][side] - best[0][side]) / PATCHES / pixels;
        }
        double first = whole[PROVED] / whole[PLAIN], second = patch[PROVED] / patch[PLAIN], share = patch[PROVED] / whole[PROVED];
        if (first > worst) worst = first;
        if (second > worst) worst = second;
        if (share > most) most = share;
        printf("  %-26s whole, %zu rows, %zu pixels: %6.1f / %6.1f = %4.2f; a patch, %zu rows, %zu pixels: %6.1f / %6.1f = %4.2f; patch / whole, proved: %4.2f\n",
               shapes[shape], whole_rows, pixels_whole(), whole[PROVED], whole[PLAIN], first,
               patch_rows, pixels, patch[PROVED], patch[PLAIN], second, share);
    }
    printf("each: ns a pixel redone, proved / plain C = ratio; worst ratio %4.2f; most a patch / whole %4.2f; planes and rows %s\n", worst, most, agree ? "agree" : "DIFFER");
    return agree ? 0 : 1;
}
