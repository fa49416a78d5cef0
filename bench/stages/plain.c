/* A soft erosion by a histogram, as a C programmer would write it: memset, fill, walk up. */
#include <stdlib.h>
#include <string.h>
#include "plain.h"

struct tap { int dx, dy; uint32_t weight; int amount; };
struct histogram { uint16_t weights[512]; uint32_t sum; };

static int in_shape(uint32_t shape, int dx, int dy)
{
    int x = abs(dx), y = abs(dy);
    if (shape == 0)
        return x + y <= 1;
    if (shape == 1)
        return x <= 1 && y <= 1;
    if (shape == 2)
        return x <= 2 && y <= 2 && !(x == 2 && y == 2);
    return 1;
}

static size_t prepare(uint32_t shape, uint32_t order, struct tap *taps)
{
    size_t count = 0;
    for (int dy = -3; dy <= 3; dy++)
        for (int dx = -3; dx <= 3; dx++)
            if (in_shape(shape, dx, dy))
                taps[count++] = (struct tap){ dx, dy, dx == 0 && dy == 0 ? order : 1, 0 };
    return count;
}

static uint8_t lowered(uint8_t grey, int amount)
{
    int level = grey - amount;
    return level < 0 ? 0 : level > 255 ? 255 : level;
}

static uint8_t pixel(struct histogram *h, const struct tap *taps, size_t count, uint32_t rank, const uint8_t *plane, int x, int y)
{
    uint32_t code = 0, running = 0;
    memset(h, 0, sizeof *h);
    for (size_t i = 0; i < count; i++) {
        int column = x + taps[i].dx, row = y + taps[i].dy;
        if (column >= 0 && column < WIDTH && row >= 0 && row < HEIGHT) {
            h->weights[lowered(plane[row * WIDTH + column], taps[i].amount)] += taps[i].weight;
            h->sum += taps[i].weight;
        }
    }
    while ((running += h->weights[code]) < rank) code++;
    return code;
}

uint32_t plain_erode(uint32_t shape, uint32_t order, uint8_t *memory, size_t n)
{
    struct tap taps[49];
    struct histogram h;
    size_t count = prepare(shape, order, taps);
    if (n != 2 * AREA) return 1;
    for (int y = 0; y < HEIGHT; y++)
        for (int x = 0; x < WIDTH; x++)
            memory[AREA + y * WIDTH + x] = pixel(&h, taps, count, order, memory, x, y);
    return 0;
}
