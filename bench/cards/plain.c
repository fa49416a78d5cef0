/* Stale areas and soft openings by a histogram, as a C programmer would write it: memset, fill, walk up. */
#include <stdlib.h>
#include <string.h>
#include "plain.h"

struct size { int width, height; };
struct rect { int left, top, right, bottom; };
struct tap { int dx, dy; uint32_t weight; int amount; };
struct stage { struct tap taps[49]; size_t count; uint32_t order; int dilation, reach; };
struct histogram { uint16_t weights[512]; uint32_t sum; };

/* The card's size and the patch's corner are read when the program runs, as those of the proved card are. */
static volatile struct size card = { WIDTH, HEIGHT };
static volatile struct rect middle = { PATCH_X, PATCH_Y, PATCH_X + PATCH_WIDTH, PATCH_Y + PATCH_HEIGHT };

static int in_shape(uint32_t shape, int dx, int dy)
{
    int x = abs(dx), y = abs(dy);
    if (shape == 0)
        return x + y <= 1;
    if (shape == 1)
        return x <= 1 && y <= 1;
    if (shape == 2)
        return x <= 2 && y <= 2 && !(x == 2 && y == 2);
    return 1;
}

static void prepare(struct stage *s, uint32_t shape, uint32_t order, int dilation)
{
    int turn = dilation ? -1 : 1;
    s->count = 0;
    s->order = order;
    s->dilation = dilation;
    s->reach = 0;
    for (int dy = -3; dy <= 3; dy++)
        for (int dx = -3; dx <= 3; dx++)
            if (in_shape(shape, dx, dy)) {
                s->taps[s->count++] = (struct tap){ turn * dx, turn * dy, dx == 0 && dy == 0 ? order : 1, 0 };
                if (abs(dx) > s->reach) s->reach = abs(dx);
            }
}

static uint8_t lowered(uint8_t grey, int amount)
{
    int level = grey - amount;
    return level < 0 ? 0 : level > 255 ? 255 : level;
}

static uint8_t pixel(struct histogram *h, const struct stage *s, struct size size, const uint8_t *plane, int x, int y)
{
    uint32_t code = 0, running = 0, rank;
    memset(h, 0, sizeof *h);
    for (size_t i = 0; i < s->count; i++) {
        int column = x + s->taps[i].dx, row = y + s->taps[i].dy;
        if (column >= 0 && column < size.width && row >= 0 && row < size.height) {
            h->weights[lowered(plane[row * size.width + column], s->taps[i].amount)] += s->taps[i].weight;
            h->sum += s->taps[i].weight;
        }
    }
    rank = s->dilation ? h->sum - s->order + 1 : s->order;
    while ((running += h->weights[code]) < rank) code++;
    return code;
}

static struct rect widened(struct rect r, struct size size, int reach)
{
    r.left = r.left > reach ? r.left - reach : 0;
    r.top = r.top > reach ? r.top - reach : 0;
    r.right = r.right + reach < size.width ? r.right + reach : size.width;
    r.bottom = r.bottom + reach < size.height ? r.bottom + reach : size.height;
    return r;
}

static size_t pixels(struct rect r) { return (size_t)(r.right - r.left) * (r.bottom - r.top); }

/* Makes each stage's area from the plane below, and widens it for the next stage. */
static size_t work(const struct stage *stages, struct size size, uint8_t *memory, struct rect area)
{
    struct histogram h;
    size_t rows = 0, plane = (size_t)size.width * size.height;
    for (int i = 0; i < 2; i++) {
        const uint8_t *from = memory + i * plane;
        uint8_t *into = memory + (i + 1) * plane;
        area = widened(area, size, stages[i].reach);
        for (int y = area.top; y < area.bottom; y++)
            for (int x = area.left; x < area.right; x++)
                into[y * size.width + x] = pixel(&h, &stages[i], size, from, x, y);
        rows += area.bottom - area.top;
    }
    return rows;
}

size_t plain_card(uint32_t shape, uint32_t order, uint8_t *memory, size_t n, const uint8_t *tones, size_t m)
{
    struct size size = { card.width, card.height };
    struct rect patch = { middle.left, middle.top, middle.right, middle.bottom };
    struct stage stages[2];
    int wide = patch.right - patch.left;
    size_t rows;
    if (n != 3 * (size_t)size.width * size.height) return 0;
    for (int i = 0; i < 2; i++)
        prepare(&stages[i], shape, order, i);
    rows = work(stages, size, memory, (struct rect){ 0, 0, size.width, size.height });
    for (; m >= pixels(patch); m -= pixels(patch), tones += pixels(patch)) {
        for (int y = patch.top; y < patch.bottom; y++)
            memcpy(memory + y * size.width + patch.left, tones + (y - patch.top) * wide, wide);
        rows += work(stages, size, memory, patch);
    }
    return rows;
}

size_t pixels_whole(void) { return 2 * AREA; }

size_t pixels_patch(uint32_t shape)
{
    struct size size = { card.width, card.height };
    struct stage stage;
    struct rect first, second;
    prepare(&stage, shape, 1, 0);
    first = widened((struct rect){ middle.left, middle.top, middle.right, middle.bottom }, size, stage.reach);
    second = widened(first, size, stage.reach);
    return pixels(first) + pixels(second);
}
