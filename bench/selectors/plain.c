/* The three selectors in plain C: the same algorithms and the same refusals, as a C programmer would write them. */
#include <stdbool.h>
#include <string.h>
#include "plain.h"

struct entry { uint32_t code, weight; };
struct list { struct entry entries[64]; size_t count; uint32_t sum; };
struct histogram { uint16_t weights[512]; uint32_t count, sum; };

/* gate */

static void gate_new(struct list *s) { memset(s, 0, sizeof *s); }
static void gate_empty(struct list *s) { s->count = 0; s->sum = 0; }
static uint32_t gate_total(const struct list *s) { return s->sum; }

static int gate_put(struct list *s, uint32_t code, uint32_t weight)
{
    size_t i;
    if (weight == 0 || code >= 33554432) return 2;
    for (i = 0; i < s->count; i++)
        if (s->entries[i].code == code) break;
    if (i == s->count) {
        if (i == 64) return 3;
        if (weight > 65535 - s->sum) return 4;
        s->entries[i].code = code;
        s->entries[i].weight = weight;
        s->count++;
    } else {
        if (weight > 65535 - s->sum) return 4;
        s->entries[i].weight += weight;
    }
    s->sum += weight;
    return 0;
}

static int gate_select(const struct list *s, uint32_t rank, uint32_t *code)
{
    uint32_t prefix = 0;
    if (rank == 0 || rank > s->sum) return 5;
    for (int bit = 24; bit >= 0; bit--) {
        uint32_t lower = 0;
        prefix <<= 1;
        for (size_t i = 0; i < s->count; i++)
            if (s->entries[i].code >> bit == prefix) lower += s->entries[i].weight;
        if (rank > lower) {
            rank -= lower;
            prefix |= 1;
        }
    }
    *code = prefix;
    return 0;
}

/* histogram */

static void histogram_new(struct histogram *s) { memset(s, 0, sizeof *s); }
static void histogram_empty(struct histogram *s) { memset(s, 0, sizeof *s); }
static uint32_t histogram_total(const struct histogram *s) { return s->sum; }

static int histogram_put(struct histogram *s, uint32_t code, uint32_t weight)
{
    if (weight == 0 || code >= 512) return 2;
    uint32_t count = s->count + (s->weights[code] == 0);
    if (count > 64) return 3;
    if (weight > 65535 - s->sum) return 4;
    s->weights[code] += weight;
    s->count = count;
    s->sum += weight;
    return 0;
}

static int histogram_select(const struct histogram *s, uint32_t rank, uint32_t *code)
{
    uint32_t running = 0, c = 0;
    if (rank == 0 || rank > s->sum) return 5;
    for (;; c++) {
        running += s->weights[c];
        if (running >= rank) break;
    }
    *code = c;
    return 0;
}

/* ladder */

static void ladder_new(struct list *s) { memset(s, 0, sizeof *s); }
static void ladder_empty(struct list *s) { s->count = 0; s->sum = 0; }
static uint32_t ladder_total(const struct list *s) { return s->sum; }

static int ladder_put(struct list *s, uint32_t code, uint32_t weight)
{
    if (weight == 0 || code >= 33554432) return 2;
    size_t at = s->count;
    while (at > 0 && s->entries[at - 1].code > code) at--;
    if (at > 0 && s->entries[at - 1].code == code) {
        if (weight > 65535 - s->sum) return 4;
        s->entries[at - 1].weight += weight;
    } else {
        if (s->count == 64) return 3;
        if (weight > 65535 - s->sum) return 4;
        for (size_t i = s->count; i > at; i--) s->entries[i] = s->entries[i - 1];
        s->entries[at].code = code;
        s->entries[at].weight = weight;
        s->count++;
    }
    s->sum += weight;
    return 0;
}

static int ladder_select(const struct list *s, uint32_t rank, uint32_t *code)
{
    if (rank == 0 || rank > s->sum) return 5;
    for (size_t i = 0; i < s->count; i++) {
        if (rank <= s->entries[i].weight) {
            *code = s->entries[i].code;
            return 0;
        }
        rank -= s->entries[i].weight;
    }
    return 5;
}

/* the loops, once for each kind */

/* the compiler may not drop what is emptied right after */
#define KEEP(s) __asm__ volatile("" : : "r"(&s) : "memory")

#define LOOPS(kind, type) \
static void kind##_fill(struct type *s, const uint32_t *codes, size_t n) \
{ \
    kind##_empty(s); \
    for (size_t i = 0; i < n; i++) kind##_put(s, codes[i], 1); \
} \
static uint32_t kind##_fills(const uint32_t *codes, size_t n, size_t window) \
{ \
    struct type s; uint32_t sum = 0; \
    kind##_new(&s); \
    for (size_t i = 0; i < n; i += window) { \
        kind##_fill(&s, codes + i, window); \
        sum += kind##_total(&s); \
    } \
    return sum; \
} \
static uint32_t kind##_selects(const uint32_t *codes, size_t n, const uint32_t *ranks, size_t m) \
{ \
    struct type s; uint32_t sum = 0, code; \
    kind##_new(&s); \
    kind##_fill(&s, codes, n); \
    for (size_t i = 0; i < m; i++) if (!kind##_select(&s, ranks[i], &code)) sum += code; \
    return sum; \
} \
static uint32_t kind##_windows(const uint32_t *codes, size_t n, size_t window) \
{ \
    struct type s; uint32_t sum = 0, code; \
    kind##_new(&s); \
    for (size_t i = 0; i < n; i += window) { \
        kind##_fill(&s, codes + i, window); \
        if (!kind##_select(&s, kind##_total(&s) / 2 + 1, &code)) sum += code; \
    } \
    return sum; \
} \
static uint32_t kind##_empties(const uint32_t *codes, size_t n) \
{ \
    struct type s; uint32_t sum = 0; \
    kind##_new(&s); \
    for (size_t i = 0; i < n; i++) { \
        kind##_put(&s, codes[i], 1); \
        sum += kind##_total(&s); \
        kind##_empty(&s); \
        KEEP(s); \
    } \
    return sum; \
}

LOOPS(gate, list)
LOOPS(histogram, histogram)
LOOPS(ladder, list)

#define PICK(loop, ...) \
    (kind == GATE ? gate_##loop(__VA_ARGS__) : kind == HISTOGRAM ? histogram_##loop(__VA_ARGS__) : ladder_##loop(__VA_ARGS__))

uint32_t plain_fills(uint32_t kind, const uint32_t *codes, size_t n, size_t window) { return PICK(fills, codes, n, window); }
uint32_t plain_selects(uint32_t kind, const uint32_t *codes, size_t n, const uint32_t *ranks, size_t m) { return PICK(selects, codes, n, ranks, m); }
uint32_t plain_windows(uint32_t kind, const uint32_t *codes, size_t n, size_t window) { return PICK(windows, codes, n, window); }
uint32_t plain_empties(uint32_t kind, const uint32_t *codes, size_t n) { return PICK(empties, codes, n); }
