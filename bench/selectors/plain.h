/* The loops of plain.c, in the same shape as those of the crate bench_selectors. */
#include <stddef.h>
#include <stdint.h>

enum { GATE, HISTOGRAM, LADDER };

uint32_t plain_fills(uint32_t kind, const uint32_t *codes, size_t n, size_t window);
uint32_t plain_selects(uint32_t kind, const uint32_t *codes, size_t n, const uint32_t *ranks, size_t m);
uint32_t plain_windows(uint32_t kind, const uint32_t *codes, size_t n, size_t window);
uint32_t plain_empties(uint32_t kind, const uint32_t *codes, size_t n);

uint32_t rattle_fills(uint32_t kind, const uint32_t *codes, size_t n, size_t window);
uint32_t rattle_selects(uint32_t kind, const uint32_t *codes, size_t n, const uint32_t *ranks, size_t m);
uint32_t rattle_windows(uint32_t kind, const uint32_t *codes, size_t n, size_t window);
uint32_t rattle_empties(uint32_t kind, const uint32_t *codes, size_t n);
