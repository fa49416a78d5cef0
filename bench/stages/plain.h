/* A soft erosion in plain C, in the same shape as that of the crate bench_stages. */
#include <stddef.h>
#include <stdint.h>

enum { WIDTH = 1024, HEIGHT = 256, AREA = WIDTH * HEIGHT };

uint32_t plain_erode(uint32_t shape, uint32_t order, uint8_t *memory, size_t n);
uint32_t rattle_erode(uint32_t shape, uint32_t order, uint8_t *memory, size_t n);
