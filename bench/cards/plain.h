/* A card of greys in plain C, in the same shape as that of the crate bench_cards. */
#include <stddef.h>
#include <stdint.h>

enum { WIDTH = 1024, HEIGHT = 256, AREA = WIDTH * HEIGHT };
enum { PATCH_X = 480, PATCH_Y = 120, PATCH_WIDTH = 64, PATCH_HEIGHT = 16, PATCH = PATCH_WIDTH * PATCH_HEIGHT };

/* Makes a card of three planes clean under an opening, then lays the patches; the rows redone. */
size_t plain_card(uint32_t shape, uint32_t order, uint8_t *memory, size_t n, const uint8_t *tones, size_t m);
size_t rattle_card(uint32_t shape, uint32_t order, uint8_t *memory, size_t n, const uint8_t *tones, size_t m);

/* The pixels that both stages redo, of the whole card and after a patch. */
size_t pixels_whole(void);
size_t pixels_patch(uint32_t shape);
