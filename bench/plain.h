/* The plain transform of crates/plain in C: the same tables, the same butterflies and reductions, one pass a step, to and fro between line and
   work slice. */
#include "butterflies.h"

static void transform(const uint32_t *re, const uint32_t *im, uint32_t factors, size_t n, uint32_t *line, uint32_t *work)
{
    size_t inner = 1, lines = n, outer;
    while (factors >= 8) {
        outer = factors % 8;
        lines /= outer;
        step(re, im, inner, outer, lines, line, work);
        inner *= outer;
        factors /= 8;
        outer = factors % 8;
        lines /= outer;
        step(re, im, inner, outer, lines, work, line);
        inner *= outer;
        factors /= 8;
    }
    if (!factors) return;
    step(re, im, inner, factors, lines / factors, line, work);
    for (size_t j = 0; j < n; j++) store(line, j, get(work, j));
}

/* The list of twice the length: its first 2 becomes a 4, or a 2 is added at its end. */
static uint32_t doubled(uint32_t factors)
{
    uint32_t place = 1;
    for (uint32_t left = factors; left && left % 8 != 2; left /= 8) place *= 8;
    return factors + 2 * place;
}
