/* Synthesis and analysis of a cell of N x N x N in C: the lines of crates/volume_transform in the same order, gathered into the same scratch, with the
   same buffers. Nothing is tested: the proved calls test the whole volume first (refusals 7 and 14). */
#include "lines.h"

/* A cubic cell: its group, its length, and the factors of N/2 as octal digits. */
typedef struct { int group; uint32_t n, factors; } cell;

/* P2_1 and P2_1 2_1 2_1 have alternating lines along l. */
static int alternates(cell c) { return c.group == 1 || c.group == 4; }

static size_t cell_layers(cell c) { return c.group == 0 ? c.n : alternates(c) ? c.n / 2 : c.n / 2 + 1; }
static size_t cell_pairs(cell c) { return cell_layers(c) * c.n * (c.n / 2 + 1); }

static int l_kind(cell c, size_t h) { return c.group == 0 ? 0 : alternates(c) ? 3 : c.group == 2 || h % 2 == 0 ? 4 : 5; }

/* An odd h's line of P2_1 2_1 2_1 is stored times i. */
static int rotated(cell c, size_t h) { return c.group == 4 && h % 2; }

static uint32_t fold[5760], work[5760];

/* The pairs at start, start + stride, .. are a packed line. One that is stored times i loses it after synthesis, and gets it before
   analysis. */
static void turn_gathered(cell c, int kind, int inverse, int with_i, size_t start, size_t stride, uint32_t *volume, uint32_t *scratch)
{
    size_t count = pair_count(kind, c.n / 2);
    for (size_t j = 0; j < count; j++) store(scratch, j, get(volume, start + j * stride));
    if (with_i && inverse) for (size_t j = 0; j < count; j++) store(scratch, j, times_i(get(scratch, j)));
    turn_line(kind, inverse, c.factors, c.n / 2, scratch, fold, work);
    if (with_i && !inverse) for (size_t j = 0; j < count; j++) store(scratch, j, over_i(get(scratch, j)));
    for (size_t j = 0; j < count; j++) store(volume, start + j * stride, get(scratch, j));
}

static void along_l(cell c, int inverse, uint32_t *volume, uint32_t *scratch)
{
    size_t width = c.n / 2 + 1, stride = c.n * width;
    for (size_t y = 0; y < stride; y++) {
        int kind = l_kind(c, y / width);
        turn_gathered(c, kind, inverse, rotated(c, y / width), y + (kind == 5 ? stride : 0), stride, volume, scratch);
    }
}

static void along_h(cell c, int inverse, uint32_t *volume, uint32_t *scratch)
{
    size_t width = c.n / 2 + 1;
    for (size_t y = 0; y < cell_layers(c) * width; y++)
        turn_gathered(c, 0, inverse, 0, y / width * (c.n * width) + y % width, width, volume, scratch);
}

static void along_k(cell c, int inverse, uint32_t *volume)
{
    size_t n = c.n, size = 2 * (n / 2 + 1);
    for (size_t y = 0; y < cell_layers(c) * n; y++) {
        uint32_t *row = volume + y * size;
        if (!inverse) row[1] = row[n];
        turn_line(1, inverse, c.factors, n / 2, row, fold, work);
        row[n] = inverse ? row[1] : 0;
        row[n + 1] = 0;
        if (inverse) row[1] = 0;
    }
}

static void plain_synthesis(cell c, uint32_t *volume, uint32_t *scratch)
{
    along_l(c, 0, volume, scratch);
    along_h(c, 0, volume, scratch);
    along_k(c, 0, volume);
    memset(scratch, 0, 11520 * sizeof *scratch);
}

static void plain_analysis(cell c, uint32_t *volume, uint32_t *scratch)
{
    along_k(c, 1, volume);
    along_h(c, 1, volume, scratch);
    along_l(c, 1, volume, scratch);
    memset(scratch, 0, 11520 * sizeof *scratch);
}
