/* The fewest records at fault of a file of P1 with a record for every orbit, in the writer's order, and one more of the orbit of the record
   before it, which is refused 24: beside the opening of the file without that one. The call walks the file once for every 2,097,152 numbers of
   the volume, so it is timed on a volume of seven such ranges and on one of a single range. Five alternating turns, and of each the least
   processor time. */
#define _POSIX_C_SOURCE 199309L
#include "file_bytes.h"
#include "recorder.h"
#include "timing.h"

enum { TURNS = 5, OTHERS = 64 };

typedef struct { uint32_t n; uint8_t list[4]; size_t factors; double bar, opening, faults; } grid;

static grid grids[] = { { .n = 240, .list = { 5, 4, 3, 2 }, .factors = 4, .bar = 5 }, { .n = 120, .list = { 5, 4, 3 }, .factors = 3, .bar = 2 } };
enum { GRIDS = sizeof grids / sizeof *grids };

/* The orbits of P1 are the pairs of an index and its Friedel mate; eight indices are their own mates. */
static size_t orbits(uint32_t n) { return ((size_t)n * n * n + 8) / 2; }

static size_t place_of(uint32_t n, uint32_t h, uint32_t k, uint32_t l) { return ((size_t)h * n + k) * n + l; }

/* A record at the lowest index of each orbit, by rising h, then k, then l; a real value, which every index takes. The end of them. */
static uint8_t *put_full(uint8_t *q, uint32_t n)
{
    for (uint32_t h = 0; h < n; h++)
        for (uint32_t k = 0; k < n; k++)
            for (uint32_t l = 0; l < n; l++) {
                factor_record r = { h, k, l, 1 + (h + k + l) % 86398, 0 };
                if (place_of(n, h, k, l) <= place_of(n, (n - h) % n, (n - k) % n, (n - l) % n)) q = put_record(q, r);
            }
    return q;
}

static void run_opening(grid *g, const uint8_t *file, size_t bytes, uint32_t *volume, size_t length)
{
    double began = processor_time();
    recorder_file_answer opened = recorder_open_file(file, bytes, volume, length);
    keep_least(&g->opening, began);
    if (opened.number) fail("file refused", opened.number);
}

static void run_faults(grid *g, const uint8_t *file, size_t bytes)
{
    size_t records = orbits(g->n);
    double began = processor_time();
    recorder_faults found = recorder_file_faults(file, bytes);
    keep_least(&g->faults, began);
    if (found.count != 2 || found.first != records - 1 || found.second != records) fail("not the two records at fault, but", found.count);
}

/* Opens the file, then puts the record more behind it for the faults. */
static void run_grid(grid *g, uint8_t *file, uint32_t *volume)
{
    size_t records = orbits(g->n), length = recorder_volume_length(RECORDER_P1, g->n, g->n, g->n);
    uint8_t *start = put_header(file, g->n, g->list, g->factors, records), *end = put_full(start, g->n);
    if (end != start + RECORD_BYTES * records) fail("not a record for every orbit, bytes", end - start);
    run_opening(g, file, end - file, volume, length);
    put_header(file, g->n, g->list, g->factors, records + 1);
    for (int byte = 0; byte < RECORD_BYTES; byte++) end[byte] = end[byte - RECORD_BYTES];
    run_faults(g, file, end + RECORD_BYTES - file);
}

int main(void)
{
    uint8_t *file = room_for(RECORD_BYTES * (orbits(grids[0].n) + 1) + OTHERS, 1);
    uint32_t *volume = room_for(RECORDER_MOST_NUMBERS, sizeof *volume);
    for (int turn = 0; turn < TURNS; turn++)
        for (int g = 0; g < GRIDS; g++) run_grid(&grids[g], file, volume);
    printf("%-10s %8s %8s %8s %8s %6s %4s\n", "P1", "numbers", "records", "opening", "faults", "ratio", "bar");
    for (int g = 0; g < GRIDS; g++)
        printf("%u^3 %*s %8zu %8zu %8.4f %8.4f %6.2f %4.0f\n", grids[g].n, 4, "", recorder_volume_length(RECORDER_P1, grids[g].n, grids[g].n, grids[g].n),
               orbits(grids[g].n), grids[g].opening, grids[g].faults, grids[g].faults / grids[g].opening, grids[g].bar);
    return 0;
}
