/* Synthesis and analysis of cubic cells of all five groups by the proved calls, beside the same passes in C (passes.h) and FFTW's double
   transforms of the same grid (fftw.h), then records and files (files.h), in one run. The runs alternate: five turns, each over all
   cells, grids and files, and of each the least processor time. The small cells are run three times a turn, as their times are uneven.
   Both volumes are compared after every call. */
#define _POSIX_C_SOURCE 199309L
#include "files.h"
#include "fftw.h"
#include "maps.h"

enum { TURNS = 5, SCRATCH = 11520 };

typedef struct { double synthesis, analysis; } call_times;
typedef struct { const char *name; int group; uint32_t n; const char *list; call_times proved, plain; } measured;

static measured cells[] = {
    { .name = "P1", .group = 0, .n = 64, .list = "442" },
    { .name = "P1", .group = 0, .n = 120, .list = "543" },
    { .name = "P1", .group = 0, .n = 240, .list = "5432" },
    { .name = "P2_1", .group = 1, .n = 240, .list = "5432" },
    { .name = "Pm", .group = 2, .n = 240, .list = "5432" },
    { .name = "Pa", .group = 3, .n = 240, .list = "5432" },
    { .name = "P2_1 2_1 2_1", .group = 4, .n = 240, .list = "5432" },
    { .name = "P2_1", .group = 1, .n = 288, .list = "4433" },
};
enum { CELLS = sizeof cells / sizeof *cells, P1_240 = 2, GRIDS = 4 };

static grid_times grids[GRIDS];

static cell cell_of(const measured *m)
{
    cell c = { m->group, m->n, 0 };
    for (size_t j = strlen(m->list); j-- > 0;) c.factors = 8 * c.factors + (m->list[j] - '0');
    return c;
}

/* The sum of the factors of the three passes: a plain line has a silent 2, which turns a 2 into a 4, and only P1 has plain lines along l. */
static uint32_t factor_sum(const measured *m)
{
    uint32_t total = m->group ? 2 : 4;
    for (const char *f = m->list; *f; f++) total += 3 * (*f - '0');
    return total;
}

static void make_cell_map(cell c, uint32_t *map)
{
    const uint32_t n[3] = { c.n, c.n, c.n };
    make_map(c.group, n, P, map);
}

static recorder_job open_map(const measured *m, uint32_t *volume, size_t length)
{
    uint8_t list[8];
    size_t count = strlen(m->list);
    for (size_t j = 0; j < count; j++) list[j] = m->list[j] - '0';
    recorder_answer held = recorder_open(m->group, 1, 1, m->n, m->n, m->n, list, count, list, count, list, count, volume, length);
    if (held.number) fail("opening refused", held.number);
    return held.job;
}

static void compare(const char *what, const uint32_t *a, const uint32_t *b, size_t length)
{
    if (memcmp(a, b, length * sizeof *a)) fail(what, length);
}

/* From the map to its factors and back, by the proved calls and in C. */
static void run_cell(measured *m, uint32_t *map, uint32_t *volume, uint32_t *plain, uint32_t *scratch)
{
    cell c = cell_of(m);
    size_t length = 2 * cell_pairs(c);
    make_cell_map(c, map);
    memcpy(volume, map, length * sizeof *map);
    memcpy(plain, map, length * sizeof *map);
    recorder_job job = open_map(m, volume, length);
    double began = processor_time();
    recorder_answer held = recorder_analysis(job, volume, length, scratch, SCRATCH);
    keep_least(&m->proved.analysis, began);
    if (held.number) fail("analysis refused", held.number);
    began = processor_time();
    plain_analysis(c, plain, scratch);
    keep_least(&m->plain.analysis, began);
    compare("the factors differ, length", volume, plain, length);
    began = processor_time();
    held = recorder_synthesis(held.job, volume, length, scratch, SCRATCH);
    keep_least(&m->proved.synthesis, began);
    if (held.number) fail("synthesis refused", held.number);
    began = processor_time();
    plain_synthesis(c, plain, scratch);
    keep_least(&m->plain.synthesis, began);
    compare("the maps differ, length", volume, plain, length);
    compare("the first map differs, length", map, plain, length);
}

static void print_ratio(double a, double b) { if (a && b) printf(" %6.2f", a / b); else printf("      -"); }

static const grid_times *grid_of(uint32_t n)
{
    for (int g = 0; g < GRIDS; g++)
        if (grids[g].n == n) return &grids[g];
    return 0;
}

static void print_row(const measured *m, const char *call, double proved, double plain, double fftw, double p1)
{
    size_t pairs = cell_pairs(cell_of(m));
    printf("%-12s %3u^3 %8zu %-9s %7.4f %7.4f", m->name, m->n, pairs, call, proved, plain);
    print_ratio(proved, plain);
    if (fftw) printf(" %7.4f", fftw); else printf("       -");
    print_ratio(proved, fftw);
    print_ratio(proved, p1);
    printf(" %6.2f\n", proved * 1e9 / ((double)pairs * factor_sum(m)));
}

static void print_cells(void)
{
    printf("Seconds of processor time; / C, / FFTW, / P1: the proved call's time over that of C, of FFTW's fastest plan, of P1 on the same\n"
           "lengths; ns: of the proved call, for each pair of the volume and each unit of the factors' sum.\n");
    printf("%-12s %5s %8s %-9s %7s %7s %6s %7s %6s %6s %6s\n", "cell", "grid", "pairs", "call", "proved", "C", "/ C", "FFTW", "/ FFTW", "/ P1", "ns");
    for (int j = 0; j < CELLS; j++) {
        const measured *m = &cells[j];
        const grid_times *g = grid_of(m->n);
        call_times p1 = { 0, 0 };
        if (m->n == cells[P1_240].n) p1 = cells[P1_240].proved;
        print_row(m, "synthesis", m->proved.synthesis, m->plain.synthesis, fastest(g->synthesis), p1.synthesis);
        print_row(m, "analysis", m->proved.analysis, m->plain.analysis, fastest(g->analysis), p1.analysis);
    }
}

static void print_plans(void)
{
    const grid_times *g = grid_of(240);
    if (!fastest(g->synthesis)) return;
    printf("\n%s\n%-23s %7s %12s %7s %12s\n", fftw_build(), "FFTW at 240^3", "c2r", "P1 / c2r", "r2c", "P1 / r2c");
    for (int plan = 0; plan < PLANS; plan++)
        printf("%-23s %7.4f %12.2f %7.4f %12.2f\n", plan_names[plan], g->synthesis[plan], cells[P1_240].proved.synthesis / g->synthesis[plan],
               g->analysis[plan], cells[P1_240].proved.analysis / g->analysis[plan]);
}

/* Only syntheses of one cell by the proved calls, for a profile; their factors come from the analysis in C. */
static void run_syntheses(const measured *m, uint32_t *factors, uint32_t *volume, uint32_t *scratch)
{
    cell c = cell_of(m);
    size_t length = 2 * cell_pairs(c);
    make_cell_map(c, factors);
    plain_analysis(c, factors, scratch);
    recorder_job job = open_map(m, volume, length);
    job.state = 1;
    for (int turn = 0; turn < TURNS; turn++) {
        memcpy(volume, factors, length * sizeof *factors);
        recorder_answer held = recorder_synthesis(job, volume, length, scratch, SCRATCH);
        if (held.number) fail("synthesis refused", held.number);
    }
}

/* With the number of a cell, only its syntheses. */
int main(int argc, char **argv)
{
    static const uint32_t lengths[GRIDS] = { 64, 120, 240, 288 };
    static uint32_t scratch[SCRATCH];
    size_t longest = 0;
    for (int j = 0; j < CELLS; j++)
        if (longest < 2 * cell_pairs(cell_of(&cells[j]))) longest = 2 * cell_pairs(cell_of(&cells[j]));
    uint32_t *map = room_for(longest, 4), *volume = room_for(longest, 4), *plain = room_for(longest, 4);
    make_tables();
    make_inverse_tables();
    if (argc > 1) {
        run_syntheses(&cells[strtoul(argv[1], 0, 10) % CELLS], map, volume, scratch);
        return 0;
    }
    make_arrays(288, 240);
    for (int g = 0; g < GRIDS; g++) grids[g] = make_plans(lengths[g], lengths[g] <= 240);
    make_cell_map(cell_of(&cells[P1_240]), map);
    file_frame frame = make_frame(cell_of(&cells[P1_240]), map, volume, scratch);
    file_times files = { 0 };
    for (int turn = 0; turn < TURNS; turn++) {
        for (int j = 0; j < CELLS; j++)
            for (int again = cells[j].n < 240 ? 3 : 1; again > 0; again--) run_cell(&cells[j], map, volume, plain, scratch);
        for (int g = 0; g < GRIDS; g++) run_grid(&grids[g]);
        run_files(&frame, &files);
    }
    print_cells();
    print_plans();
    print_files(&frame, &files, cells[P1_240].proved.synthesis);
    return 0;
}
