/* Synthesis and analysis by two versions of the library in one run: this one, and an older one whose functions have `old_` before their names
   (recorder.sh makes it). All groups, both primes, the longest axis each way, and small grids, where a call's beginning counts; beside cubes
   FFTW's double transforms of the same grid. Five turns, the two versions one after the other in each, in changing order, then FFTW; of each the
   least processor time. All numbers are compared after every call, and those of the scratch. */
#define _POSIX_C_SOURCE 199309L
#include "recorder.h"
#include "fftw.h"
#include "maps.h"

enum { TURNS = 5, SCRATCH = 11520, CALLS = 2, VERSIONS = 2, MODULI = 2 };

__typeof__(recorder_analysis) old_recorder_analysis;
__typeof__(recorder_synthesis) old_recorder_synthesis;

typedef recorder_answer call(recorder_job, uint32_t *, size_t, uint32_t *, size_t);
static call *const calls[CALLS][VERSIONS] = {
    { (call *)old_recorder_analysis, (call *)recorder_analysis },
    { (call *)old_recorder_synthesis, (call *)recorder_synthesis },
};
static const char *const call_names[CALLS] = { "analysis", "synthesis" };
static const char *const group_names[] = { "P1", "P2_1", "Pm", "Pa", "P2_1 2_1 2_1" };
static const uint32_t primes[MODULI] = { 86399, 302399 };

typedef struct { int group; uint32_t n[3]; const char *list[3]; int runs; } grid;

#define CUBE(group, n, list, runs) { group, { n, n, n }, { list, list, list }, runs }
#define GROUPS(n, list) CUBE(0, n, list, 1), CUBE(1, n, list, 1), CUBE(2, n, list, 1), CUBE(3, n, list, 1), CUBE(4, n, list, 1)
static const grid grids[] = {
    GROUPS(64, "442"), GROUPS(120, "543"), GROUPS(240, "5432"),
    CUBE(1, 288, "4433", 1), CUBE(2, 288, "4433", 1), CUBE(3, 288, "4433", 1), CUBE(4, 288, "4433", 1),
    { 0, { 2880, 16, 16 }, { "544332", "42", "42" }, 1 }, { 0, { 16, 2880, 16 }, { "42", "544332", "42" }, 1 },
    { 0, { 16, 16, 2880 }, { "42", "42", "544332" }, 1 }, { 1, { 360, 32, 32 }, { "5433", "44", "44" }, 1 },
    { 0, { 32, 32, 480 }, { "44", "44", "5443" }, 1 }, { 0, { 2880, 4, 2 }, { "544332", "2", "" }, 20 },
    { 0, { 2, 2, 720 }, { "", "", "54332" }, 200 }, { 0, { 360, 2, 2 }, { "5433", "", "" }, 200 },
    CUBE(0, 2, "", 1000), CUBE(4, 4, "2", 1000), CUBE(0, 8, "4", 500), CUBE(3, 12, "32", 200), CUBE(0, 16, "42", 100),
    CUBE(1, 20, "52", 50), CUBE(0, 20, "52", 50), CUBE(2, 24, "43", 50), CUBE(0, 32, "44", 20),
};
enum { GRIDS = sizeof grids / sizeof *grids };

static recorder_job open_map(const grid *g, int modulus, const uint32_t *map, size_t length)
{
    uint8_t list[3][8];
    size_t count[3];
    for (int axis = 0; axis < 3; axis++) {
        count[axis] = strlen(g->list[axis]);
        for (size_t j = 0; j < count[axis]; j++) list[axis][j] = g->list[axis][j] - '0';
    }
    recorder_answer held = recorder_open(g->group, modulus + 1, 1, g->n[0], g->n[1], g->n[2], list[0], count[0], list[1], count[1], list[2], count[2],
                                         (uint32_t *)map, length);
    if (held.number) fail("opening refused", held.number);
    return held.job;
}

/* From the map to its factors and back by both versions; took[call][version] is their time. */
static void run(recorder_job job, int turn, uint32_t *volume[VERSIONS], size_t length, double took[CALLS][VERSIONS])
{
    static uint32_t scratch[VERSIONS][SCRATCH];
    for (int c = 0; c < CALLS; c++) {
        recorder_answer held = { 0 };
        for (int k = 0; k < VERSIONS; k++) {
            int version = (turn + k) % VERSIONS;
            double began = processor_time();
            held = calls[c][version](job, volume[version], length, scratch[version], SCRATCH);
            took[c][version] += processor_time() - began;
            if (held.number) fail("refused", held.number);
        }
        if (memcmp(volume[0], volume[1], length * sizeof **volume)) fail("the volumes differ, length", length);
        if (memcmp(scratch[0], scratch[1], sizeof *scratch)) fail("the scratches differ, length", length);
        job = held.job;
    }
}

static int is_cube(const grid *g) { return g->n[0] == g->n[1] && g->n[1] == g->n[2]; }

/* FFTW's plans of the cubes of one length, made once: grids of one length stand together. Small cubes are left out, as FFTW has no call to begin. */
static grid_times *plans_of(const grid *g)
{
    static grid_times plans;
    if (!is_cube(g) || g->n[0] < 64) return 0;
    if (plans.n != g->n[0]) plans = make_plans(g->n[0], g->n[0] <= 240);
    return &plans;
}

static void measure(const grid *g, int modulus, grid_times *plans, double best[CALLS][VERSIONS])
{
    size_t length = map_length(g->group, g->n);
    uint32_t *map = room_for(length, 4), *volume[VERSIONS] = { room_for(length, 4), room_for(length, 4) };
    make_map(g->group, g->n, primes[modulus], map);
    recorder_job job = open_map(g, modulus, map, length);
    for (int turn = 0; turn < TURNS; turn++) {
        double took[CALLS][VERSIONS] = { { 0 } };
        for (int again = 0; again < g->runs; again++) {
            for (int version = 0; version < VERSIONS; version++) memcpy(volume[version], map, length * sizeof *map);
            run(job, turn, volume, length, took);
            if (memcmp(volume[0], map, length * sizeof *map)) fail("the map did not come back, length", length);
        }
        for (int c = 0; c < CALLS; c++)
            for (int version = 0; version < VERSIONS; version++)
                if (best[c][version] == 0 || took[c][version] / g->runs < best[c][version]) best[c][version] = took[c][version] / g->runs;
        if (plans) run_grid(plans);
    }
    free(map);
    for (int version = 0; version < VERSIONS; version++) free(volume[version]);
}

int main(void)
{
    make_arrays(288, 240);
    printf("Milliseconds of processor time, the least of %d; new / old; FFTW: its fastest plan, of %s.\n", TURNS, fftw_build());
    printf("%-12s %-15s %-9s", "group", "grid", "call");
    for (int modulus = 0; modulus < MODULI; modulus++) printf("   %6u: old     new  ratio", primes[modulus]);
    printf("      FFTW  / FFTW\n");
    for (int j = 0; j < GRIDS; j++) {
        double best[MODULI][CALLS][VERSIONS] = { { { 0 } } };
        grid_times *plans = plans_of(&grids[j]);
        for (int modulus = 0; modulus < MODULI; modulus++) measure(&grids[j], modulus, plans, best[modulus]);
        for (int c = CALLS - 1; c >= 0; c--) {
            printf("%-12s %4u %4u %4u  %-9s", group_names[grids[j].group], grids[j].n[0], grids[j].n[1], grids[j].n[2], call_names[c]);
            for (int modulus = 0; modulus < MODULI; modulus++)
                printf("   %11.4f %7.4f %6.2f", 1e3 * best[modulus][c][0], 1e3 * best[modulus][c][1], best[modulus][c][1] / best[modulus][c][0]);
            double fftw = plans ? fastest(c ? plans->synthesis : plans->analysis) : 0;
            if (fftw) printf("   %7.3f %7.2f", 1e3 * fftw, best[0][c][1] / fftw);
            printf("\n");
        }
        fflush(stdout);
    }
    return 0;
}
