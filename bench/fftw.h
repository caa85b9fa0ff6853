#ifndef FFTW_PLANS_H
#define FFTW_PLANS_H

/* FFTW's transforms of a real grid of N x N x N doubles and its N x N x (N/2 + 1) complex factors, one thread: c2r as synthesis does, r2c as
   analysis does. Each by four plans: by estimate or measured, in place or into another array. Without FFTW defined there are no plans,
   and every time is 0. */
#include <stdint.h>
#include <string.h>
#include "timing.h"

enum { PLANS = 4 };

static const char *const plan_names[PLANS] = { "estimated, in place", "estimated, out of place", "measured, in place", "measured, out of place" };

#ifdef FFTW
#include <fftw3.h>

typedef struct { uint32_t n; fftw_plan c2r[PLANS], r2c[PLANS]; double synthesis[PLANS], analysis[PLANS]; } grid_times;

/* Its version and the instruction sets that it has code for. */
static const char *fftw_build(void) { return fftw_version; }

static fftw_complex *factors_held;
static double *map_held;

static size_t complex_count(uint32_t n) { return (size_t)n * n * (n / 2 + 1); }

/* The arrays that all plans share. The second is for plans out of place, up to the length that P1 admits. */
static void make_arrays(uint32_t longest, uint32_t longest_apart)
{
    factors_held = fftw_malloc(complex_count(longest) * sizeof *factors_held);
    map_held = fftw_malloc((size_t)longest_apart * longest_apart * longest_apart * sizeof *map_held);
    if (!factors_held || !map_held) fail("no memory for FFTW, length", longest);
}

/* A plan out of place is left out for a length that has no second array. */
static grid_times make_plans(uint32_t n, int apart)
{
    grid_times t = { n, { 0 }, { 0 }, { 0 }, { 0 } };
    for (int plan = 0; plan < PLANS; plan++) {
        if (plan % 2 && !apart) continue;
        unsigned effort = plan < 2 ? FFTW_ESTIMATE : FFTW_MEASURE;
        double *map = plan % 2 ? map_held : (double *)factors_held;
        t.c2r[plan] = fftw_plan_dft_c2r_3d(n, n, n, factors_held, map, effort);
        t.r2c[plan] = fftw_plan_dft_r2c_3d(n, n, n, map, factors_held, effort);
    }
    return t;
}

/* Runs one plan over an array of small whole numbers, so that no run works on another's results, which grow. */
static void run_plan(fftw_plan plan, uint32_t n, int from_map, double *best)
{
    double *from = from_map ? map_held : (double *)factors_held;
    size_t count = from_map ? (size_t)n * n * n : 2 * complex_count(n);
    for (size_t j = 0; j < count; j++) from[j] = j % 86399;
    double began = processor_time();
    fftw_execute(plan);
    keep_least(best, began);
}

static void run_grid(grid_times *t)
{
    for (int plan = 0; plan < PLANS; plan++)
        if (t->c2r[plan]) {
            run_plan(t->c2r[plan], t->n, 0, &t->synthesis[plan]);
            run_plan(t->r2c[plan], t->n, plan % 2, &t->analysis[plan]);
        }
}
#else
typedef struct { uint32_t n; double synthesis[PLANS], analysis[PLANS]; } grid_times;

static const char *fftw_build(void) { return "no FFTW"; }
static void make_arrays(uint32_t longest, uint32_t longest_apart) { (void)longest; (void)longest_apart; }
static grid_times make_plans(uint32_t n, int apart) { grid_times t = { n, { 0 }, { 0 } }; (void)apart; return t; }
static void run_grid(grid_times *t) { (void)t; }
#endif

/* The fastest plan's time; 0 if there is none. */
static double fastest(const double *times)
{
    double best = 0;
    for (int plan = 0; plan < PLANS; plan++)
        if (times[plan] && (best == 0 || times[plan] < best)) best = times[plan];
    return best;
}

#endif
