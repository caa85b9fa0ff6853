/* The drift of a run of ten million scores by the proved call, over windows of several lengths in one run: five turns, each over all lengths
   and both runs, and of each the least processor time. One run is drawn at random, the other rises by one, so that the greatest is always the
   newest entry and the least the oldest. What a turn leaves is tried at some windows by looking at every entry of them. */
#define _POSIX_C_SOURCE 199309L
#include "recorder.h"
#include "timing.h"

enum { TURNS = 5, SCORES = 10000000, TRIED = 1000 };

static const uint32_t lengths[] = { 1, 2, 3, 8, 16, 32, 64 };
enum { LENGTHS = sizeof lengths / sizeof *lengths, RUNS = 2 };
static const char *names[RUNS] = { "random", "rising" };

static int64_t *run, *least, *greatest;
static uint64_t *least_at, *greatest_at;

/* Marsaglia's shifts; every run of the benchmark has the same scores. */
static uint64_t drawn(uint64_t *state)
{
    *state ^= *state << 13;
    *state ^= *state >> 7;
    return *state ^= *state << 17;
}

static void fill(int kind)
{
    uint64_t state = 1973;
    for (size_t j = 0; j < SCORES; j++) run[j] = kind ? (int64_t)j : (int64_t)drawn(&state);
}

static void try_windows(uint32_t w)
{
    uint64_t state = 113;
    for (size_t tried = 0; tried < TRIED; tried++) {
        size_t j = drawn(&state) % (SCORES + 1 - w), low = j, high = j;
        for (size_t k = j; k < j + w; k++) {
            if (run[k] < run[low]) low = k;
            if (run[high] < run[k]) high = k;
        }
        if (least_at[j] != low || greatest_at[j] != high || least[j] != run[low] || greatest[j] != run[high]) fail("another window at", j);
    }
}

int main(void)
{
    double best[RUNS][LENGTHS] = { { 0 } };
    run = room_for(SCORES, sizeof *run);
    least = room_for(SCORES, sizeof *least);
    greatest = room_for(SCORES, sizeof *greatest);
    least_at = room_for(SCORES, sizeof *least_at);
    greatest_at = room_for(SCORES, sizeof *greatest_at);
    for (int turn = 0; turn < TURNS; turn++)
        for (int kind = 0; kind < RUNS; kind++) {
            fill(kind);
            for (int k = 0; k < LENGTHS; k++) {
                double began = processor_time();
                recorder_write_answer answer =
                    recorder_drift(run, SCORES, lengths[k], least, SCORES, greatest, SCORES, least_at, SCORES, greatest_at, SCORES);
                keep_least(&best[kind][k], began);
                if (answer.number) fail("refused", answer.number);
                if (answer.written != SCORES + 1 - lengths[k]) fail("windows", answer.written);
                try_windows(lengths[k]);
            }
        }
    printf("%-8s %4s %10s %10s %10s\n", "run", "w", "s", "ns/score", "of w = 2");
    for (int kind = 0; kind < RUNS; kind++)
        for (int k = 0; k < LENGTHS; k++)
            printf("%-8s %4u %10.4f %10.2f %10.2f\n", names[kind], lengths[k], best[kind][k], best[kind][k] * 1e9 / SCORES, best[kind][k] / best[kind][1]);
    return 0;
}
