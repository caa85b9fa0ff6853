/* All turns of a scheduler's lanes by the proved calls, beside the syntheses of the same jobs, in one run: one entry of P1 at 60^3, 120^3 and
   240^3, eight at once of the two that the capacity has room for, and one of 240^3 beside seven of 60^3. The runs alternate: five rounds, each
   over all rows, and of each the least processor time. Every map is compared with that of the synthesis. A single entry is run twice, without
   recorder_scheduler_next before each turn and with it; where several run it is always asked. */
#define _POSIX_C_SOURCE 199309L
#include <string.h>
#include "recorder.h"
#include "timing.h"

enum { ROUNDS = 5, LANES = 8, PRIME = 86399 };

typedef struct { uint32_t n; uint8_t list[4]; size_t count, length; uint32_t *factors, *map; recorder_job job; double synthesis; } entry;

static entry cells[] = {
    { .n = 60, .list = { 5, 3, 2 }, .count = 3 },
    { .n = 120, .list = { 5, 4, 3 }, .count = 3 },
    { .n = 240, .list = { 5, 4, 3, 2 }, .count = 4 },
};
enum { CELLS = sizeof cells / sizeof *cells };

/* The numbers of cells[0], cells[1] and cells[2] that run at once. */
typedef struct { const char *name; int of[CELLS], asked; double took; size_t turns; } row;

static row rows[] = {
    { .name = "60^3", .of = { 1, 0, 0 } },
    { .name = "60^3, next asked", .of = { 1, 0, 0 }, .asked = 1 },
    { .name = "120^3", .of = { 0, 1, 0 } },
    { .name = "120^3, next asked", .of = { 0, 1, 0 }, .asked = 1 },
    { .name = "240^3", .of = { 0, 0, 1 } },
    { .name = "240^3, next asked", .of = { 0, 0, 1 }, .asked = 1 },
    { .name = "eight 60^3", .of = { 8, 0, 0 }, .asked = 1 },
    { .name = "eight 120^3", .of = { 0, 8, 0 }, .asked = 1 },
    { .name = "240^3, seven 60^3", .of = { 7, 0, 1 }, .asked = 1 },
};
enum { ROWS = sizeof rows / sizeof *rows };

static uint32_t scratch[RECORDER_SCRATCH];

/* The factors of a random map, with two zeros after each of its rows. */
static void make_entry(entry *e)
{
    uint64_t state = 1973;
    e->length = recorder_volume_length(RECORDER_P1, e->n, e->n, e->n);
    e->factors = room_for(e->length, sizeof *e->factors);
    e->map = room_for(e->length, sizeof *e->map);
    for (size_t j = 0; j < e->length; j++) {
        state = (state * 1103515245 + 12345) % 2147483648u;
        e->factors[j] = j % (e->n + 2) < e->n ? state / 64 % PRIME : 0;
    }
    recorder_answer held = recorder_open(RECORDER_P1, 1, 1, e->n, e->n, e->n, e->list, e->count, e->list, e->count, e->list, e->count,
                                         e->factors, e->length);
    if (held.number) fail("opening refused", held.number);
    held = recorder_analysis(held.job, e->factors, e->length, scratch, RECORDER_SCRATCH);
    if (held.number) fail("analysis refused", held.number);
    e->job = held.job;
}

static void synthesise(entry *e)
{
    memcpy(e->map, e->factors, e->length * sizeof *e->map);
    double began = processor_time();
    recorder_answer held = recorder_synthesis(e->job, e->map, e->length, scratch, RECORDER_SCRATCH);
    keep_least(&e->synthesis, began);
    if (held.number) fail("synthesis refused", held.number);
}

typedef struct { entry *of; uint32_t *volume; } lane;

/* Turns until no lane runs; without asking, lane 1 is the only one. */
static size_t run_lanes(recorder_scheduler s, const lane *lanes, int running, int asked)
{
    size_t turns = 0;
    for (uint32_t d = 1; running; turns++) {
        if (asked) d = recorder_scheduler_next(s).lane;
        recorder_turn_answer t = recorder_scheduler_turn(s, lanes[d].volume, lanes[d].of->length, scratch, RECORDER_SCRATCH);
        if (t.number || t.lane != d) fail("turn refused, or of another lane", t.number);
        s = t.scheduler;
        running -= t.finished;
    }
    return turns;
}

static void run_row(row *r)
{
    lane lanes[LANES + 1];
    int entered = 0;
    recorder_scheduler s = recorder_scheduler_new();
    for (int c = 0; c < CELLS; c++)
        for (int j = 0; j < r->of[c]; j++) {
            lane *l = &lanes[++entered];
            l->of = &cells[c];
            l->volume = room_for(l->of->length, sizeof *l->volume);
            memcpy(l->volume, l->of->factors, l->of->length * sizeof *l->volume);
            recorder_scheduler_answer held =
                recorder_scheduler_enter(s, entered, l->of->job, l->volume, l->of->length, scratch, RECORDER_SCRATCH);
            if (held.number) fail("entering refused", held.number);
            s = held.scheduler;
        }
    double began = processor_time();
    r->turns = run_lanes(s, lanes, entered, r->asked);
    keep_least(&r->took, began);
    for (int d = 1; d <= entered; d++) {
        if (memcmp(lanes[d].volume, lanes[d].of->map, lanes[d].of->length * sizeof *lanes[d].volume)) fail("another map in lane", d);
        free(lanes[d].volume);
    }
}

static void print_rows(void)
{
    printf("Seconds of processor time; syntheses: those of the same jobs; us: microseconds for each turn.\n");
    printf("%-18s %8s %8s %10s %6s %6s\n", "entries of P1", "turns", "took", "syntheses", "ratio", "us");
    for (int j = 0; j < ROWS; j++) {
        double alone = 0;
        for (int c = 0; c < CELLS; c++) alone += rows[j].of[c] * cells[c].synthesis;
        printf("%-18s %8zu %8.4f %10.4f %6.2f %6.2f\n", rows[j].name, rows[j].turns, rows[j].took, alone, rows[j].took / alone,
               rows[j].took * 1e6 / rows[j].turns);
    }
}

int main(void)
{
    for (int c = 0; c < CELLS; c++) make_entry(&cells[c]);
    for (int round = 0; round < ROUNDS; round++) {
        for (int c = 0; c < CELLS; c++) synthesise(&cells[c]);
        for (int j = 0; j < ROWS; j++) run_row(&rows[j]);
    }
    print_rows();
    return 0;
}
