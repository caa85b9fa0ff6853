/* How the cost of a synthesis grows with the volume: cubes of P1 and of P2_1 2_1 2_1, from 8^3 to the largest that a volume admits. Five turns over
   all cubes; of each the least processor time of a call, small ones run often enough to be seen. A line of the output is a cube: group, length,
   numbers of the volume, seconds of a synthesis and of an analysis (plot.py draws them). */
#define _POSIX_C_SOURCE 199309L
#include "recorder.h"
#include "maps.h"
#include "timing.h"

enum { TURNS = 5, SCRATCH = 11520 };

typedef struct { uint32_t n; const char *list; } length;
static const length lengths[] = {
    { 8, "4" }, { 12, "32" }, { 16, "42" }, { 20, "52" }, { 24, "43" }, { 30, "53" }, { 32, "44" }, { 40, "54" }, { 48, "432" }, { 60, "532" },
    { 64, "442" }, { 80, "542" }, { 96, "443" }, { 120, "543" }, { 144, "4332" }, { 160, "544" }, { 180, "5332" }, { 192, "4432" }, { 240, "5432" },
    { 288, "4433" },
};
static const struct { int group; const char *name; } groups[] = { { 0, "P1" }, { 4, "P212121" } };
enum { LENGTHS = sizeof lengths / sizeof *lengths, GROUPS = sizeof groups / sizeof *groups, MOST = 16777216 };

static double synthesis[GROUPS][LENGTHS], analysis[GROUPS][LENGTHS];

static recorder_job open_map(int group, const length *n, uint32_t *map, size_t count)
{
    uint8_t list[8];
    size_t factors = strlen(n->list);
    for (size_t j = 0; j < factors; j++) list[j] = n->list[j] - '0';
    recorder_answer held = recorder_open(group, 1, 1, n->n, n->n, n->n, list, factors, list, factors, list, factors, map, count);
    if (held.number) fail("opening refused", held.number);
    return held.job;
}

static void least(double *best, double took) { if (*best == 0 || took < *best) *best = took; }

/* From the map to its factors and back, often enough for some milliseconds. */
static void run(int g, int j)
{
    static uint32_t scratch[SCRATCH];
    const uint32_t n[3] = { lengths[j].n, lengths[j].n, lengths[j].n };
    size_t count = map_length(groups[g].group, n);
    int runs = count < 1000000 ? (int)(1000000 / count) : 1;
    uint32_t *volume = room_for(count, sizeof *volume);
    make_map(groups[g].group, n, 86399, volume);
    recorder_job job = open_map(groups[g].group, &lengths[j], volume, count);
    double back = 0, forth = 0;
    for (int again = 0; again < runs; again++) {
        double began = processor_time();
        recorder_answer held = recorder_analysis(job, volume, count, scratch, SCRATCH);
        back += processor_time() - began;
        if (held.number) fail("analysis refused", held.number);
        began = processor_time();
        held = recorder_synthesis(held.job, volume, count, scratch, SCRATCH);
        forth += processor_time() - began;
        if (held.number) fail("synthesis refused", held.number);
    }
    least(&analysis[g][j], back / runs);
    least(&synthesis[g][j], forth / runs);
    free(volume);
}

static size_t numbers_of(int g, int j)
{
    const uint32_t n[3] = { lengths[j].n, lengths[j].n, lengths[j].n };
    return map_length(groups[g].group, n);
}

int main(void)
{
    for (int turn = 0; turn < TURNS; turn++)
        for (int g = 0; g < GROUPS; g++)
            for (int j = 0; j < LENGTHS; j++)
                if (numbers_of(g, j) <= MOST) run(g, j);
    printf("group length numbers synthesis analysis\n");
    for (int g = 0; g < GROUPS; g++)
        for (int j = 0; j < LENGTHS; j++)
            if (synthesis[g][j]) printf("%s %u %zu %.9f %.9f\n", groups[g].name, lengths[j].n, numbers_of(g, j), synthesis[g][j], analysis[g][j]);
    return 0;
}
