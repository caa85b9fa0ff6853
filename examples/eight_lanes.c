/* Several factor files to their maps at once, in the eight lanes of a scheduler:

       eight_lanes FILE..

   Each file is opened and enters the lowest lane that is free; where none is, or where the lanes have no room for its volume, turns are taken until
   one is finished. So a large file does not hold up a small one that comes behind it. Of each map that is finished it prints the lane, how many turns
   there were from the file's entering on and the most that there can be, the density at the origin and the power. A refused file ends it. Exit
   status: 0 done, 1 refused, 2 a wrong command line, a file that cannot be read, or no memory. examples/README.md says how it is built. */
#include "factor_file.h"

/* What is in a lane: the library keeps neither the volume nor its name. Lane 0 is none. */
struct lane { const char *name; uint32_t *volume; size_t numbers; unsigned long lines, before; };

static recorder_scheduler scheduler;
static struct lane lanes[RECORDER_LANES + 1];
static uint32_t scratch[RECORDER_SCRATCH];
static unsigned long turns;

/* The lowest lane that is free, or 0. */
static uint32_t free_lane(void)
{
    for (uint32_t at = 1; at <= RECORDER_LANES; at++)
        if (!lanes[at].volume)
            return at;
    return 0;
}

/* The finishing turn gave the job, and the volume is its map now. */
static void print_map(uint32_t at, recorder_job job)
{
    struct lane *lane = &lanes[at];
    recorder_grid_point origin = { 0, 0, 0 };
    recorder_density read = recorder_point(job, origin, lane->volume, lane->numbers);
    accept("recorder_point", read.number);
    recorder_power power = recorder_map_power(job, lane->volume, lane->numbers);
    accept("recorder_map_power", power.number);
    printf("lane %u: %s: %lu turns of at most %lu, density at (0, 0, 0): %d, power of the map: %u\n", at, lane->name, turns - lane->before,
           RECORDER_LANES * lane->lines, read.density, power.power);
    free(lane->volume);
    lane->volume = NULL;
}

/* Takes turns until a lane is finished, and says whether one was: if not, none runs. Each turn is lent the volume of the lane that is next. */
static int finish_one(void)
{
    recorder_next_answer next;
    while ((next = recorder_scheduler_next(scheduler)).number == RECORDER_ACCEPTED && next.lane) {
        struct lane *lane = &lanes[next.lane];
        recorder_turn_answer turn = recorder_scheduler_turn(scheduler, lane->volume, lane->numbers, scratch, RECORDER_SCRATCH);
        accept("recorder_scheduler_turn", turn.number);
        scheduler = turn.scheduler;
        turns++;
        if (turn.finished) {
            print_map(turn.lane, turn.job);
            return 1;
        }
    }
    accept("recorder_scheduler_next", next.number);
    return 0;
}

/* From its entering on a job is in its lane: what was opened is not used any more. */
static void enter(const char *name)
{
    size_t length;
    uint8_t *file = contents(name, &length);
    struct lane lane = { name, NULL, volume_length(file, length), 0, 0 };
    lane.volume = zeros(lane.numbers, sizeof *lane.volume);
    recorder_file_answer opened = recorder_open_file(file, length, lane.volume, lane.numbers);
    if (opened.number != RECORDER_ACCEPTED)
        refuse_file(name, opened.number, recorder_file_faults(file, length));
    free(file);

    uint32_t at;
    recorder_scheduler_answer entered;
    do {
        while (!(at = free_lane()))
            finish_one();
        entered = recorder_scheduler_enter(scheduler, at, opened.job, lane.volume, lane.numbers, scratch, RECORDER_SCRATCH);
    } while (entered.number == RECORDER_REFUSED_CAPACITY && finish_one());
    accept("recorder_scheduler_enter", entered.number);
    scheduler = entered.scheduler;
    lane.lines = scheduler.lanes[at - 1].left;
    lane.before = turns;
    lanes[at] = lane;
}

int main(int count, char **words)
{
    if (count < 2)
        give_up("usage", "eight_lanes FILE..");
    scheduler = recorder_scheduler_new();
    for (int word = 1; word < count; word++)
        enter(words[word]);
    while (finish_one())
        ;
    return fflush(stdout) || ferror(stdout) ? 2 : 0;
}
