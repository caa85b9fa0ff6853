/* How much stack each call of include/recorder.h needs: it runs every call in a thread whose stack was painted before, and prints the call and how
   many bytes of the paint are gone, less those that a thread needs which does nothing. tools/stack_test.py compiles it and compares with the header.
   Cells of all groups, and with each axis the longest; maps and files are those of a few records. */
#define _POSIX_C_SOURCE 200809L
#include <pthread.h>
#include <stdio.h>
#include <stdlib.h>
#include <string.h>
#include <recorder.h>

enum { STACK = 1 << 21, PAINT = 0xA5, ROOM = 1 << 22, RUN = 200 };

static const uint32_t cells[][4] = {
    { 0, 6, 8, 6 }, { 0, 2880, 4, 2 }, { 0, 4, 2880, 2 }, { 0, 2, 4, 2880 }, { 0, 48, 60, 40 }, { 1, 48, 60, 40 }, { 1, 2, 2, 2880 },
    { 2, 48, 60, 40 }, { 2, 4, 2, 2880 }, { 3, 48, 60, 40 }, { 3, 2880, 2, 2 }, { 4, 48, 60, 40 }, { 4, 4, 2, 2880 }
};

/* The cell of a round, its factor lists, and what its calls are lent. */
static uint32_t group, n1, n2, n3, kind, direction, modulus;
static uint8_t lists[3][16];
static size_t counts[3], numbers, file_length;
static uint32_t *map[2], *factors, *work[3], *scratch, line[2 * RECORDER_LONGEST];
static int64_t *combined, *output;
static uint8_t *file, *room;
static recorder_job held[2], collected;
static recorder_scheduler running;
static uint8_t list_room[8];
static unsigned char *stack;
static uint32_t answer;

static void *zeros(size_t count, size_t size)
{
    void *memory = calloc(count, size);
    if (!memory)
        exit(2);
    return memory;
}

static size_t factor_list(uint32_t product, uint8_t *list)
{
    size_t count = 0;
    for (uint8_t factor = 5; factor > 1; factor--)
        for (; product % factor == 0; product /= factor) list[count++] = factor;
    return count;
}

static recorder_answer opened(uint32_t m, uint32_t how, uint32_t *volume)
{
    return recorder_open(group, m, how, n1, n2, n3, lists[0], counts[0], lists[1], counts[1], lists[2], counts[2], volume, numbers);
}

static void nothing(void) {}
static void open_collecting(void) { answer = opened(1, RECORDER_OPEN_COLLECTING, work[0]).number; }
static void open_map(void) { answer = opened(1, RECORDER_OPEN_MAP, map[0]).number; }
static void open_file(void) { answer = recorder_open_file(file, file_length, work[0], numbers).number; }
static void file_faults(void) { answer = recorder_file_faults(file, file_length).count; }
static void write_file(void) { answer = recorder_write_file(collected, factors, numbers, room, ROOM).number; }
static void version(void) { answer = recorder_version() == RECORDER_VERSION ? 0 : 1; }
static void file_header(void) { answer = recorder_file_header(file, file_length).number; }
static void length_of_file(void) { answer = recorder_file_length(collected, factors, numbers).number; }
static void chosen_list(void) { answer = recorder_factor_list(RECORDER_LONGEST, list_room, sizeof list_room).number; }
static void map_power(void) { answer = recorder_map_power(held[0], map[0], numbers).number; }
static void factor_power(void) { answer = recorder_factor_power(collected, factors, numbers).number; }
static void combine(void) { answer = recorder_combine(held[0], map[0], numbers, held[1], map[1], numbers, output, numbers).number; }
static void section(void) { answer = recorder_section(group, n1, n2, n3, combined, numbers, n3 - 1, room, ROOM).number; }

static void record(void)
{
    recorder_reflection at = { 0, 0, 0 };
    memset(work[0], 0, numbers * sizeof *work[0]);
    answer = recorder_record(collected, at, 1, 0, work[0], numbers).number;
}

static void synthesis(void)
{
    memcpy(work[0], factors, numbers * sizeof *factors);
    answer = recorder_synthesis(collected, work[0], numbers, scratch, RECORDER_SCRATCH).number;
}

static void analysis(void)
{
    memcpy(work[0], map[1], numbers * sizeof *map[1]);
    answer = recorder_analysis(held[1], work[0], numbers, scratch, RECORDER_SCRATCH).number;
}

static void point(void)
{
    recorder_grid_point at = { n1 - 1, n2 - 1, n3 - 1 };
    answer = recorder_point(held[0], at, map[0], numbers).number;
}

static void factor(void)
{
    recorder_reflection at = { n1 - 1, n2 - 1, n3 - 1 };
    answer = recorder_factor(collected, at, factors, numbers).number;
}

static void combined_point(void)
{
    recorder_grid_point at = { n1 - 1, n2 - 1, n3 - 1 };
    answer = recorder_combined_point(group, n1, n2, n3, combined, numbers, at).number;
}

static void mrc(void)
{
    recorder_cell cell = { group == RECORDER_P1 ? 3 : 1, 30, 40, 50, 90, 90, 90 };
    answer = recorder_mrc(group, n1, n2, n3, combined, numbers, cell, room, ROOM).number;
}

static void correlate(void)
{
    if (group == RECORDER_P1)
        answer = recorder_correlate(n1, n2, n3, lists[0], counts[0], lists[1], counts[1], lists[2], counts[2], combined, numbers, combined, numbers,
                                    output, numbers, work[0], numbers, work[1], numbers, work[2], numbers, scratch, RECORDER_SCRATCH).number;
}

static void drift(void)
{
    static int64_t run[RUN], least[RUN], greatest[RUN];
    static uint64_t least_at[RUN], greatest_at[RUN];
    answer = recorder_drift(run, RUN, RECORDER_LONGEST_WINDOW, least, RUN, greatest, RUN, least_at, RUN, greatest_at, RUN).number;
}

static void scheduler_new(void) { answer = recorder_scheduler_new().last; }
static void scheduler_next(void) { answer = recorder_scheduler_next(running).number; }
static void scheduler_withdraw(void) { answer = recorder_scheduler_withdraw(running, 1).number; }

static void scheduler_enter(void)
{
    answer = recorder_scheduler_enter(recorder_scheduler_new(), 8, collected, factors, numbers, scratch, RECORDER_SCRATCH).number;
}

/* The first line along l, along h and along k, and the last one: how many lines are left tells which is next. */
static void scheduler_turn(void)
{
    uint32_t pairs = n2 / 2 + 1, planes = (uint32_t)(numbers / (2 * pairs * n1)), along_k = planes * n1, along_h = planes * pairs;
    uint32_t left[] = { n1 * pairs + along_h + along_k, along_h + along_k, along_k, 1 };
    memcpy(work[0], factors, numbers * sizeof *factors);
    for (uint32_t at = 0; at < sizeof left / sizeof *left && answer == RECORDER_ACCEPTED; at++) {
        recorder_scheduler before = running;
        before.lanes[0].left = left[at], before.last = at > 0;
        answer = recorder_scheduler_turn(before, work[0], numbers, scratch, RECORDER_SCRATCH).number;
    }
}

/* A line of zeros with each kind, direction and prime; its length is the first that the kind does not refuse. */
static void one_line(void)
{
    uint8_t list[16];
    size_t count = factor_list(RECORDER_LONGEST / 2, list), length = 0;
    do
        answer = recorder_line(modulus, kind, direction, RECORDER_LONGEST, list, count, line, length++, scratch, RECORDER_SCRATCH);
    while (answer == RECORDER_REFUSED_BUFFER_LENGTH && length <= 2 * RECORDER_LONGEST);
}

static const struct { const char *name; void (*call)(void); } calls[] = {
    { "recorder_open", open_collecting }, { "recorder_open", open_map }, { "recorder_open_file", open_file }, { "recorder_record", record },
    { "recorder_write_file", write_file }, { "recorder_synthesis", synthesis }, { "recorder_analysis", analysis }, { "recorder_point", point },
    { "recorder_factor", factor }, { "recorder_map_power", map_power }, { "recorder_factor_power", factor_power }, { "recorder_combine", combine },
    { "recorder_section", section }, { "recorder_mrc", mrc }, { "recorder_correlate", correlate }, { "recorder_drift", drift },
    { "recorder_version", version }, { "recorder_file_header", file_header }, { "recorder_file_length", length_of_file },
    { "recorder_factor_list", chosen_list }, { "recorder_combined_point", combined_point }, { "recorder_file_faults", file_faults }, { "recorder_scheduler_new", scheduler_new }, { "recorder_scheduler_next", scheduler_next },
    { "recorder_scheduler_enter", scheduler_enter }, { "recorder_scheduler_turn", scheduler_turn }, { "recorder_scheduler_withdraw", scheduler_withdraw }
};

static void *run(void *call)
{
    (*(void (**)(void))call)();
    return NULL;
}

/* How many bytes of the paint a call takes. */
static size_t taken(void (*call)(void))
{
    pthread_attr_t attributes;
    pthread_t thread;
    size_t left = 0;
    memset(stack, PAINT, STACK);
    if (pthread_attr_init(&attributes) || pthread_attr_setstack(&attributes, stack, STACK) || pthread_create(&thread, &attributes, run, &call) ||
        pthread_join(thread, NULL))
        exit(2);
    while (left < STACK && stack[left] == PAINT) left++;
    return STACK - left;
}

static void tell(const char *name, void (*call)(void), uint32_t expected)
{
    size_t all;
    answer = expected;
    all = taken(call);
    if (answer != expected) {
        printf("%s answered %u in group %u, %u x %u x %u\n", name, answer, group, n1, n2, n3);
        exit(1);
    }
    printf("%s %zu\n", name, all - taken(nothing));
}

/* A few records, the file and the map of them, and a map for the other prime. */
static void prepare(void)
{
    recorder_answer made = opened(1, RECORDER_OPEN_COLLECTING, factors);
    collected = made.job;
    for (uint32_t at = 0; at < 64; at++) {
        recorder_reflection index = { at % 4 % n1, at / 4 % 4 % n2, at / 16 % n3 };
        recorder_record(collected, index, 7 + at, at % 3, factors, numbers);
    }
    file_length = recorder_write_file(collected, factors, numbers, file, ROOM).written;
    memcpy(map[0], factors, numbers * sizeof *factors);
    held[0] = recorder_synthesis(collected, map[0], numbers, scratch, RECORDER_SCRATCH).job;
    running = recorder_scheduler_enter(recorder_scheduler_new(), 1, collected, factors, numbers, scratch, RECORDER_SCRATCH).scheduler;
    held[1] = recorder_synthesis(opened(2, RECORDER_OPEN_COLLECTING, map[1]).job, map[1], numbers, scratch, RECORDER_SCRATCH).job;
}

int main(void)
{
    void *aligned;
    if (posix_memalign(&aligned, 1 << 16, STACK))
        return 2;
    stack = aligned;
    scratch = zeros(RECORDER_SCRATCH, sizeof *scratch), file = zeros(ROOM, 1), room = zeros(ROOM, 1);
    for (size_t at = 0; at < sizeof cells / sizeof *cells; at++) {
        uint32_t **volumes[] = { &map[0], &map[1], &factors, &work[0], &work[1], &work[2] };
        group = cells[at][0], n1 = cells[at][1], n2 = cells[at][2], n3 = cells[at][3];
        for (int axis = 0; axis < 3; axis++) counts[axis] = factor_list(cells[at][axis + 1] / 2, lists[axis]);
        numbers = recorder_volume_length(group, n1, n2, n3);
        for (size_t q = 0; q < sizeof volumes / sizeof *volumes; q++) *volumes[q] = zeros(numbers, sizeof **volumes[q]);
        combined = zeros(numbers, sizeof *combined), output = zeros(numbers, sizeof *output);
        prepare();
        for (size_t q = 0; q < sizeof calls / sizeof *calls; q++) tell(calls[q].name, calls[q].call, RECORDER_ACCEPTED);
        for (size_t q = 0; q < sizeof volumes / sizeof *volumes; q++) free(*volumes[q]);
        free(combined), free(output);
    }
    for (modulus = 1; modulus <= 2; modulus++)
        for (kind = 0; kind <= RECORDER_ANTISYMMETRIC; kind++)
            for (direction = 0; direction <= 1; direction++) tell("recorder_line", one_line, RECORDER_ACCEPTED);
    return 0;
}
