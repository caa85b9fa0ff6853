/* lines REPEATS times lines by the proved call: lines of 2,880 values of all kinds beside each other, and the plain transform of 1,440
   pairs beside the same steps in C (plain.h), which test nothing and have their tables made before; the results of both are compared.
   The runs alternate: nine turns, each over all of them, REPEATS calls a run, and of each the least processor time. */
#define _POSIX_C_SOURCE 199309L
#include <string.h>
#include "plain.h"
#include "recorder.h"
#include "timing.h"

enum { TURNS = 9, KINDS = 6, SCRATCH = 11520 };

static const char *names[KINDS] = { "plain", "Hermitian", "anti-Hermitian", "alternating", "symmetric", "antisymmetric" };

/* How many numbers a packed line of 2,880 values has. */
static const size_t sizes[KINDS] = { 5760, 2880, 2880, 2880, 2882, 2878 };

static uint32_t line[5760], scratch[SCRATCH];

/* What the C version works on, reached through pointers: gcc makes slow copies of the butterflies for buffers whose addresses it knows. */
static uint32_t *re, *im, *plain, *work;

static uint32_t *copied(const uint32_t *from, size_t length)
{
    uint32_t *to = room_for(length, sizeof *to);
    return from ? memcpy(to, from, length * sizeof *to) : to;
}

static void fill(uint32_t *v, size_t length)
{
    uint64_t state = 1;
    for (size_t j = 0; j < length; j++) {
        state = (state * 1103515245 + 12345) % 2147483648u;
        v[j] = state / 64 % P;
    }
}

static void run_calls(unsigned repeats, uint32_t kind, uint32_t n, size_t count, size_t length)
{
    static const uint8_t list[] = { 5, 4, 4, 3, 3, 2 };
    for (unsigned t = 0; t < repeats; t++) {
        uint32_t number = recorder_line(1, kind, 0, n, list, count, line, length, scratch, SCRATCH);
        if (number) fail("line refused", number);
    }
}

static void run_kind(unsigned repeats, uint32_t kind, double *least)
{
    fill(line, sizes[kind]);
    double began = processor_time();
    run_calls(repeats, kind, 2880, 6, sizes[kind]);
    keep_least(least, began);
}

/* A plain line of 1,440 values has the list 5, 4, 4, 3, 3 and a silent 2 at its end. */
static void run_plain(unsigned repeats, double *proved, double *c)
{
    fill(line, 2880);
    fill(plain, 2880);
    double began = processor_time();
    run_calls(repeats, 0, 1440, 5, 2880);
    keep_least(proved, began);
    began = processor_time();
    for (unsigned t = 0; t < repeats; t++) transform(re, im, doubled(033445), 1440, plain, work);
    keep_least(c, began);
    if (memcmp(line, plain, 2880 * sizeof *plain)) fail("the results differ, repeats", repeats);
}

int main(int argc, char **argv)
{
    unsigned repeats = argc > 1 ? strtoul(argv[1], 0, 10) : 1;
    double least[KINDS] = { 0 }, proved = 0, c = 0;
    make_tables();
    re = copied(table_re, 2880);
    im = copied(table_im, 2880);
    plain = copied(0, 2880);
    work = copied(0, 2880);
    for (int turn = 0; turn < TURNS; turn++) {
        for (uint32_t kind = 0; kind < KINDS; kind++) run_kind(repeats, kind, &least[kind]);
        run_plain(repeats, &proved, &c);
    }
    for (int kind = 0; kind < KINDS; kind++)
        printf("%s line of 2,880: %.1f us, %.2f of a plain line\n", names[kind], least[kind] * 1e6 / repeats, least[kind] / least[0]);
    printf("plain transform of 1,440 pairs: proved %.1f us, C %.1f us, ratio %.2f\n", proved * 1e6 / repeats, c * 1e6 / repeats, proved / c);
    return 0;
}
