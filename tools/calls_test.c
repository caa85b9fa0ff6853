/* What include/recorder.h computes by itself, for tools/calls_test.py: the words of refusals, the counts of volumes and of lines, the version; and
   beside each count whether the library refuses everything of that shape. A line each. */
#include <stdio.h>
#include "recorder.h"

static const uint32_t lengths[] = { 0, 1, 2, 3, 4, 6, 8, 10, 12, 14, 16, 18, 20, 28, 30, 96, 240, 288, 360, 576, 960, 1438, 1440, 1442, 2878, 2880, 2882, 5760,
                                    65536, 4294967294u };
enum { LENGTHS = sizeof lengths / sizeof lengths[0], LIST = 8 };
static uint32_t scratch[RECORDER_SCRATCH], line[2 * RECORDER_LONGEST + 2];

/* The number of an opening on a volume of no numbers: 6 where only the volume is at fault. */
static uint32_t opening(uint32_t group, const uint32_t n[3])
{
    uint8_t lists[3][LIST] = { { 0 } };
    size_t counts[3];
    uint32_t none = 0;
    int axis;
    for (axis = 0; axis < 3; axis++)
        counts[axis] = recorder_factor_list(n[axis], lists[axis], LIST).written;
    return recorder_open(group, 1, RECORDER_OPEN_COLLECTING, n[0], n[1], n[2], lists[0], counts[0], lists[1], counts[1], lists[2], counts[2], &none, 0)
        .number;
}

int main(void)
{
    uint32_t number, group, kind, n[3];
    int a, b, c;
    for (number = 0; number <= 40; number++)
        printf("words %u %s\n", number, recorder_words(number));
    printf("words %u %s\n", 4294967295u, recorder_words(4294967295u));
    printf("version %u %u\n", (unsigned)RECORDER_VERSION, recorder_version());
    for (group = 0; group <= 6; group++)
        for (a = 0; a < LENGTHS; a += 2)
            for (b = 0; b < LENGTHS; b += 3)
                for (c = 0; c < LENGTHS; c++) {
                    n[0] = lengths[a], n[1] = lengths[b], n[2] = lengths[c];
                    printf("volume %u %u %u %u %lu %u\n", group, n[0], n[1], n[2], (unsigned long)recorder_opening_length(group, n[0], n[1], n[2]),
                           opening(group, n));
                }
    for (kind = 0; kind <= 7; kind++)
        for (a = 0; a < LENGTHS; a++) {
            uint8_t list[LIST] = { 0 };
            size_t count = recorder_factor_list(lengths[a], list, LIST).written, length = recorder_line_length(kind, lengths[a]);
            printf("line %u %u %lu %u %u\n", kind, lengths[a], (unsigned long)length,
                   recorder_line(1, kind, RECORDER_FORWARD, lengths[a], list, count, line, length, scratch, RECORDER_SCRATCH),
                   recorder_line(1, kind, RECORDER_FORWARD, lengths[a], list, count, line, length + 1, scratch, RECORDER_SCRATCH));
        }
    return 0;
}
