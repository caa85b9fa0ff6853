/* The recorder from C: the paper's specimens of records, files, maps and lines by every call of include/recorder.h, each held to the
   paper's result. It shows how the calls follow one another, and that the header fits the library.

   bin/build && gcc -Iinclude -o specimens examples/specimens.c target/staticlib/libexported.a && ./specimens */
#include <stdio.h>
#include <stdlib.h>
#include <string.h>
#include "recorder.h"

static int wrong;

static void expect(const char *what, uint32_t is, uint32_t should_be)
{
    if (is != should_be) {
        printf("%s: %u, not %u\n", what, is, should_be);
        wrong = 1;
    }
}

static const uint8_t two[] = { 2 };

/* The map of the printed specimen: P1, 2 x 2 x 2, the factor 3 at (1, 0, 0). */
static void expect_printed_map(recorder_job job, const uint32_t *volume)
{
    for (uint32_t z = 0; z < 2; z++)
        for (uint32_t x = 0; x < 2; x++)
            for (uint32_t y = 0; y < 2; y++) {
                recorder_grid_point point = { x, y, z };
                recorder_density read = recorder_point(job, point, volume, 16);
                expect("point", read.number, RECORDER_ACCEPTED);
                expect("its density", (uint32_t)read.density, (uint32_t)(x ? -3 : 3));
            }
}

static void printed_map(void)
{
    static uint32_t volume[16], scratch[RECORDER_SCRATCH];
    recorder_reflection at = { 1, 0, 0 };
    memset(volume, 255, sizeof volume);
    expect("the volume's length", recorder_volume_length(RECORDER_P1, 2, 2, 2), 16);
    recorder_answer held = recorder_open(RECORDER_P1, RECORDER_MODULUS_1, RECORDER_OPEN_COLLECTING, 2, 2, 2, two, 0, two, 0, two, 0, volume, 16);
    expect("open", held.number, RECORDER_ACCEPTED);
    held = recorder_record(held.job, at, 3, 0, volume, 16);
    expect("record", held.number, RECORDER_ACCEPTED);
    expect("state", held.job.state, RECORDER_COLLECTING);
    recorder_factor_value factor = recorder_factor(held.job, at, volume, 16);
    expect("factor", factor.number, RECORDER_ACCEPTED);
    expect("its a", factor.a, 3);
    expect("its b", factor.b, 0);
    expect("the same record again", recorder_record(held.job, at, 3, 0, volume, 16).number, RECORDER_REFUSED_OCCUPIED);
    expect("a short scratch", recorder_synthesis(held.job, volume, 16, scratch, RECORDER_SCRATCH - 1).number, RECORDER_REFUSED_SCRATCH_TOO_SHORT);
    held = recorder_synthesis(held.job, volume, 16, scratch, RECORDER_SCRATCH);
    expect("synthesis", held.number, RECORDER_ACCEPTED);
    expect("state", held.job.state, RECORDER_MAP_HELD);
    expect_printed_map(held.job, volume);
    expect("a factor of a map", recorder_factor(held.job, at, volume, 16).number, RECORDER_REFUSED_NO_FACTORS);
    held = recorder_analysis(held.job, volume, 16, scratch, RECORDER_SCRATCH);
    expect("analysis", held.number, RECORDER_ACCEPTED);
    expect("state", held.job.state, RECORDER_FACTORS_HELD);
    expect("the factor again", recorder_factor(held.job, at, volume, 16).a, 3);
    expect("a record while not collecting", recorder_record(held.job, at, 3, 0, volume, 16).number, RECORDER_REFUSED_NOT_COLLECTING);
    held.job.b.factors = 2;
    expect("a job that no call gives", recorder_analysis(held.job, volume, 16, scratch, RECORDER_SCRATCH).number, RECORDER_REFUSED_IMPOSSIBLE_JOB);
}

/* The file of the printed specimen, to the map and back to the same bytes. */
static void printed_file(void)
{
    static const uint8_t file[33] = { 0, 0, 0, 29, 1, 0, 0, 2, 0, 2, 0, 2, 0, 0, 0, 0, 0, 0, 1, 0, 1, 0, 0, 0, 0, 0, 0, 0, 3, 0, 0, 0, 0 };
    static uint32_t volume[16], scratch[RECORDER_SCRATCH];
    uint8_t out[40];
    memset(out, 255, sizeof out);
    expect("a file that is cut", recorder_open_file(file, 32, volume, 16).number, RECORDER_REFUSED_FILE_SHAPE);
    recorder_file_answer opened = recorder_open_file(file, 33, volume, 16);
    expect("open_file", opened.number, RECORDER_ACCEPTED);
    expect("state", opened.job.state, RECORDER_COLLECTING);
    recorder_answer held = recorder_synthesis(opened.job, volume, 16, scratch, RECORDER_SCRATCH);
    expect("synthesis", held.number, RECORDER_ACCEPTED);
    expect_printed_map(held.job, volume);
    expect("a file of a map", recorder_write_file(held.job, volume, 16, out, 40).number, RECORDER_REFUSED_NO_FACTORS);
    held = recorder_open(RECORDER_P1, RECORDER_MODULUS_1, RECORDER_OPEN_MAP, 2, 2, 2, two, 0, two, 0, two, 0, volume, 16);
    expect("open with the map", held.number, RECORDER_ACCEPTED);
    held = recorder_analysis(held.job, volume, 16, scratch, RECORDER_SCRATCH);
    expect("analysis", held.number, RECORDER_ACCEPTED);
    expect("a short output", recorder_write_file(held.job, volume, 16, out, 32).number, RECORDER_REFUSED_OUTPUT_TOO_SHORT);
    recorder_write_answer answer = recorder_write_file(held.job, volume, 16, out, 40);
    expect("write_file", answer.number, RECORDER_ACCEPTED);
    expect("its length", answer.written, 33);
    expect("its bytes", memcmp(out, file, 33) == 0, 1);
    expect("the place beyond", out[33], 255);
}

/* Records that contradict themselves or meet what is there, and an opening that gives no job. */
static void refused_records(void)
{
    static uint32_t volume[2 * 3 * 4 * 3];
    recorder_reflection l = { 0, 0, 1 }, h = { 1, 0, 0 }, opposite = { 0, 0, 3 };
    recorder_answer held = recorder_open(RECORDER_P21, RECORDER_MODULUS_1, RECORDER_OPEN_COLLECTING, 4, 4, 4, two, 1, two, 1, two, 1, volume, 48);
    expect("P2_1", held.number, RECORDER_ACCEPTED);
    expect("P2_1 (0,0,1)", recorder_record(held.job, l, 5, 7, volume, 48).number, RECORDER_REFUSED_CONTRADICTION);
    held = recorder_open(RECORDER_PA, RECORDER_MODULUS_1, RECORDER_OPEN_COLLECTING, 4, 4, 4, two, 1, two, 1, two, 1, volume, 72);
    expect("Pa", held.number, RECORDER_ACCEPTED);
    expect("Pa (1,0,0)", recorder_record(held.job, h, 5, 7, volume, 72).number, RECORDER_REFUSED_CONTRADICTION);
    held = recorder_open(RECORDER_PM, RECORDER_MODULUS_1, RECORDER_OPEN_COLLECTING, 4, 4, 4, two, 1, two, 1, two, 1, volume, 72);
    held = recorder_record(held.job, l, 5, 0, volume, 72);
    expect("Pm (0,0,1)", held.number, RECORDER_ACCEPTED);
    expect("Pm (0,0,3)", recorder_record(held.job, opposite, 5, 0, volume, 72).number, RECORDER_REFUSED_OCCUPIED);
    held = recorder_open(RECORDER_P212121, RECORDER_MODULUS_1, RECORDER_OPEN_COLLECTING, 4, 4, 4, two, 1, two, 1, two, 1, volume, 48);
    expect("P2_1 2_1 2_1", held.number, RECORDER_ACCEPTED);
    expect("P2_1 2_1 2_1 (0,0,1)", recorder_record(held.job, l, 5, 7, volume, 48).number, RECORDER_REFUSED_CONTRADICTION);
    expect("P2_1 2_1 2_1 (1,0,0)", recorder_record(held.job, h, 5, 7, volume, 48).number, RECORDER_REFUSED_CONTRADICTION);
    held = recorder_open(5, 3, RECORDER_OPEN_COLLECTING, 4, 4, 4, two, 1, two, 1, two, 1, volume, 72);
    expect("group 5", held.number, RECORDER_REFUSED_GROUP);
    expect("its job", recorder_record(held.job, l, 5, 0, volume, 72).number, RECORDER_REFUSED_IMPOSSIBLE_JOB);
}

static uint32_t transformed(uint32_t modulus, uint32_t kind, uint32_t direction, uint32_t length, uint32_t *line)
{
    static uint32_t scratch[RECORDER_SCRATCH];
    return recorder_line(modulus, kind, direction, length, two, 1, line, 4, scratch, RECORDER_SCRATCH);
}

static void lines(void)
{
    uint32_t line[] = { 1, 2, 3, 4 }, after[2][4] = { { 9, 7, 86396, 86390 }, { 9, 7, 302396, 302390 } };
    for (uint32_t m = RECORDER_MODULUS_1; m <= RECORDER_MODULUS_2; m++) {
        expect("Hermitian", transformed(m, RECORDER_HERMITIAN, RECORDER_FORWARD, 4, line), RECORDER_ACCEPTED);
        for (int j = 0; j < 4; j++) expect("after", line[j], after[m - 1][j]);
        expect("its inverse", transformed(m, RECORDER_HERMITIAN, RECORDER_INVERSE, 4, line), RECORDER_ACCEPTED);
        for (int j = 0; j < 4; j++) expect("restored", line[j], j + 1);
        expect("length 14", transformed(m, RECORDER_HERMITIAN, RECORDER_FORWARD, 14, line), RECORDER_REFUSED_LENGTH);
    }
    expect("modulus 3", transformed(3, 6, RECORDER_FORWARD, 14, line), RECORDER_REFUSED_MODULUS);
    line[3] = RECORDER_PRIME_1;
    expect("86,399", transformed(RECORDER_MODULUS_1, RECORDER_HERMITIAN, RECORDER_FORWARD, 4, line), RECORDER_REFUSED_NOT_RESIDUE);
    expect("it modulo 302,399", transformed(RECORDER_MODULUS_2, RECORDER_HERMITIAN, RECORDER_FORWARD, 4, line), RECORDER_ACCEPTED);
}

/* Whole numbers beyond both primes in a P1 cell of 2 x 2 x 2, by their residues: each is combined again. */
static void combined_maps(void)
{
    static const int64_t numbers[8] = { 0, 1, -1, 43200, -151200, 1234567890, RECORDER_GREATEST_COMBINED, -RECORDER_GREATEST_COMBINED };
    static const uint32_t primes[2] = { RECORDER_PRIME_1, RECORDER_PRIME_2 };
    static uint32_t map[2][16];
    int64_t out[16];
    recorder_answer held[2];
    for (uint32_t m = 0; m < 2; m++) {
        for (int q = 0; q < 8; q++) map[m][4 * (q / 2) + q % 2] = (uint32_t)((numbers[q] % primes[m] + primes[m]) % primes[m]);
        held[m] = recorder_open(RECORDER_P1, m + 1, RECORDER_OPEN_MAP, 2, 2, 2, two, 0, two, 0, two, 0, map[m], 16);
        expect("open with a map of residues", held[m].number, RECORDER_ACCEPTED);
        expect("its modulus", held[m].job.modulus, m + 1);
    }
    memset(out, 255, sizeof out);
    expect("the other order", recorder_combine(held[1].job, map[1], 16, held[0].job, map[0], 16, out, 16).number, RECORDER_REFUSED_DIFFERENT_CELLS);
    expect("a short output", recorder_combine(held[0].job, map[0], 16, held[1].job, map[1], 16, out, 15).number, RECORDER_REFUSED_BUFFER_LENGTH);
    expect("an output that is not written", out[0] == -1, 1);
    recorder_write_answer answer = recorder_combine(held[0].job, map[0], 16, held[1].job, map[1], 16, out, 16);
    expect("combine", answer.number, RECORDER_ACCEPTED);
    expect("its count", answer.written, 16);
    for (int q = 0; q < 16; q++) expect("a combined number", out[q] == (q % 4 < 2 ? numbers[2 * (q / 4) + q % 4] : 0), 1);
    expect("modulus 3", recorder_open(RECORDER_P1, 3, 2, 2, 2, 2, two, 0, two, 0, two, 0, map[0], 16).number, RECORDER_REFUSED_MODULUS);
}

int main(void)
{
    printed_map();
    printed_file();
    refused_records();
    lines();
    combined_maps();
    puts(wrong ? "wrong" : "all specimens as the paper has them");
    return wrong;
}
