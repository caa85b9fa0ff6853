/* Records and factor files of a P1 cell of 240^3: 100,000 record calls, the file of the same records read and written, and the file of a
   box with a value for every orbit (6,912,004 records, 97 million bytes) written and read back. */
#include "file_bytes.h"
#include "passes.h"
#include "recorder.h"
#include "timing.h"

enum { LENGTH = 240, SPARSE = 100000, HEADER = 31 };

typedef struct { double records, reading, writing, full_writing, full_reading; } file_times;

/* What the runs share: the records and their file, the factors of the full box, a volume, and room for the longest file. */
typedef struct {
    factor_record *records;
    uint8_t *sparse, *out;
    uint32_t *full, *volume;
    size_t sparse_bytes, room, length, full_records;
} file_frame;

static const uint8_t list_240[] = { 5, 4, 3, 2 };

/* Records of distinct orbits: h from 1 to 119, so that no index is its own mate nor another's. */
static void make_records(factor_record *records)
{
    uint64_t state = 1973;
    for (uint32_t i = 0; i < SPARSE; i++) {
        uint32_t place = i * 65; /* of the 119 * 240 * 240 places */
        state = state * 6364136223846793005ull + 1442695040888963407ull;
        factor_record r = { 1 + place / (LENGTH * LENGTH), place / LENGTH % LENGTH, place % LENGTH, 1 + (state >> 33) % 86398, (state >> 13) % 86399 };
        records[i] = r;
    }
}

static size_t make_file(const factor_record *records, uint8_t *file)
{
    uint8_t *q = put_header(file, LENGTH, list_240, sizeof list_240, SPARSE);
    for (uint32_t i = 0; i < SPARSE; i++) q = put_record(q, records[i]);
    return q - file;
}

/* The full box is the analysis, in C, of a map of any numbers. */
static file_frame make_frame(cell c, const uint32_t *map, uint32_t *volume, uint32_t *scratch)
{
    file_frame f = { .length = 2 * cell_pairs(c), .room = 14 * cell_pairs(c) + HEADER, .volume = volume };
    f.records = room_for(SPARSE, sizeof *f.records);
    f.sparse = room_for(14 * SPARSE + HEADER, 1);
    f.out = room_for(f.room, 1);
    f.full = room_for(f.length, sizeof *f.full);
    make_records(f.records);
    f.sparse_bytes = make_file(f.records, f.sparse);
    memcpy(f.full, map, f.length * sizeof *f.full);
    plain_analysis(c, f.full, scratch);
    return f;
}

static recorder_job open_empty(file_frame *f)
{
    size_t n = sizeof list_240;
    recorder_answer held = recorder_open(0, 1, 0, LENGTH, LENGTH, LENGTH, list_240, n, list_240, n, list_240, n, f->volume, f->length);
    if (held.number) fail("opening refused", held.number);
    return held.job;
}

static void run_records(file_frame *f, double *best)
{
    recorder_job job = open_empty(f);
    double began = processor_time();
    for (uint32_t i = 0; i < SPARSE; i++) {
        factor_record r = f->records[i];
        recorder_reflection at = { r.h, r.k, r.l };
        recorder_answer held = recorder_record(job, at, r.a, r.b, f->volume, f->length);
        if (held.number) fail("record refused", held.number);
        job = held.job;
    }
    keep_least(best, began);
}

static recorder_job run_reading(file_frame *f, const uint8_t *file, size_t bytes, double *best)
{
    double began = processor_time();
    recorder_file_answer opened = recorder_open_file(file, bytes, f->volume, f->length);
    keep_least(best, began);
    if (opened.number) fail("file refused", opened.number);
    return opened.job;
}

static size_t run_writing(file_frame *f, recorder_job job, double *best)
{
    double began = processor_time();
    recorder_write_answer written = recorder_write_file(job, f->volume, f->length, f->out, f->room);
    keep_least(best, began);
    if (written.number) fail("writing refused", written.number);
    return written.written;
}

static void run_files(file_frame *f, file_times *t)
{
    run_records(f, &t->records);
    recorder_job job = run_reading(f, f->sparse, f->sparse_bytes, &t->reading);
    if (run_writing(f, job, &t->writing) != f->sparse_bytes) fail("written, not the bytes read", f->sparse_bytes);
    memcpy(f->volume, f->full, f->length * sizeof *f->full);
    size_t bytes = run_writing(f, job, &t->full_writing);
    f->full_records = (bytes - HEADER) / 14;
    run_reading(f, f->out, bytes, &t->full_reading);
    if (memcmp(f->volume, f->full, f->length * sizeof *f->full)) fail("the box read back differs, bytes", bytes);
}

static void print_file_row(const char *what, size_t records, double took, double synthesis)
{
    printf("%-22s %8zu %7.4f %7.2f %11.3f\n", what, records, took, records / took / 1e6, took / synthesis);
}

/* Beside a synthesis of the same cell. */
static void print_files(const file_frame *f, const file_times *t, double synthesis)
{
    printf("\n%-22s %8s %7s %7s %11s\n", "P1 at 240^3", "records", "seconds", "10^6/s", "/ synthesis");
    print_file_row("record calls", SPARSE, t->records, synthesis);
    print_file_row("reading a file", SPARSE, t->reading, synthesis);
    print_file_row("writing it", SPARSE, t->writing, synthesis);
    print_file_row("writing a full box", f->full_records, t->full_writing, synthesis);
    print_file_row("reading it", f->full_records, t->full_reading, synthesis);
}
