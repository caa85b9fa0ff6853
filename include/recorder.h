/* The map recorder for programs in C: the functions of crates/exported_c, which `bin/build` proves and writes to
   target/staticlib/libexported.a. Each is proved to do what its contract in crates/exported_c/src/lib.rt says, for every input.
   tools/interface_test.py holds the names and types of this header to that file, and the numbers of refusals to crates/refusals.

   Numbers. There are two primes: modulus 1 stands for 86,399 and modulus 2 for 302,399, and a job counts modulo one of them. A residue is
   a number from 0 to its prime less 1. A value a + b i is two neighbouring residues, a pair. A volume holds residues; a density is read as
   the whole number next to zero that is congruent to its residue, from -43,199 to 43,199 under modulus 1 and from -151,199 to 151,199 under
   modulus 2. Two maps of one cell, one for each prime, are combined into whole numbers from -13,063,485,600 to 13,063,485,600. Every answer,
   but of the three calls that are never refused (recorder_version, recorder_file_faults, recorder_scheduler_new), has a number: 0 for an
   accepted call, else the number of the first refusal that applies, in the order given at each call; each has a name below, and words by
   recorder_words, as have names the numbers of groups, moduli, kinds, states and directions. A refused call changes no buffer and no job, but for
   recorder_open_file, which leaves the volume zero where it refuses a record; what only an accepted call gives is then 0.

   Buffers. A buffer is a pointer and the count of its elements. The pointer is aligned and is not NULL, not even with the count 0: the
   library takes the two as a slice, which has no NULL. For no elements, as of the factor list of N = 2, any array of the type will do; it
   is not read. The memory is the caller's, initialised, and no two buffers of one call overlap, but buffers that are only read may. No
   call keeps a pointer.
   - The volume has exactly W * N1 * (N2/2 + 1) pairs, where W is N3 in group 0, N3/2 in groups 1 and 4, N3/2 + 1 in groups 2 and 3: twice
     as many numbers, at most 16,777,216; recorder_volume_length computes the count. It holds a map or packed factors:
     - a map on the planes z = 0 to W - 1, which are the stored ones: the number of the point (x, y, z) stands at place
       (z * N1 + x) * (N2 + 2) + y, and after the N2 numbers of each z and x stand two zeros;
     - packed factors: for each h and each k from 0 to N2/2 the line F(h, k, l) along l, packed before the transform as recorder_line lays it
       out for its kind (0 in group 0, 3 in groups 1 and 4, 4 in group 2, in group 3 4 where h is even and 5 where it is odd); its pair w stands
       at place (w * N1 + h) * (N2/2 + 1) + k of the pairs. In group 4 a line of an odd h is packed times i. A line of kind 5 begins at w = 1,
       and the pairs w = 0 and w = N3/2 are zeros. recorder_factor reads a factor from there, recorder_record writes one.
   - A combined map is laid out as a map is, in signed numbers of 64 bits: it has as many of them as the volume has numbers, and two zeros
     after each row, which no call reads: the number of a point on a stored plane stands at the same place. recorder_combined_point reads any point.
   - A work volume has exactly as many numbers as the volume. An accepted call leaves it zero, whatever it held.
   - The scratch has at least 11,520 numbers. An accepted call leaves its first 11,520 numbers zero and the others untouched.
   - A factor list has the numbers 2 to 5 in any order, with the product N/2; it is empty for N = 2. recorder_factor_list gives one. In a job it
     stands as octal digits, the first factor lowest.

   Threads and stack. The library keeps no state and asks for no memory: any number of threads may call it at once, each with buffers of its
   own; a volume or a combined map that all of them only read (recorder_point, recorder_factor, recorder_map_power, recorder_factor_power,
   recorder_file_length, recorder_write_file, recorder_combine, recorder_combined_point, recorder_section, recorder_mrc, the maps of
   recorder_correlate, recorder_scheduler_enter) may be shared. Calls on one scheduler are made one after another: it is a value, and each needs
   what the last one gave. By measurement on x86-64 synthesis, analysis and recorder_correlate need less than 214,000 bytes of stack,
   recorder_scheduler_turn less than 92,000, recorder_line less than 87,000, the other calls of a scheduler less than 3,600, every other call but
   one less than 1,000, whatever the grid: give a thread 256 KB or more. The one is recorder_file_faults, which is lent no volume and marks the
   orbits of a file in an array of 256 KB of its own; it needs less than 263,000: give a thread that calls it 384 KB or more.

   Lengths N1, N2, N3 are even divisors of 2,880. Groups: 0 P1, 1 P2_1 with axis c, 2 Pm with its mirror across c, 3 Pa with its mirror
   across c and its glide along a, 4 P2_1 2_1 2_1 with the operations (1/2 - x, -y, 1/2 + z), (-x, 1/2 + y, 1/2 - z) and
   (1/2 + x, 1/2 - y, -z). */
#ifndef RECORDER_H
#define RECORDER_H

#include <stddef.h>
#include <stdint.h>

#ifdef __cplusplus
extern "C" {
#endif

/* The version of the calls: 10,000 times the major, 100 times the minor, and the patch number. pkg-config tells the same of an installed library;
   recorder_version tells that of the library that a program runs with. */
#define RECORDER_VERSION 20200

/* Limits: the primes of moduli 1 and 2, which no residue reaches, the longest axis, the most numbers of a volume, the numbers of a scratch,
   the most entries of a window, the greatest magnitude of a density for viewers and the bytes of the header before them, the lanes of a
   scheduler; and the greatest magnitude of a combined number. */
enum {
    RECORDER_PRIME_1 = 86399, RECORDER_PRIME_2 = 302399, RECORDER_LONGEST = 2880, RECORDER_MOST_NUMBERS = 16777216, RECORDER_SCRATCH = 11520,
    RECORDER_LONGEST_WINDOW = 64, RECORDER_GREATEST_EXACT = 16777215, RECORDER_MRC_HEADER = 1024, RECORDER_LANES = 8
};
#define RECORDER_GREATEST_COMBINED INT64_C(13063485600)

/* Groups. */
enum { RECORDER_P1 = 0, RECORDER_P21 = 1, RECORDER_PM = 2, RECORDER_PA = 3, RECORDER_P212121 = 4 };

/* Moduli: the numbers of the two primes. */
enum { RECORDER_MODULUS_1 = 1, RECORDER_MODULUS_2 = 2 };

/* Kinds of opening, and the states of a job. */
enum { RECORDER_OPEN_COLLECTING = 0, RECORDER_OPEN_MAP = 1 };
enum { RECORDER_COLLECTING = 0, RECORDER_FACTORS_HELD = 1, RECORDER_MAP_HELD = 2 };

/* Kinds of line, and directions. */
enum {
    RECORDER_PLAIN = 0, RECORDER_HERMITIAN = 1, RECORDER_ANTI_HERMITIAN = 2, RECORDER_ALTERNATING = 3, RECORDER_SYMMETRIC = 4,
    RECORDER_ANTISYMMETRIC = 5
};
enum { RECORDER_FORWARD = 0, RECORDER_INVERSE = 1 };

/* The numbers of answers. Two numbers of the papers are not here, and no call gives them: 11, of a record of zero, since request M-102, and 17, of a
   file of no records, since M-103. */
enum {
    RECORDER_ACCEPTED = 0,
    RECORDER_REFUSED_LINE_KIND = 1,          /* kind of line not 0 to 5 */
    RECORDER_REFUSED_DIRECTION = 2,          /* direction, or kind of opening, not 0 or 1 */
    RECORDER_REFUSED_LENGTH = 3,             /* length not an even divisor of 2,880 */
    RECORDER_REFUSED_FACTOR = 4,             /* a factor not 2 to 5 */
    RECORDER_REFUSED_PRODUCT = 5,            /* product of a list not N/2 */
    RECORDER_REFUSED_BUFFER_LENGTH = 6,      /* volume, combined map or line not exactly as long as required */
    RECORDER_REFUSED_NOT_RESIDUE = 7,        /* a number not below the prime of its modulus */
    RECORDER_REFUSED_GROUP = 8,              /* group not 0 to 4 */
    RECORDER_REFUSED_VOLUME_TOO_LARGE = 9,   /* volume above 16,777,216 numbers */
    RECORDER_REFUSED_INDEX = 10,             /* an index not below its length */
    RECORDER_REFUSED_CONTRADICTION = 12,     /* an image falls on the index itself with another value */
    RECORDER_REFUSED_SCRATCH_TOO_SHORT = 13, /* scratch below 11,520 numbers */
    RECORDER_REFUSED_INCONSISTENT = 14,      /* no cell that obeys the group has these numbers */
    RECORDER_REFUSED_FILE_SHAPE = 15,        /* a file's bytes are not those that its count and header ask for */
    RECORDER_REFUSED_FILE_VERSION = 16,      /* a file's version not 1 or 2 */
    RECORDER_REFUSED_OUTPUT_TOO_SHORT = 18,  /* output too short */
    RECORDER_REFUSED_NOT_COLLECTING = 21,    /* a record while not collecting */
    RECORDER_REFUSED_NO_MAP = 22,            /* no map held */
    RECORDER_REFUSED_NO_FACTORS = 23,        /* no factors held */
    RECORDER_REFUSED_OCCUPIED = 24,          /* of a record: a number that holds part of its orbit is not 0; in a file: an earlier record is of its orbit */
    RECORDER_REFUSED_IMPOSSIBLE_JOB = 25,    /* no call could have given this job, or this scheduler, back */
    RECORDER_REFUSED_MODULUS = 26,           /* modulus not 1 or 2 */
    RECORDER_REFUSED_DIFFERENT_CELLS = 27,   /* two jobs that differ in group or lengths, or whose moduli are not 1 and 2 in order */
    RECORDER_REFUSED_MAGNITUDE = 28,         /* a magnitude, or of an overlay the sum of those in a times the largest in b, above 13,063,485,600 */
    RECORDER_REFUSED_UNIT_CELL = 29,         /* edge not finite and above 0, angle not strictly between 0 and 180, or another kind of cell than the group's */
    RECORDER_REFUSED_FLOAT_RANGE = 30,       /* a magnitude above 16,777,215 */
    RECORDER_REFUSED_LANE = 31,              /* lane not 1 to 8, or busy when entering */
    RECORDER_REFUSED_CAPACITY = 32,          /* the volumes of all lanes would have more than 16,777,216 numbers */
    RECORDER_REFUSED_NOTHING_RUNS = 33,      /* withdrawing from a lane in which nothing runs */
    RECORDER_REFUSED_WINDOW = 34             /* window not of 1 to 64 entries */
};

/* A refusal's number in words, those that stand at its name above; "accepted" for 0, and "no refusal has this number" for any other. */
static inline const char *recorder_words(uint32_t number)
{
    switch (number) {
    case RECORDER_ACCEPTED: return "accepted";
    case RECORDER_REFUSED_LINE_KIND: return "kind of line not 0 to 5";
    case RECORDER_REFUSED_DIRECTION: return "direction, or kind of opening, not 0 or 1";
    case RECORDER_REFUSED_LENGTH: return "length not an even divisor of 2,880";
    case RECORDER_REFUSED_FACTOR: return "a factor not 2 to 5";
    case RECORDER_REFUSED_PRODUCT: return "product of a list not N/2";
    case RECORDER_REFUSED_BUFFER_LENGTH: return "volume, combined map or line not exactly as long as required";
    case RECORDER_REFUSED_NOT_RESIDUE: return "a number not below the prime of its modulus";
    case RECORDER_REFUSED_GROUP: return "group not 0 to 4";
    case RECORDER_REFUSED_VOLUME_TOO_LARGE: return "volume above 16,777,216 numbers";
    case RECORDER_REFUSED_INDEX: return "an index not below its length";
    case RECORDER_REFUSED_CONTRADICTION: return "an image falls on the index itself with another value";
    case RECORDER_REFUSED_SCRATCH_TOO_SHORT: return "scratch below 11,520 numbers";
    case RECORDER_REFUSED_INCONSISTENT: return "no cell that obeys the group has these numbers";
    case RECORDER_REFUSED_FILE_SHAPE: return "a file's bytes are not those that its count and header ask for";
    case RECORDER_REFUSED_FILE_VERSION: return "a file's version not 1 or 2";
    case RECORDER_REFUSED_OUTPUT_TOO_SHORT: return "output too short";
    case RECORDER_REFUSED_NOT_COLLECTING: return "a record while not collecting";
    case RECORDER_REFUSED_NO_MAP: return "no map held";
    case RECORDER_REFUSED_NO_FACTORS: return "no factors held";
    case RECORDER_REFUSED_OCCUPIED: return "of a record: a number that holds part of its orbit is not 0; in a file: an earlier record is of its orbit";
    case RECORDER_REFUSED_IMPOSSIBLE_JOB: return "no call could have given this job, or this scheduler, back";
    case RECORDER_REFUSED_MODULUS: return "modulus not 1 or 2";
    case RECORDER_REFUSED_DIFFERENT_CELLS: return "two jobs that differ in group or lengths, or whose moduli are not 1 and 2 in order";
    case RECORDER_REFUSED_MAGNITUDE: return "a magnitude, or of an overlay the sum of those in a times the largest in b, above 13,063,485,600";
    case RECORDER_REFUSED_UNIT_CELL: return "edge not finite and above 0, angle not strictly between 0 and 180, or another kind of cell than the group's";
    case RECORDER_REFUSED_FLOAT_RANGE: return "a magnitude above 16,777,215";
    case RECORDER_REFUSED_LANE: return "lane not 1 to 8, or busy when entering";
    case RECORDER_REFUSED_CAPACITY: return "the volumes of all lanes would have more than 16,777,216 numbers";
    case RECORDER_REFUSED_NOTHING_RUNS: return "withdrawing from a lane in which nothing runs";
    case RECORDER_REFUSED_WINDOW: return "window not of 1 to 64 entries";
    default: return "no refusal has this number";
    }
}

/* A reflection's index (h, k, l) and a grid point's index (x, y, z): no call takes one for the other. */
typedef struct { uint32_t h, k, l; } recorder_reflection;
typedef struct { uint32_t x, y, z; } recorder_grid_point;

/* An axis: its length, and its factor list as octal digits, the first factor lowest. */
typedef struct { uint32_t length, factors; } recorder_axis;

/* A job is handed in and handed back by value. Its modulus is 1 or 2, its state 0 collecting, 1 factors held, 2 map held. A job that no
   call could have given back is refused with 25. */
typedef struct {
    uint32_t group, modulus;
    recorder_axis a, b, c;
    uint32_t state;
} recorder_job;

/* What the header of a factor file names: its group, its modulus, the three axes with their lists, how many records follow, and how many numbers
   the volume has that recorder_open_file is to be lent. */
typedef struct {
    uint32_t number, group, modulus;
    recorder_axis a, b, c;
    uint32_t records, numbers;
} recorder_header;

/* A unit cell for viewers: its edges in angstrom, and how many angles in degrees are given. With 3 all of them are, as P1 asks; with 1
   gamma alone, as the other groups ask, alpha and beta are 90 and what stands for them here is not read. Another count is refused with 29. */
typedef struct {
    uint32_t angles;
    float a, b, c, alpha, beta, gamma;
} recorder_cell;

/* A lane of a scheduler: how many lines of its job are left, and the job. A free lane is all zeros. */
typedef struct { uint32_t left; recorder_job job; } recorder_lane;

/* A scheduler is handed in and handed back by value: its lanes, lane 1 first, and the lane that was served last, 0 before any turn. One that
   no calls could have left is refused with 25. */
typedef struct {
    recorder_lane lanes[8];
    uint32_t last;
} recorder_scheduler;

typedef struct { uint32_t number; recorder_job job; } recorder_answer;
typedef struct { uint32_t number, place; recorder_job job; } recorder_file_answer;
typedef struct { uint32_t count, first, second; } recorder_faults;
typedef struct { uint32_t number; size_t written; } recorder_write_answer;
typedef struct { uint32_t number; size_t length; } recorder_length;
typedef struct { uint32_t number; int32_t density; } recorder_density;
typedef struct { uint32_t number; int64_t density; } recorder_combined_density;
typedef struct { uint32_t number, a, b; } recorder_factor_value;
typedef struct { uint32_t number, power; } recorder_power;
typedef struct { uint32_t number, lane; } recorder_next_answer;
typedef struct { uint32_t number; recorder_scheduler scheduler; } recorder_scheduler_answer;
typedef struct { uint32_t number, lane, finished; recorder_job job; recorder_scheduler scheduler; } recorder_turn_answer;

/* The count of a volume's numbers; 0 where every opening is refused, because the group is above 4, a length above 2,880 or the volume
   too large. */
static inline size_t recorder_volume_length(uint32_t group, uint32_t n1, uint32_t n2, uint32_t n3)
{
    uint64_t planes = group == RECORDER_P1 ? n3 : group == RECORDER_PM || group == RECORDER_PA ? n3 / 2 + 1 : n3 / 2, numbers;
    if (group > RECORDER_P212121 || n1 > RECORDER_LONGEST || n2 > RECORDER_LONGEST || n3 > RECORDER_LONGEST)
        return 0;
    numbers = planes * n1 * 2 * (n2 / 2 + 1);
    return numbers > RECORDER_MOST_NUMBERS ? 0 : (size_t)numbers;
}

/* Whether a length is admitted, 1 or 0: an even divisor of 2,880. */
static inline int recorder_admitted(uint32_t length)
{
    return length != 0 && length % 2 == 0 && RECORDER_LONGEST % length == 0;
}

/* The count of the numbers that an opening is lent; 0 exactly where every opening of this group and these lengths is refused, with 8, 3 or 9. */
static inline size_t recorder_opening_length(uint32_t group, uint32_t n1, uint32_t n2, uint32_t n3)
{
    if (!recorder_admitted(n1) || !recorder_admitted(n2) || !recorder_admitted(n3))
        return 0;
    return recorder_volume_length(group, n1, n2, n3);
}

/* The count of a line's numbers by its kind and length; 0 where recorder_line refuses every line of them, with 1 or 3, and of kind 5 with length 2. */
static inline size_t recorder_line_length(uint32_t kind, uint32_t length)
{
    if (kind > RECORDER_ANTISYMMETRIC || !recorder_admitted(length))
        return 0;
    return kind == RECORDER_PLAIN ? 2 * (size_t)length
         : kind == RECORDER_SYMMETRIC ? (size_t)length + 2
         : kind == RECORDER_ANTISYMMETRIC ? (size_t)length - 2
         : (size_t)length;
}

/* The count of a section's bytes: N1 rows of so many lines as N2 numbers need, five to a line, and three lines more. Both lengths are at most
   2,880, so it is below 2^27. */
static inline size_t recorder_section_length(uint32_t n1, uint32_t n2)
{
    return 70 * ((size_t)n1 * ((n2 + 4) / 5) + 3);
}

/* The version of the library: RECORDER_VERSION of the header that it was built with. */
uint32_t recorder_version(void);

/* A factor list for a length: as few factors as any list of it has, 4 as often as it goes into N/2, then 5, then 3, then 2. They go to the output's
   first places, and `written` is how many there are, at most 8; the places beyond are untouched. So an array of 8 is enough for every length.
   Refusals: 3 length not admitted, 18 output too short. */
recorder_write_answer recorder_factor_list(uint32_t length, uint8_t *out, size_t out_length);

/* Opens a job. Kind 0 zeroes the volume and collects; kind 1 takes the volume as a map. A refused opening gives a job of zeros, which
   every call refuses.
   Refusals: 8 group not 0 to 4, 26 modulus not 1 or 2, 2 kind not 0 or 1, then each over the three axes 3 length not admitted, 4 a factor
   not 2 to 5, 5 product not N/2; 9 volume above 16,777,216 numbers, 6 volume not exactly as long as required; for a map 7 a number not
   below the prime, 14 no cell that obeys the group has this map with its zeros. */
recorder_answer recorder_open(uint32_t group, uint32_t modulus, uint32_t kind, uint32_t n1, uint32_t n2, uint32_t n3,
                              const uint8_t *factors1, size_t count1, const uint8_t *factors2, size_t count2,
                              const uint8_t *factors3, size_t count3, uint32_t *volume, size_t volume_length);

/* Opens a job by a factor file of any bytes: an opening with kind 0, then its records, in whatever order they stand; a file of no
   records stands for a cell whose factors are all zero. A file of version 1 has modulus 1, one of version 2 the modulus that it names. A
   refused record gives its place from 0 and leaves the volume zero; every other refusal changes nothing. A refused file gives a job of
   zeros, which every call refuses.
   Refusals: 15 the count is not the bytes that follow, 16 version not 1 or 2, 15 header, lists and records do not fill the file, then
   those of an opening, then of each record in its turn 10, 7, 12, and 24 if an earlier record is of its orbit, whatever their values. */
recorder_file_answer recorder_open_file(const uint8_t *file, size_t file_length, uint32_t *volume, size_t volume_length);

/* What the header of a factor file of any bytes names. No record is looked at: for a sound header recorder_open_file, with a volume of `numbers`
   numbers, is up to the records alone, and there are `records` of them. A header that is refused here is refused there with the same number, whatever
   the volume; all fields are then 0 but the number.
   Refusals: 15, 16, 15 as recorder_open_file, then of the header 8, 26, 3, 4, 5, 9 as an opening. */
recorder_header recorder_file_header(const uint8_t *file, size_t file_length);

/* The fewest records at fault of a file of any bytes. For a file that recorder_open_file refuses at a record, on a volume as long as it asks
   for, these are the places from 0, rising, of the fewest records, the refused one last among them, that under the same header (its counts
   apart) and in the same order are refused with the same number: two for 24, first the earlier record of the orbit, one for 10, 7 and 12. Any
   other file has none: one that is accepted, and one whose shape or header is refused. The count is 0, 1 or 2; a place that is not given is 0.
   Refusals: none. The file is walked at most ten times. */
recorder_faults recorder_file_faults(const uint8_t *file, size_t file_length);

/* How many bytes the file has that recorder_write_file writes for this job and volume. An output of so many bytes is enough for it, a shorter one is
   refused with 18; where this call is refused, that one is refused with the same number. Nothing is written.
   Refusals: 25, 23 no factors held, 6 volume not exactly as long as required, 7, 14. */
recorder_length recorder_file_length(recorder_job job, const uint32_t *volume, size_t volume_length);

/* Writes the factor file of a job that holds factors: one record for each orbit with a value other than zero, at its lowest (h, k, l),
   by rising h, then k, then l; where all are zero, a file of no records. Modulus 1 is written as version 1, modulus 2 as version 2. So equal
   groups, moduli, lengths, factor lists and volumes give equal files, and a written file that is read and written again is the same.
   Returns the count of bytes written; the places beyond are untouched.
   Refusals: 25, 23 no factors held, 6 volume not exactly as long as required, 7, 14, 18 output shorter than recorder_file_length says. */
recorder_write_answer recorder_write_file(recorder_job job, const uint32_t *volume, size_t volume_length, uint8_t *out, size_t out_length);

/* Records a + b i at an index, and the implied values at all images. A zero is recorded too and changes no number; a later record of the
   same orbit is then taken, and its value counts.
   Refusals: 25, 21 not collecting, 10 an index not below its length, 7 a or b not below the prime, 12 an image falls on
   the index itself with another value, 6 volume not exactly as long as required, 24 a number that holds part of the orbit is not 0. */
recorder_answer recorder_record(recorder_job job, recorder_reflection at, uint32_t a, uint32_t b,
                                uint32_t *volume, size_t volume_length);

/* From factors to the map: the job then holds a map.
   Refusals: 25, 23 no factors held (collecting counts as held), 6 volume not exactly as long as required, 13 scratch too short, 7 a
   number not below the prime, 14 no whole cell that obeys group and Friedel has these factors. */
recorder_answer recorder_synthesis(recorder_job job, uint32_t *volume, size_t volume_length,
                                   uint32_t *scratch, size_t scratch_length);

/* From the map to its factors: the job then holds factors. Refusals: 25, 22 no map held, 6, 13, 7, 14 as of an opening with a map. */
recorder_answer recorder_analysis(recorder_job job, uint32_t *volume, size_t volume_length,
                                  uint32_t *scratch, size_t scratch_length);

/* The density at a point anywhere in the cell: the whole number next to zero that is congruent to the point's number in the volume, from
   -43,199 to 43,199 under modulus 1 and from -151,199 to 151,199 under modulus 2. On a plane that is not stored it is read at the point's
   image by the group's operation, in group 4 by the first of its three.
   Refusals: 25, 22 no map held, 10, 6, 7 of the number read. */
recorder_density recorder_point(recorder_job job, recorder_grid_point at, const uint32_t *volume, size_t volume_length);

/* The structure factor a + b i at an index anywhere in the cell. Refusals: 25, 23 no factors held, 10, 6, 7 of the numbers read. */
recorder_factor_value recorder_factor(recorder_job job, recorder_reflection at, const uint32_t *volume, size_t volume_length);

/* Two sums over the whole cell, on planes that are not stored too: of the square of the map's value at every point, and of F * conj F at every
   index; each is a residue modulo the job's prime. For every job and volume that synthesis accepts the power of the map after it is
   N1 * N2 * N3 times that of the factors before it, modulo the prime, and so it is the other way round of an analysis: one number tells
   whether a whole entry was kept.
   Refusals: as of analysis and of synthesis, but no scratch is lent: 25, 22 no map held (of factors: 23 no factors held; collecting counts
   as held), 6, 7, 14. */
recorder_power recorder_map_power(recorder_job job, const uint32_t *volume, size_t volume_length);
recorder_power recorder_factor_power(recorder_job job, const uint32_t *volume, size_t volume_length);

/* Combines two maps of one cell, the first job's modulo 86,399 and the second job's modulo 302,399: each number of the output is the only whole
   number from -13,063,485,600 to 13,063,485,600 that is congruent to the first map's number at its place and to the second's. So the output
   is laid out as the maps are, with two zeros after each row. It has exactly as many numbers as each of the maps, and `written` is that
   count. The factor lists of the two jobs may differ. The jobs and the maps stay as they are.
   Refusals, each over both jobs or maps before the next: 25, 22 no map held, 27 the jobs differ in group or lengths, or their moduli are not 1
   and 2 in order, 6 a map or the output not exactly as long as required, 7 a number not below its prime, 14 as of an opening with a map. */
recorder_write_answer recorder_combine(recorder_job first, const uint32_t *first_map, size_t first_length,
                                       recorder_job second, const uint32_t *second_map, size_t second_length,
                                       int64_t *output, size_t output_length);

/* The density at a point anywhere in the cell of a combined map, a whole number. On a plane that is not stored it is read at the point's image, as by
   recorder_point.
   Refusals: 8 group not 0 to 4, 3 a length not admitted, 9 map above 16,777,216 numbers, 6 map not exactly as long as required, 10 an index
   not below its length. The number is given as it stands, within the range of a combined map or not. */
recorder_combined_density recorder_combined_point(uint32_t group, uint32_t n1, uint32_t n2, uint32_t n3, const int64_t *map, size_t map_length,
                                                  recorder_grid_point at);

/* Writes plane z of the cell of a combined map as a page of text in ASCII: rows by rising x, each line 69 characters and a line feed: x in 4
   places, then five numbers by rising y in 13 places each, all right-aligned. A row takes as many lines as its N2 numbers need, each with its x; the
   places that are left are blanks. Three lines close the page, with T, M or R in the first place and a number that ends in the 69th: the
   total of the plane; the mean, the total divided by N1 * N2 and rounded down, also below zero; the remainder, from 0 to N1 * N2 - 1. On a
   plane that is not stored a number is read at the point's image, as by recorder_point. The page has recorder_section_length bytes, and
   `written` is that count; the places beyond are untouched.
   Refusals: 8 group not 0 to 4, 3 a length not admitted, 9 map above 16,777,216 numbers, 6 map not exactly as long as required, 10 z not below
   N3, 28 a number of plane z with a magnitude above 13,063,485,600 (no other number is looked at), 18 output too short. */
recorder_write_answer recorder_section(uint32_t group, uint32_t n1, uint32_t n2, uint32_t n3, const int64_t *map, size_t map_length,
                                       uint32_t z, uint8_t *out, size_t out_length);

/* Writes the whole cell of a combined map for viewers, in the format MRC2014, little-endian: a header of 1,024 bytes with the lengths as counts
   and as sampling, mode 2, the edges and angles of the unit cell, axes 1, 2, 3, the least and the greatest density, the mean as least minus 1 and
   the RMS as -1, which both mean not determined, space group 1, version 20140, the letters `MAP ` in word 53, the machine stamp 44 44 00 00 in
   word 54, and zero in every other word; then the density of each point as the 32-bit float that is equal to it, x fastest, then y, then z. A
   point on a plane that is not stored is read at its image, as recorder_point does. Returns the count of bytes, 1,024 + 4 N1 N2 N3; the places
   beyond are untouched.
   Refusals: 8 group not 0 to 4, 3 length not admitted, 9 volume above 16,777,216 numbers, 6 map not exactly as long as required, 29 an edge
   not finite and above 0, an angle not strictly between 0 and 180, or the other kind of cell than the group's (three angles for group 0,
   gamma alone for the others, which is exactly 90 in group 4; a count of angles that is neither 3 nor 1 is no kind), 30 the magnitude of a
   density above 16,777,215, 18 output too short. */
recorder_write_answer recorder_mrc(uint32_t group, uint32_t n1, uint32_t n2, uint32_t n3, const int64_t *map, size_t map_length,
                                   recorder_cell cell, uint8_t *out, size_t out_length);

/* The overlay of two combined maps a and b of one cell in P1, which is their cross-correlation: at each shift s = (x, y, z) the sum over all points
   u of a(u) * b(u + s), the indices going round the cell, as an exact whole number, in the layout of the maps with two zeros after each row.
   Maps, output and the three work volumes have each exactly as many numbers as the volume of P1 with these lengths; `written` is that count.
   Lists of factors do not change the result. An accepted call leaves the work volumes zero, and the scratch as any transform does. If one number
   of a changes by d at a point u and both overlays are accepted, the value at s moves by exactly d * b(u + s).
   Refusals: each over the three axes 3 length not admitted, 4 a factor not 2 to 5, 5 product not N/2; 9 volume above 16,777,216 numbers, 6
   a map, the output or a work volume not exactly as long as required, 13 scratch too short, 28 the magnitude of a number in either map, or
   the sum of the magnitudes in a times the largest in b, above 13,063,485,600: so every value of an accepted overlay is within the range of
   a combined map. */
recorder_write_answer recorder_correlate(uint32_t n1, uint32_t n2, uint32_t n3, const uint8_t *factors1, size_t count1,
                                         const uint8_t *factors2, size_t count2, const uint8_t *factors3, size_t count3,
                                         const int64_t *a, size_t a_length, const int64_t *b, size_t b_length,
                                         int64_t *output, size_t output_length, uint32_t *work1, size_t work1_length,
                                         uint32_t *work2, size_t work2_length, uint32_t *work3, size_t work3_length,
                                         uint32_t *scratch, size_t scratch_length);

/* Transforms one line in place; returns the number. A line X has N values, its indices modulo N. Forward, direction 0, gives X^(s), the sum over t
   of X(t) e(ts/N); the inverse, direction 1, is the same with e(-ts/N), divided by N. With A = N/2 a line is packed by its kind:

       kind                                            before the transform                            after it             numbers
       0 plain                                         X(0) to X(N - 1)                                X^(0) to X^(N - 1)   2 N
       1 Hermitian, X(-t) = conj X(t)                  pair 0: X(0), X(A), both real; X(1) to X(A - 1) N real parts         N
       2 anti-Hermitian, X(-t) = -conj X(t)            pair 0: the imaginary parts of X(0), X(A);      N imaginary parts    N
                                                       X(1) to X(A - 1)
       3 alternating, X(-t) = (-1)^t conj X(t)         pair 0: X(0), real, and the part of X(A) that   X^(0) to X^(A - 1)   N
                                                       can differ from 0, the real one for even A, the
                                                       imaginary one for odd A; X(1) to X(A - 1)
       4 symmetric, X(-t) = X(t)                       X(0) to X(A)                                    X^(0) to X^(A)       N + 2
       5 antisymmetric, X(-t) = -X(t)                  X(1) to X(A - 1)                                X^(1) to X^(A - 1)   N - 2

   The inverse goes from what stands after the transform to what stands before it. recorder_line_length computes the last column.
   Refusals: 26 modulus not 1 or 2, 1 kind not 0 to 5, 2 direction not 0 or 1, 3 length not admitted, 4 a factor not 2 to 5, 5 product not
   N/2, 6 line not exactly as long as its kind asks, 13 scratch too short, 7 a number not below the prime. */
uint32_t recorder_line(uint32_t modulus, uint32_t kind, uint32_t direction, uint32_t length, const uint8_t *factors, size_t count,
                       uint32_t *line, size_t line_length, uint32_t *scratch, size_t scratch_length);

/* The drift of a crystal: of each window of a run of scores, which is w neighbouring entries, the least and the greatest score and the first
   place of each, counted in the run from 0. Place j of each output is that of the entries j to j + w - 1. Returns how many windows there
   are, run_length + 1 - w, or 0 for a run that is shorter than w; the places beyond are untouched. The time is the same for every w.
   Refusals: 34 w not 1 to 64, 18 an output with fewer places than windows. */
recorder_write_answer recorder_drift(const int64_t *run, size_t run_length, uint32_t w, int64_t *least, size_t least_length,
                                     int64_t *greatest, size_t greatest_length, uint64_t *least_at, size_t least_at_length,
                                     uint64_t *greatest_at, size_t greatest_at_length);

/* Several syntheses at once. A scheduler runs those of up to eight jobs together, so that a large entry does not hold up a small one: each call
   of recorder_scheduler_turn transforms one line of one job, and the lanes that run have their turns one after the other. It is used so:

       recorder_scheduler s = recorder_scheduler_new();
       recorder_scheduler_answer e = recorder_scheduler_enter(s, lane, job, volumes[lane], lengths[lane], scratch, RECORDER_SCRATCH);
       s = e.scheduler;                                        (if e.number is 0: else it is as it was, and the job has not entered)
       while ((next = recorder_scheduler_next(s)).number == 0 && next.lane != 0) {
           t = recorder_scheduler_turn(s, volumes[next.lane], lengths[next.lane], scratch, RECORDER_SCRATCH);
           if (t.number != 0) break;                           (what was lent is not what is asked for: nothing has changed)
           s = t.scheduler;
           if (t.finished) maps[t.lane] = t.job;               (volumes[t.lane] is its map, and the lane is free)
       }

   The caller keeps the scheduler, which is a value of 324 bytes, and a volume for each job that runs; the scheduler has no pointer to any. What
   follows holds where every call is handed the scheduler that the last accepted call left; a refused call gives it back as it was.
   - From its entering on a job is in its lane. A copy of it that is kept outside is covered by no guarantee about maps, nor is a volume that is
     written between its turns: what counts is the job that the finishing turn gives, with that turn's volume.
   - A turn serves the next lane that runs above the one served last, from lane 1 at first and again after lane 8. recorder_scheduler_next names
     it; that turn is to be lent the volume of that lane, as its last accepted turn left it (the first: as it was at its entering). Another
     volume may be noticed, by 6 or 7, or not: the map is then not that of the job.
   - A job has N1 * (N2/2 + 1) + W * (N2/2 + 1) + W * N1 lines, along l, then h, then k, where W counts the planes of its volume as above. A lane
     with n lines left is finished within 8 n turns, however the other lanes come and go, provided it is not withdrawn and no turn is refused.
   - The turn that takes its last line finishes it: it gives the job, map held, frees the lane and gives its numbers back. The volume is then
     what recorder_synthesis would have left, and so is the job.
   - Withdrawing frees a lane before that, gives its numbers back, and gives no job. The volume stays as it stands, neither factors nor a map:
     no guarantee covers it until it is opened anew.
   - The volumes of all lanes that run have at most 16,777,216 numbers together. Entering is refused with 32 where they would have more: wait
     until a lane is finished.
   - Calls on one scheduler are made one after another, by one thread at a time; threads that have each a scheduler of their own may call at
     once. */

/* Eight free lanes, of which none was served. */
recorder_scheduler recorder_scheduler_new(void);

/* The lane that the next turn serves, 1 to 8, or 0: no lane runs, the scheduler is idle. Refusals: 25 of the scheduler. */
recorder_next_answer recorder_scheduler_next(recorder_scheduler scheduler);

/* A job that holds factors enters a free lane, 1 to 8, with its volume, which is looked at and not changed.
   Refusals: 25 of the scheduler, 31 lane not 1 to 8 or busy, 25 of the job, 32 the volumes of all lanes would have more than 16,777,216 numbers,
   then as of synthesis: 23 no factors held (collecting counts as held), 6, 13, 7, 14. */
recorder_scheduler_answer recorder_scheduler_enter(recorder_scheduler scheduler, uint32_t lane, recorder_job job,
                                                   const uint32_t *volume, size_t volume_length, uint32_t *scratch, size_t scratch_length);

/* One line of the lane that recorder_scheduler_next names, in its volume. The answer has the lane that was served, 1 to 8, or 0 where none runs:
   nothing changes then, and volume and scratch are not looked at. `finished` is 1 where no line of the lane is left, with the job, map held; else it
   is 0, and the job is all zeros. Of a refused turn the lane is 0 too.
   Refusals: 25 of the scheduler, then of the line of that turn alone 6 volume not exactly as long as required, 13 scratch too short, 7 a number of
   the line not below the prime (along k of all N2 + 2 numbers of its row). A refused turn changes nothing: the same lane's turn is next. */
recorder_turn_answer recorder_scheduler_turn(recorder_scheduler scheduler, uint32_t *volume, size_t volume_length,
                                             uint32_t *scratch, size_t scratch_length);

/* Frees a lane whose job is not finished. Refusals: 25 of the scheduler, 31 lane not 1 to 8, 33 nothing runs in it. */
recorder_scheduler_answer recorder_scheduler_withdraw(recorder_scheduler scheduler, uint32_t lane);

#ifdef __cplusplus
}
#endif

#endif
