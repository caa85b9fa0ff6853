/* The map of a factor file in C, from the file's name to densities: what a program of your own can begin with.

       map_of_file FILE

   It reads the file, lends the library a volume as long as the header asks for, has the file judged and its records taken, and makes the map; it
   prints the densities at three points, and the power of factors and map. A refused file is told by its number, which recorder.h names, and by the
   places of the records at fault, counted from 0. Exit status: 0 done, 1 refused, 2 a wrong command line, a file that cannot be read, or no memory.
   examples/README.md says how it is built; map_of_file.py does the same work and prints the same text. */
#include "factor_file.h"

static void print_density(recorder_job job, uint32_t x, uint32_t y, uint32_t z, const uint32_t *volume, size_t numbers)
{
    recorder_grid_point at = { x, y, z };
    recorder_density read = recorder_point(job, at, volume, numbers);
    accept("recorder_point", read.number);
    printf("density at (%u, %u, %u): %d\n", x, y, z, read.density);
}

int main(int count, char **words)
{
    if (count != 2)
        give_up("usage", "map_of_file FILE");

    size_t length, numbers;
    uint8_t *file = contents(words[1], &length);
    numbers = volume_length(file, length);
    uint32_t *volume = zeros(numbers, sizeof *volume), *scratch = zeros(RECORDER_SCRATCH, sizeof *scratch);

    recorder_file_answer opened = recorder_open_file(file, length, volume, numbers);
    if (opened.number != RECORDER_ACCEPTED)
        refuse_file(words[1], opened.number, recorder_file_faults(file, length));

    recorder_power factors = recorder_factor_power(opened.job, volume, numbers);
    accept("recorder_factor_power", factors.number);
    recorder_answer held = recorder_synthesis(opened.job, volume, numbers, scratch, RECORDER_SCRATCH);
    accept("recorder_synthesis", held.number);
    recorder_power map = recorder_map_power(held.job, volume, numbers);
    accept("recorder_map_power", map.number);

    uint32_t n1 = held.job.a.length, n2 = held.job.b.length, n3 = held.job.c.length;
    printf("group %u, modulus %u, %u x %u x %u points\n", held.job.group, held.job.modulus, n1, n2, n3);
    print_density(held.job, 0, 0, 0, volume, numbers);
    print_density(held.job, n1 / 2, n2 / 2, n3 / 2, volume, numbers);
    print_density(held.job, n1 - 1, n2 - 1, n3 - 1, volume, numbers);
    printf("power of the factors: %u\npower of the map: %u\n", factors.power, map.power);

    free(scratch);
    free(volume);
    free(file);
    return fflush(stdout) || ferror(stdout) ? 2 : 0;
}
