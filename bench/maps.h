/* A map of any of the five groups, as a volume of W planes of N1 rows of N2 numbers and two zeros: any residues, with images that are alike. */
#ifndef MAPS_H
#define MAPS_H

#include <stdint.h>
#include <stddef.h>
#include <string.h>

/* The planes that a group stores of N3. */
static size_t map_planes(int group, uint32_t n3) { return group == 0 ? n3 : group == 1 || group == 4 ? n3 / 2 : n3 / 2 + 1; }

static size_t map_length(int group, const uint32_t n[3]) { return map_planes(group, n[2]) * n[0] * (n[1] + 2); }

/* In Pa the planes 0 and A are their own images by the glide, so there the second half of the rows repeats the first. */
static void glide(const uint32_t n[3], uint32_t *map)
{
    size_t plane = (size_t)n[0] * (n[1] + 2), last = map_planes(3, n[2]) - 1;
    memcpy(map + plane / 2, map, plane / 2 * sizeof *map);
    memcpy(map + last * plane + plane / 2, map + last * plane, plane / 2 * sizeof *map);
}

/* In P2_1 2_1 2_1 each point of a stored plane z has one more image on one: for z = 0 (1/2 + x, 1/2 - y, -z), else (-x, 1/2 + y, 1/2 - z).
   Each is the other's image, and the later one in the volume repeats the earlier. */
static void screw(const uint32_t n[3], uint32_t *map)
{
    size_t row = n[1] + 2;
    for (size_t z = 0; z < n[2] / 2; z++)
        for (size_t x = 0; x < n[0]; x++)
            for (size_t y = 0; y < n[1]; y++) {
                size_t from = z ? ((n[2] / 2 - z) * n[0] + (n[0] - x) % n[0]) * row + (y + n[1] / 2) % n[1]
                                : (x + n[0] / 2) % n[0] * row + (n[1] / 2 + n[1] - y) % n[1];
                size_t to = (z * n[0] + x) * row + y;
                if (from < to) map[to] = map[from];
            }
}

static void make_map(int group, const uint32_t n[3], uint32_t prime, uint32_t *map)
{
    size_t row = n[1] + 2;
    uint64_t state = 1;
    for (size_t j = 0; j < map_length(group, n); j++) {
        state = (state * 1103515245 + 12345) % 2147483648u;
        map[j] = j % row < n[1] ? state / 64 % prime : 0;
    }
    if (group == 3) glide(n, map);
    if (group == 4) screw(n, map);
}

#endif
