/* The bytes of a factor file of P1 whose three axes are alike. */
#ifndef FILE_BYTES_H
#define FILE_BYTES_H

#include <stddef.h>
#include <stdint.h>

typedef struct { uint32_t h, k, l, a, b; } factor_record;

enum { RECORD_BYTES = 14 };

static uint8_t *put(uint8_t *out, int bytes, uint64_t x)
{
    for (int i = bytes - 1; i >= 0; i--) *out++ = x >> (8 * i);
    return out;
}

/* Both counts are those of a count of records; the first record follows. */
static uint8_t *put_header(uint8_t *file, uint32_t n, const uint8_t *list, size_t factors, size_t records)
{
    uint8_t *q = put(put(file + 4, 1, 1), 1, 0);
    for (int axis = 0; axis < 3; axis++) q = put(q, 2, n);
    for (int axis = 0; axis < 3; axis++) {
        q = put(q, 1, factors);
        for (size_t j = 0; j < factors; j++) q = put(q, 1, list[j]);
    }
    q = put(q, 4, records);
    put(file, 4, q - file - 4 + RECORD_BYTES * records);
    return q;
}

static uint8_t *put_record(uint8_t *out, factor_record r)
{
    return put(put(put(put(put(out, 2, r.h), 2, r.k), 2, r.l), 4, r.a), 4, r.b);
}

#endif
