/* Residues modulo 86,399, pairs of them as values a + b i, and the tables of the root and its half tangents: what the C versions of the
   transform, the folds and the passes share. Sums and products are reduced as crates/numbers reduces them. */
#ifndef RESIDUES_H
#define RESIDUES_H

#include <stdint.h>
#include <stddef.h>

#define P 86399u

typedef struct { uint32_t re, im; } pair;
typedef struct { uint64_t re, im; } sums;

/* The 2,880 powers of the root and 1,440 half tangents: i tangent[k] = (r^k - 1)/(r^k + 1). */
static uint32_t table_re[2880], table_im[2880], table_tan[1440];

static uint64_t whole(uint32_t a, uint32_t b) { return (uint64_t)a * b; }

/* P is added back where the top bit tells that the difference went below zero: no branch, as in the machine code of the proved functions.
   gcc makes a branch of a conditional expression here, and every second one goes wrong. */
static uint32_t back_above_zero(uint32_t d) { return d + (P & -(d >> 31)); }
static uint32_t add(uint32_t a, uint32_t b) { return back_above_zero(a + b - P); }
static uint32_t sub(uint32_t a, uint32_t b) { return back_above_zero(a - b); }
static uint32_t neg(uint32_t a) { return a ? P - a : 0; }
static uint32_t halve(uint32_t a) { return a % 2 ? (a + P) / 2 : a / 2; }
static uint32_t mul(uint32_t a, uint32_t b) { return whole(a, b) % P; }

static pair sum(pair a, pair b) { pair r = { add(a.re, b.re), add(a.im, b.im) }; return r; }
static pair difference(pair a, pair b) { pair r = { sub(a.re, b.re), sub(a.im, b.im) }; return r; }
static pair negated(pair a) { pair r = { neg(a.re), neg(a.im) }; return r; }
static pair conjugate(pair a) { pair r = { a.re, neg(a.im) }; return r; }
static pair times_i(pair a) { pair r = { neg(a.im), a.re }; return r; }
static pair over_i(pair a) { pair r = { a.im, neg(a.re) }; return r; }
static pair halved(pair a) { pair r = { halve(a.re), halve(a.im) }; return r; }
static pair scaled(uint32_t c, pair a) { pair r = { mul(c, a.re), mul(c, a.im) }; return r; }

static pair product(pair a, pair b)
{
    pair r = { (whole(a.re, b.re) + whole(a.im, P - b.im)) % P, (whole(a.re, b.im) + whole(a.im, b.re)) % P };
    return r;
}

static pair get(const uint32_t *s, size_t j) { pair r = { s[2 * j], s[2 * j + 1] }; return r; }
static void store(uint32_t *d, size_t j, pair v) { d[2 * j] = v.re; d[2 * j + 1] = v.im; }

static uint32_t power(uint32_t a, uint32_t n)
{
    uint32_t r = 1;
    for (; n; n /= 2, a = mul(a, a))
        if (n % 2) r = mul(r, a);
    return r;
}

/* With r^k = c + d i on the unit circle the half tangent is d/(1 + c); a division is the power P - 2. */
static void make_tables(void)
{
    pair x = { 1, 0 }, r = { 125, 48584 };
    for (int k = 0; k < 2880; k++) {
        table_re[k] = x.re;
        table_im[k] = x.im;
        if (k < 1440) table_tan[k] = mul(x.im, power(add(1, x.re), P - 2));
        x = product(x, r);
    }
}

#endif
