/* One step of equation (3) as one pass: every butterfly reads its values, multiplies them by their factors e(b s/AB) without reducing, and
   reduces each of its outer sums once. What a butterfly spares: with the factors 2 and 4 the roots are 1, -1, i and -i, so nothing more is
   multiplied; with 3 and 5 the root's power B - b is the conjugate of its power b, so x_b + x_(B-b) and i (x_b - x_(B-b)) meet one real
   factor each and serve the results c and B - c. */
#include "residues.h"

/* Multiples of P that no sum of two products, and no sum of four such times a residue, exceeds: they stand for 0. */
#define ROOM 418031539216u
#define WIDE_ROOM 444158510417000000u

/* Below 2^60 the division by a constant takes fewer instructions. */
static uint32_t reduce(uint64_t x) { return x % ((uint64_t)1 << 60) % P; }
static pair reduced(sums a) { pair r = { reduce(a.re), reduce(a.im) }; return r; }

static sums of_pair(pair v) { sums r = { v.re, v.im }; return r; }
static sums plus(sums x, sums y) { sums r = { x.re + y.re, x.im + y.im }; return r; }
static sums apart(sums x, sums y) { sums r = { x.re + (ROOM - y.re), x.im + (ROOM - y.im) }; return r; }
static sums turned(sums x, sums y) { sums r = { y.im + (ROOM - x.im), x.re + (ROOM - y.re) }; return r; }
static sums add_scaled(sums a, uint32_t c, sums t) { sums r = { a.re + c * t.re, a.im + c * t.im }; return r; }
static sums wide_apart(sums x, sums y) { sums r = { x.re + (WIDE_ROOM - y.re), x.im + (WIDE_ROOM - y.im) }; return r; }

/* The value at place j times the power k of the root. */
static sums turned_at(const uint32_t *re, const uint32_t *im, size_t k, const uint32_t *from, size_t j)
{
    pair v = get(from, j);
    if (!k) return of_pair(v);
    sums r = { whole(re[k], v.re) + whole(im[k], P - v.im), whole(re[k], v.im) + whole(im[k], v.re) };
    return r;
}

typedef struct { size_t k, first, stride, base, gap; } places;

static void radix2(const uint32_t *re, const uint32_t *im, places at, const uint32_t *from, uint32_t *to)
{
    sums a = turned_at(re, im, 0, from, at.first), b = turned_at(re, im, at.k, from, at.first + at.stride);
    store(to, at.base, reduced(plus(a, b)));
    store(to, at.base + at.gap, reduced(apart(a, b)));
}

static void radix3(const uint32_t *re, const uint32_t *im, places at, const uint32_t *from, uint32_t *to)
{
    sums a = turned_at(re, im, 0, from, at.first), b = turned_at(re, im, at.k, from, at.first + at.stride);
    sums c = turned_at(re, im, 2 * at.k, from, at.first + 2 * at.stride), none = { 0, 0 };
    sums t = plus(b, c), even = add_scaled(a, re[960], t), odd = add_scaled(none, im[960], turned(b, c));
    store(to, at.base, reduced(plus(a, t)));
    store(to, at.base + at.gap, reduced(plus(even, odd)));
    store(to, at.base + 2 * at.gap, reduced(wide_apart(even, odd)));
}

/* The root of order 4 is -i in one direction and i in the other. */
static void radix4(const uint32_t *re, const uint32_t *im, places at, const uint32_t *from, uint32_t *to)
{
    sums a = turned_at(re, im, 0, from, at.first), b = turned_at(re, im, at.k, from, at.first + at.stride);
    sums c = turned_at(re, im, 2 * at.k, from, at.first + 2 * at.stride), d = turned_at(re, im, 3 * at.k, from, at.first + 3 * at.stride);
    sums even = plus(a, c), odd = plus(b, d), away = apart(a, c);
    int plain = im[720] == 1;
    store(to, at.base, reduced(plus(even, odd)));
    store(to, at.base + at.gap, reduced(plus(away, plain ? turned(b, d) : turned(d, b))));
    store(to, at.base + 2 * at.gap, reduced(apart(even, odd)));
    store(to, at.base + 3 * at.gap, reduced(plus(away, plain ? turned(d, b) : turned(b, d))));
}

static void radix5(const uint32_t *re, const uint32_t *im, places at, const uint32_t *from, uint32_t *to)
{
    sums a = turned_at(re, im, 0, from, at.first), b = turned_at(re, im, at.k, from, at.first + at.stride);
    sums c = turned_at(re, im, 2 * at.k, from, at.first + 2 * at.stride), d = turned_at(re, im, 3 * at.k, from, at.first + 3 * at.stride);
    sums e = turned_at(re, im, 4 * at.k, from, at.first + 4 * at.stride), none = { 0, 0 };
    sums t = plus(b, e), s = plus(c, d), u = turned(b, e);
    sums near = add_scaled(add_scaled(a, re[576], t), re[1152], s), far = add_scaled(add_scaled(a, re[1152], t), re[576], s);
    sums near_odd = add_scaled(add_scaled(none, im[576], u), im[1152], turned(c, d));
    sums far_odd = add_scaled(add_scaled(none, im[1152], u), im[576], turned(d, c));
    store(to, at.base, reduced(plus(a, plus(t, s))));
    store(to, at.base + at.gap, reduced(plus(near, near_odd)));
    store(to, at.base + 2 * at.gap, reduced(plus(far, far_odd)));
    store(to, at.base + 3 * at.gap, reduced(wide_apart(far, far_odd)));
    store(to, at.base + 4 * at.gap, reduced(wide_apart(near, near_odd)));
}

static void butterfly(const uint32_t *re, const uint32_t *im, size_t outer, places at, const uint32_t *from, uint32_t *to)
{
    switch (outer) {
    case 2: radix2(re, im, at, from, to); break;
    case 3: radix3(re, im, at, from, to); break;
    case 4: radix4(re, im, at, from, to); break;
    default: radix5(re, im, at, from, to);
    }
}

static void step(const uint32_t *re, const uint32_t *im, size_t inner, size_t outer, size_t lines, const uint32_t *from, uint32_t *to)
{
    size_t turn = 2880 / (inner * outer), s = 0;
    places at = { 0, 0, lines * inner, 0, inner };
    while (at.first < at.stride) {
        butterfly(re, im, outer, at, from, to);
        at.first++;
        at.base++;
        at.k += turn;
        if (++s == inner) {
            s = 0;
            at.k = 0;
            at.base += outer * inner - inner;
        }
    }
}
