/* One packed line of a kind that a synthesis meets, in C: fold, plain transform, and the pass after it, by the formulas of docs/FOLDS.md
   with the same case distinctions as crates/folds and the passes below it. */
#include <string.h>
#include "plain.h"

/* A direction's tables: those of the root, or those of its conjugate, whose half tangents are the negated ones. */
typedef struct { const uint32_t *re, *im, *tan; } tables;

static uint32_t inverse_im[2880], inverse_tan[1440];

static tables tables_of(int inverse)
{
    tables forward = { table_re, table_im, table_tan }, back = { table_re, inverse_im, inverse_tan };
    return inverse ? back : forward;
}

static void make_inverse_tables(void)
{
    for (int k = 0; k < 2880; k++) inverse_im[k] = neg(table_im[k]);
    for (int k = 0; k < 1440; k++) inverse_tan[k] = neg(table_tan[k]);
}

static pair root(tables t, size_t k) { pair r = { t.re[k], t.im[k] }; return r; }

static void scale(uint32_t c, size_t n, uint32_t *line) { for (size_t j = 0; j < n; j++) store(line, j, scaled(c, get(line, j))); }

/* x + y + e d, reduced once. */
static pair plus_product(pair x, pair y, pair e, pair d)
{
    sums s = { x.re + y.re, x.im + y.im };
    s.re += whole(e.re, d.re) + whole(e.im, P - d.im);
    s.im += whole(e.re, d.im) + whole(e.im, d.re);
    return reduced(s);
}

/* Kind 1, Hermitian. */
static pair cross(pair v) { pair r = { add(v.re, v.im), sub(v.re, v.im) }; return r; }

static void hermitian(tables tab, uint32_t factors, size_t a, uint32_t *line, uint32_t *fold, uint32_t *work)
{
    size_t step = 1440 / a;
    store(fold, 0, cross(get(line, 0)));
    for (size_t t = 1; t < a; t++) {
        pair x = get(line, t), y = conjugate(get(line, a - t));
        store(fold, t, plus_product(x, y, root(tab, step * t), times_i(difference(x, y))));
    }
    transform(tab.re, tab.im, factors, a, fold, work);
    memcpy(line, fold, 2 * a * sizeof *line);
}

static void hermitian_inverse(tables tab, uint32_t factors, size_t a, uint32_t *line, uint32_t *fold, uint32_t *work)
{
    size_t step = 1440 / a;
    uint32_t c = (P + 1) / (2 * a);
    memcpy(fold, line, 2 * a * sizeof *line);
    transform(tab.re, tab.im, factors, a, fold, work);
    store(line, 0, scaled(c, cross(get(fold, 0))));
    for (size_t t = 1; t < a; t++) {
        pair x = get(fold, t), y = conjugate(get(fold, a - t));
        store(line, t, scaled(c, halved(plus_product(x, y, root(tab, step * t), times_i(difference(y, x))))));
    }
}

/* Kind 3, alternating. The value at place j of the whole line. */
static pair alternating_value(size_t a, const uint32_t *line, size_t j)
{
    if (j == 0) { pair r = { line[0], 0 }; return r; }
    if (j < a) return get(line, j);
    if (j == a) { pair even = { line[1], 0 }, odd = { 0, line[1] }; return a % 2 ? odd : even; }
    pair v = conjugate(get(line, 2 * a - j));
    return j % 2 ? negated(v) : v;
}

static uint32_t cotangent(tables tab, size_t step, size_t a, size_t s) { return halve(sub(tab.tan[step * (a - s)], tab.tan[step * s])); }
static uint32_t cosecant(tables tab, size_t step, size_t a, size_t s) { return halve(add(tab.tan[step * (a - s)], tab.tan[step * s])); }

static void alternating(tables tab, uint32_t factors, size_t a, uint32_t *line, uint32_t *fold, uint32_t *work)
{
    size_t step = 1440 / a;
    uint64_t odd = 0;
    for (size_t t = 0; t < a; t++) {
        pair v = alternating_value(a, line, 2 * t + 1);
        odd += v.im;
        store(fold, t, sum(alternating_value(a, line, 2 * t), times_i(v)));
    }
    transform(tab.re, tab.im, factors, a, fold, work);
    pair first = { add(fold[0], odd % P), odd % P };
    store(line, 0, first);
    for (size_t s = 1; s < a; s++) {
        pair v = get(fold, s);
        pair r = { add(v.re, mul(v.im, cotangent(tab, step, a, s))), mul(v.im, cosecant(tab, step, a, s)) };
        store(line, s, r);
    }
}

/* N X(j), from the short transform and twice M. */
static pair alternating_back(pair twice, size_t a, const uint32_t *fold, size_t j)
{
    size_t t = j / 2;
    pair y = get(fold, t);
    if (j % 2 == 0) return sum(y, conjugate(get(fold, t ? a - t : 0)));
    return times_i(difference(twice, sum(y, conjugate(get(fold, a - 1 - t)))));
}

static void alternating_inverse(tables tab, uint32_t factors, size_t a, uint32_t *line, uint32_t *fold, uint32_t *work)
{
    size_t step = 1440 / a;
    uint32_t c = (P + 1) / (2 * a), m = add(line[0], line[1]);
    pair twice = { add(m, m), 0 }, first = { line[0], 0 };
    store(fold, 0, first);
    for (size_t s = 1; s < a; s++) {
        pair z = get(line, s);
        pair v = { z.re, neg(add(mul(z.re, cotangent(tab, step, a, s)), mul(z.im, cosecant(tab, step, a, s)))) };
        store(fold, s, v);
    }
    transform(tab.re, tab.im, factors, a, fold, work);
    pair middle = alternating_back(twice, a, fold, a);
    store(line, 0, scaled(c, sum(alternating_back(twice, a, fold, 0), a % 2 ? middle : times_i(middle))));
    for (size_t t = 1; t < a; t++) store(line, t, scaled(c, alternating_back(twice, a, fold, t)));
}

/* Kinds 4 and 5, symmetric and antisymmetric: first is 0 or 1, the first place that is packed. */
static pair mirror_value(size_t first, size_t a, const uint32_t *line, size_t j)
{
    pair zero = { 0, 0 };
    if (first == 0) return get(line, j <= a ? j : 2 * a - j);
    if (j == 0 || j == a) return zero;
    return j < a ? get(line, j - 1) : negated(get(line, 2 * a - j - 1));
}

static pair mirror_result(tables tab, size_t first, size_t a, pair odds, const uint32_t *fold, size_t s)
{
    if (s == 0) return get(fold, 0);
    if (s == a) return difference(get(fold, 0), sum(odds, odds));
    pair y = get(fold, s), z = get(fold, a - s), turn = { 0, tab.tan[1440 / a * s] };
    return halved(first ? plus_product(y, negated(z), turn, sum(y, z)) : plus_product(y, z, turn, difference(y, z)));
}

static void mirror(tables tab, size_t first, uint32_t factors, size_t a, uint32_t *line, uint32_t *fold, uint32_t *work)
{
    sums odd = { 0, 0 };
    for (size_t t = 0; t < a; t++) {
        pair v = mirror_value(first, a, line, 2 * t + 1);
        odd.re += v.re;
        odd.im += v.im;
        store(fold, t, sum(mirror_value(first, a, line, 2 * t), v));
    }
    transform(tab.re, tab.im, factors, a, fold, work);
    pair odds = { odd.re % P, odd.im % P };
    for (size_t s = first; s <= a - first; s++) store(line, s - first, mirror_result(tab, first, a, odds, fold, s));
}

/* The pairs of a packed line of 2 a values. */
static size_t pair_count(int kind, size_t a) { return kind == 0 ? 2 * a : kind == 4 ? a + 1 : kind == 5 ? a - 1 : a; }

/* A packed line of 2 a values, a the product of the factors. */
static void turn_line(int kind, int inverse, uint32_t factors, size_t a, uint32_t *line, uint32_t *fold, uint32_t *work)
{
    tables tab = tables_of(inverse);
    switch (kind) {
    case 0: transform(tab.re, tab.im, doubled(factors), 2 * a, line, work); break;
    case 1: (inverse ? hermitian_inverse : hermitian)(tab, factors, a, line, fold, work); return;
    case 3: (inverse ? alternating_inverse : alternating)(tab, factors, a, line, fold, work); return;
    default: mirror(tab, kind - 4, factors, a, line, fold, work);
    }
    if (inverse) scale((P + 1) / (2 * a), pair_count(kind, a), line);
}
