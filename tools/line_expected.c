/* What the line test must print, by direct sums over the whole line: reads the calls of line_cases.py from standard
   input and writes a line for each: the refusal's number or 0, a checksum of the line and one of the scratch.

   It shares no code with the crates and never folds: it unfolds the packed line by the paper's table, sums
   X(t) e(ts/N) over all t for each s it needs, and packs the result. The roots of the two primes are found by the paper's rule. */
#include <stdint.h>
#include <stdio.h>
#include <stdlib.h>
#include <string.h>

#define MAX 2880

/* the prime of the call, and the powers of its root */
static int64_t P;

typedef struct { int64_t re, im; } value;

static value mul(value x, value y)
{
    value z = { (x.re * y.re + (P - x.im) * y.im) % P, (x.re * y.im + x.im * y.re) % P };
    return z;
}
static value conj_of(value x) { value z = { x.re, (P - x.im) % P }; return z; }
static value neg_of(value x) { value z = { (P - x.re) % P, (P - x.im) % P }; return z; }
static value power(value x, int n)
{
    value y = { 1, 0 };
    while (n-- > 0) y = mul(y, x);
    return y;
}
static int64_t inverse(int64_t x)
{
    int64_t y = 1;
    for (int64_t e = P - 2; e; e >>= 1) {
        if (e & 1) y = y * x % P;
        x = x * x % P;
    }
    return y;
}
static int is(value x, int64_t re, int64_t im) { return x.re == re && x.im == im; }

static value powers[2][MAX];
static value *root_power;

/* the first prime and its root, or the second */
static void choose(int second)
{
    P = second ? 302399 : 86399;
    root_power = powers[second];
}

/* ((a + i)/(a - i))^c, where p = 2,880 c - 1, for the least a for which it has order exactly 2,880 and its 720th power is -i */
static void find_root(void)
{
    for (int64_t a = 1;; a++) {
        int64_t n = inverse((a * a + 1) % P);
        value top = { a, 1 };
        value r = mul(mul(top, top), (value){ n, 0 });
        r = power(r, (P + 1) / 2880);
        value x = { 1, 0 };
        int order = 0;
        do { root_power[order] = x; x = mul(x, r); order++; } while (order < MAX && !is(x, 1, 0));
        if (order == MAX && is(x, 1, 0) && is(power(r, 720), 0, P - 1)) return;
    }
}

static uint32_t big(const unsigned char *b) { return (uint32_t)b[0] << 24 | b[1] << 16 | b[2] << 8 | b[3]; }

static uint32_t line[8192], scratch[16384];
static value X[MAX], Z[MAX];

static uint32_t count_of(uint32_t kind, uint32_t n)
{
    uint32_t a = n / 2;
    switch (kind) {
    case 0: return 2 * n;
    case 4: return 2 * (a + 1);
    case 5: return 2 * (a - 1);
    default: return n;
    }
}

static int refusal(uint32_t modulus, uint32_t kind, uint32_t direction, uint32_t n, const unsigned char *f, int count, uint32_t length, uint32_t lent)
{
    if (modulus != 1 && modulus != 2) return 26;
    if (kind > 5) return 1;
    if (direction > 1) return 2;
    if (n == 0 || n % 2 || 2880 % n) return 3;
    for (int j = 0; j < count; j++) if (f[j] < 2 || f[j] > 5) return 4;
    uint64_t product = 1;
    for (int j = 0; j < count; j++) product *= f[j];
    if (product != n / 2) return 5;
    if (length != count_of(kind, n)) return 6;
    if (lent < 11520) return 13;
    for (uint32_t j = 0; j < length; j++) if (line[j] >= P) return 7;
    return 0;
}

static value pair(uint32_t j) { value z = { line[2 * j], line[2 * j + 1] }; return z; }
static void put(uint32_t j, value z) { line[2 * j] = z.re; line[2 * j + 1] = z.im; }

/* the whole line from what is packed before the transform */
static void unfold_before(uint32_t kind, uint32_t n)
{
    uint32_t a = n / 2;
    for (uint32_t t = 0; t < n; t++) {
        uint32_t u = (n - t) % n;
        int upper = t > a;
        value v = { 0, 0 };
        switch (kind) {
        case 0: v = pair(t); break;
        case 1:
            if (t == 0) v.re = line[0]; else if (t == a) v.re = line[1];
            else v = upper ? conj_of(pair(u)) : pair(t);
            break;
        case 2:
            if (t == 0) v.im = line[0]; else if (t == a) v.im = line[1];
            else v = upper ? neg_of(conj_of(pair(u))) : pair(t);
            break;
        case 3:
            if (t == 0) v.re = line[0];
            else if (t == a) { if (a % 2) v.im = line[1]; else v.re = line[1]; }
            else if (!upper) v = pair(t);
            else { v = conj_of(pair(u)); if (u % 2) v = neg_of(v); }
            break;
        case 4: v = upper ? pair(u) : pair(t); break;
        case 5: if (t != 0 && t != a) v = upper ? neg_of(pair(u - 1)) : pair(t - 1); break;
        }
        X[t] = v;
    }
}

static void pack_before(uint32_t kind, uint32_t n)
{
    uint32_t a = n / 2;
    switch (kind) {
    case 0: for (uint32_t t = 0; t < n; t++) put(t, Z[t]); return;
    case 1: line[0] = Z[0].re; line[1] = Z[a].re; break;
    case 2: line[0] = Z[0].im; line[1] = Z[a].im; break;
    case 3: line[0] = Z[0].re; line[1] = a % 2 ? Z[a].im : Z[a].re; break;
    case 4: for (uint32_t t = 0; t <= a; t++) put(t, Z[t]); return;
    case 5: for (uint32_t t = 1; t < a; t++) put(t - 1, Z[t]); return;
    }
    for (uint32_t t = 1; t < a; t++) put(t, Z[t]);
}

static void unfold_after(uint32_t kind, uint32_t n)
{
    uint32_t a = n / 2;
    for (uint32_t s = 0; s < n; s++) {
        value v = { 0, 0 };
        switch (kind) {
        case 0: v = pair(s); break;
        case 1: v.re = line[s]; break;
        case 2: v.im = line[s]; break;
        case 3: v = s < a ? pair(s) : conj_of(pair(s - a)); break;
        case 4: v = s <= a ? pair(s) : pair(n - s); break;
        case 5: if (s != 0 && s != a) v = s < a ? pair(s - 1) : neg_of(pair(n - s - 1)); break;
        }
        X[s] = v;
    }
}

static void pack_after(uint32_t kind, uint32_t n)
{
    uint32_t a = n / 2;
    switch (kind) {
    case 0: for (uint32_t s = 0; s < n; s++) put(s, Z[s]); return;
    case 1: for (uint32_t s = 0; s < n; s++) line[s] = Z[s].re; return;
    case 2: for (uint32_t s = 0; s < n; s++) line[s] = Z[s].im; return;
    case 3: for (uint32_t s = 0; s < a; s++) put(s, Z[s]); return;
    case 4: for (uint32_t s = 0; s <= a; s++) put(s, Z[s]); return;
    case 5: for (uint32_t s = 1; s < a; s++) put(s - 1, Z[s]); return;
    }
}

/* Z(s) = sum over t of X(t) e(ts/N), or with e(-ts/N) divided by N */
static void transform(uint32_t n, int inverted)
{
    uint32_t step = 2880 / n;
    int64_t part = inverse(n);
    for (uint32_t s = 0; s < n; s++) {
        uint64_t re = 0, im = 0;
        uint32_t k = 0, by = s * step;
        if (inverted && by) by = 2880 - by;
        for (uint32_t t = 0; t < n; t++) {
            value w = root_power[k];
            re += (uint64_t)(X[t].re * w.re) + (uint64_t)((P - X[t].im) * w.im);
            im += (uint64_t)(X[t].re * w.im) + (uint64_t)(X[t].im * w.re);
            k += by;
            if (k >= 2880) k -= 2880;
        }
        value z = { re % P, im % P };
        if (inverted) { z.re = z.re * part % P; z.im = z.im * part % P; }
        Z[s] = z;
    }
}

static uint64_t checksum(const uint32_t *v, uint32_t n)
{
    uint64_t h = 7;
    for (uint32_t j = 0; j < n; j++) h = (h * 31 + v[j] + 1) % 2147483647;
    return h;
}

int main(void)
{
    unsigned char c[52];
    for (int second = 0; second < 2; second++) { choose(second); find_root(); }
    while (fread(c, 1, 52, stdin) == 52) {
        uint32_t modulus = big(c), kind = big(c + 4), direction = big(c + 8), n = big(c + 12);
        int count = c[16];
        const unsigned char *f = c + 17;
        uint32_t length = big(c + 32), state = big(c + 36), place = big(c + 40), spoilt = big(c + 44), lent = big(c + 48);
        choose(modulus != 1);
        for (uint32_t j = 0; j < length; j++) {
            state = ((uint64_t)state * 1103515245 + 12345) % 2147483648u;
            line[j] = state / 8 % P;
        }
        if (place < length) line[place] = spoilt;
        for (uint32_t j = 0; j < lent; j++) scratch[j] = 7;
        int number = refusal(modulus, kind, direction, n, f, count, length, lent);
        if (number == 0) {
            if (direction == 0) { unfold_before(kind, n); transform(n, 0); pack_after(kind, n); }
            else { unfold_after(kind, n); transform(n, 1); pack_before(kind, n); }
            memset(scratch, 0, 11520 * sizeof *scratch);
        }
        printf("%d %llu %llu\n", number, (unsigned long long)checksum(line, length), (unsigned long long)checksum(scratch, lent));
    }
    return 0;
}
