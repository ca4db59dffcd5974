/* The very form of the proved bench: bits in cells, every read checked, every operation tested by its bits, minus zero written as zero. */
#include "forms.h"
#include "steps.h"
#include <string.h>

#define SIGN 0x8000000000000000u
#define LOW_BITS 0x07b0000000000000u
#define HIGH_BITS 0x7830000000000000u

typedef struct { uint64_t s, c, e; } bits_cell;

static inline uint64_t bits(double x) { uint64_t b; memcpy(&b, &x, 8); return b; }

static inline double of_bits(uint64_t b) { double x; memcpy(&x, &b, 8); return x; }

static inline int sum_in_range(double r) { return bits(r) % SIGN <= HIGH_BITS; }

static inline int product_in_range(double r, double a, double b)
{
    return bits(r) % SIGN - LOW_BITS <= HIGH_BITS - LOW_BITS || a == 0.0 || b == 0.0;
}

static inline double size(double x) { return of_bits(bits(x) % SIGN); }

static inline double read(uint64_t b) { return b % SIGN <= HIGH_BITS ? of_bits(b) : 0.0; }

static inline cell read_cell(bits_cell q) { return (cell){ read(q.s), read(q.c), read(q.e) }; }

static inline uint64_t plain(double x) { return bits(x + 0.0); }

/* 0, or the number of the operation that is refused. */
static inline int update(double x, cell old, cell below, bits_cell *q)
{
    double p = x * below.s;
    if (!product_in_range(p, x, below.s)) return 1;
    double b = product_error(x, below.s, p);
    double s = old.s + p;
    if (!sum_in_range(s)) return 2;
    double w = b + sum_error(old.s, p, s);
    if (!sum_in_range(w)) return 3;
    double g = old.c + w;
    if (!sum_in_range(g)) return 4;
    double h = x * below.c;
    if (!product_in_range(h, x, below.c)) return 5;
    double c = g + h;
    if (!sum_in_range(c)) return 6;
    double f = old.e + size(w);
    if (!sum_in_range(f)) return 7;
    double t = size(x) * below.e;
    if (!product_in_range(t, x, below.e)) return 8;
    double e = f + t;
    if (!sum_in_range(e)) return 9;
    *q = (bits_cell){ plain(s), plain(c), plain(e) };
    return 0;
}

static int add(bits_cell *row, size_t n, uint64_t pattern)
{
    bits_cell q;
    if (pattern % SIGN > HIGH_BITS)
        return 17;
    double x = of_bits(pattern);
    if (!product_in_range(x, x, 1.0))
        return 4;
    cell old = read_cell(row[n]);
    for (size_t j = n; j >= 1; j--) {
        cell below = read_cell(row[j - 1]);
        int refused = update(x, old, below, &q);
        if (refused)
            return refused;
        old = below;
    }
    old = read_cell(row[n]);
    for (size_t j = n; j >= 1; j--) {
        cell below = read_cell(row[j - 1]);
        update(x, old, below, &row[j]);
        old = below;
    }
    return 0;
}

static int close_tested(bits_cell plain_cell, size_t n, size_t k, double *answer)
{
    if (k == 0) {
        answer[0] = 1.0;
        answer[1] = 0.0;
        return 0;
    }
    cell q = read_cell(plain_cell);
    double v = q.s + q.c, c = sum_error(q.s, q.c, v);
    if (!sum_in_range(v)) return 1;
    double m = 2.0 * (n - 1);
    double g = lift(m * U, m);
    if (!product_in_range(g, m, 1.0)) return 2;
    double e = g * q.e;
    if (!product_in_range(e, g, q.e)) return 3;
    double l = lift(e, 3.0 * n);
    if (!product_in_range(l, e, 1.0)) return 4;
    double s = size(c) + l;
    if (!sum_in_range(s)) return 5;
    double b = lift(s, 2.0);
    if (!product_in_range(b, s, 1.0)) return 6;
    answer[0] = (k % 2 ? -v : v) + 0.0;
    answer[1] = b + 0.0;
    return 0;
}

size_t c_same_form(const double *zeros, size_t n, size_t times, double *answers)
{
    bits_cell row[65];
    for (size_t t = 0; t < times; t++) {
        for (size_t j = 0; j <= n; j++)
            row[j] = (bits_cell){ 0, 0, 0 };
        row[0].s = bits(1.0);
        for (size_t i = 0; i < n; i++)
            if (add(row, i + 1, bits(zeros[i])))
                return 0;
        for (size_t k = 0; k <= n; k++)
            if (close_tested(row[k], n, k, answers + 2 * k))
                return 0;
    }
    return n;
}
