/* Two passes by hand: doubles in cells, every operation of an addition and of a closing with its range test. */
#include "forms.h"
#include "steps.h"

#ifdef USE_FMA
#define c_two_passes_tested c_two_passes_tested_fma
#endif

static inline int sum_in_range(double r) { return fabs(r) <= HIGH; }

static inline int product_in_range(double r, double a, double b)
{
    return (fabs(r) >= LOW && fabs(r) <= HIGH) || a == 0.0 || b == 0.0;
}

/* 0, or the number of the operation that is refused. */
static inline int update(double x, cell old, cell below, cell *q)
{
    double p = x * below.s;
    if (!product_in_range(p, x, below.s)) return 1;
    double b = product_error(x, below.s, p);
    double s = old.s + p;
    if (!sum_in_range(s)) return 2;
    double w = b + sum_error(old.s, p, s);
    if (!sum_in_range(w)) return 3;
    double g = old.c + w;
    if (!sum_in_range(g)) return 4;
    double h = x * below.c;
    if (!product_in_range(h, x, below.c)) return 5;
    double c = g + h;
    if (!sum_in_range(c)) return 6;
    double f = old.e + fabs(w);
    if (!sum_in_range(f)) return 7;
    double t = fabs(x) * below.e;
    if (!product_in_range(t, x, below.e)) return 8;
    double e = f + t;
    if (!sum_in_range(e)) return 9;
    *q = (cell){ s, c, e };
    return 0;
}

static int add(cell *row, size_t n, double x)
{
    cell q;
    if (!product_in_range(x, x, 1.0))
        return 4;
    for (size_t j = n; j >= 1; j--) {
        int refused = update(x, row[j], row[j - 1], &q);
        if (refused)
            return refused;
    }
    for (size_t j = n; j >= 1; j--)
        update(x, row[j], row[j - 1], &row[j]);
    return 0;
}

static int close_tested(cell q, size_t n, size_t k, double *answer)
{
    if (k == 0) {
        answer[0] = 1.0;
        answer[1] = 0.0;
        return 0;
    }
    double v = q.s + q.c, c = sum_error(q.s, q.c, v);
    if (!sum_in_range(v)) return 1;
    double m = 2.0 * (n - 1);
    double g = lift(m * U, m);
    if (!product_in_range(g, m, 1.0)) return 2;
    double e = g * q.e;
    if (!product_in_range(e, g, q.e)) return 3;
    double l = lift(e, 3.0 * n);
    if (!product_in_range(l, e, 1.0)) return 4;
    double s = fabs(c) + l;
    if (!sum_in_range(s)) return 5;
    double b = lift(s, 2.0);
    if (!product_in_range(b, s, 1.0)) return 6;
    answer[0] = k % 2 ? -v : v;
    answer[1] = b;
    return 0;
}

size_t c_two_passes_tested(const double *zeros, size_t n, size_t times, double *answers)
{
    cell row[65];
    for (size_t t = 0; t < times; t++) {
        for (size_t j = 0; j <= n; j++)
            row[j] = (cell){ 0.0, 0.0, 0.0 };
        row[0].s = 1.0;
        for (size_t i = 0; i < n; i++)
            if (add(row, i + 1, zeros[i]))
                return 0;
        for (size_t k = 0; k <= n; k++)
            if (close_tested(row[k], n, k, answers + 2 * k))
                return 0;
    }
    return n;
}
