/* Double-double in one pass, without range tests and without a bound. */
#include "forms.h"
#include "steps.h"

typedef struct { double high, low; } pair;

static inline pair renormalised(double a, double b)
{
    double s = a + b;
    return (pair){ s, b - (s - a) };
}

static inline pair times(pair a, double x)
{
    double p = a.high * x;
    return renormalised(p, product_error(a.high, x, p) + a.low * x);
}

static inline pair plus(pair a, pair b)
{
    double s = a.high + b.high, t = a.low + b.low;
    pair q = renormalised(s, sum_error(a.high, b.high, s) + t);
    return renormalised(q.high, q.low + sum_error(a.low, b.low, t));
}

size_t c_double_double(const double *zeros, size_t n, size_t rounds, double *answers)
{
    pair row[65];
    for (size_t t = 0; t < rounds; t++) {
        for (size_t j = 0; j <= n; j++)
            row[j] = (pair){ 0.0, 0.0 };
        row[0].high = 1.0;
        for (size_t i = 0; i < n; i++)
            for (size_t j = i + 1; j >= 1; j--)
                row[j] = plus(row[j], times(row[j - 1], zeros[i]));
        for (size_t k = 0; k <= n; k++) {
            answers[2 * k] = k % 2 ? -row[k].high : row[k].high;
            answers[2 * k + 1] = 0.0;
        }
    }
    return n;
}
