/* The error-free transformations and the closing, as every form in C uses them. */
#include <math.h>
#include <stddef.h>
#include <stdint.h>

#define U 0x1p-53
#define LOW 0x1p-900
#define HIGH 0x1p900

typedef struct { double s, c, e; } cell;

static inline double sum_error(double a, double b, double s)
{
    double z = s - a;
    return (a - (s - z)) + (b - z);
}

#ifdef USE_FMA
static inline double product_error(double a, double b, double p) { return fma(a, b, -p); }
#else
static inline void split(double a, double *x, double *y)
{
    double c = 134217729.0 * a;
    *x = c - (c - a);
    *y = a - *x;
}

static inline double product_error(double a, double b, double p)
{
    double a1, a2, b1, b2;
    split(a, &a1, &a2);
    split(b, &b1, &b2);
    return a2 * b2 - (((p - a1 * b1) - a2 * b1) - a1 * b2);
}
#endif

static inline double lift(double a, double m) { return a / (1.0 - m * U); }

/* The value and the bound of order k, without tests. */
static inline void close_order(cell q, size_t n, size_t k, double *answer)
{
    if (k == 0) {
        answer[0] = 1.0;
        answer[1] = 0.0;
        return;
    }
    double v = q.s + q.c, c = sum_error(q.s, q.c, v);
    double m = 2.0 * (n - 1);
    double e = lift(lift(m * U, m) * q.e, 3.0 * n);
    answer[0] = k % 2 ? -v : v;
    answer[1] = lift(fabs(c) + e, 2.0);
}
