/* Two passes by hand: doubles in cells, without range tests. */
#include "forms.h"
#include "steps.h"

static inline cell update(double x, cell old, cell below)
{
    double p = x * below.s, b = product_error(x, below.s, p);
    double s = old.s + p;
    double w = b + sum_error(old.s, p, s);
    cell q = { s, (old.c + w) + x * below.c, (old.e + fabs(w)) + fabs(x) * below.e };
    return q;
}

/* The trial works every order and keeps what it finds only for its last question, whether all is finite. */
static int try_orders(const cell *row, size_t n, double x)
{
    double all = 0.0;
    for (size_t j = n; j >= 1; j--) {
        cell q = update(x, row[j], row[j - 1]);
        all += fabs(q.s) + fabs(q.c) + q.e;
    }
    return all < INFINITY;
}

static void write_orders(cell *row, size_t n, double x)
{
    for (size_t j = n; j >= 1; j--)
        row[j] = update(x, row[j], row[j - 1]);
}

size_t c_two_passes(const double *zeros, size_t n, size_t times, double *answers)
{
    cell row[65];
    for (size_t t = 0; t < times; t++) {
        for (size_t j = 0; j <= n; j++)
            row[j] = (cell){ 0.0, 0.0, 0.0 };
        row[0].s = 1.0;
        for (size_t i = 0; i < n; i++) {
            if (!try_orders(row, i + 1, zeros[i]))
                return 0;
            write_orders(row, i + 1, zeros[i]);
        }
        for (size_t k = 0; k <= n; k++)
            close_order(row[k], n, k, answers + 2 * k);
    }
    return n;
}
