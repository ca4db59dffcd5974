/* A decimal card by libmpdec: the same nine operations in two passes and the six of each closing, without the range tests of an addition
   or with them. libmpdec is the one inside Python's module, which keeps its functions' names to itself: decimal_cards.py finds their
   addresses and hands them over. The types are those of mpdecimal.h of libmpdec 2.5. */
#include <stddef.h>
#include <stdint.h>

typedef struct { uint8_t flags; int64_t exp, digits, len, alloc; uint64_t *data; } mpd_t;
typedef struct { int64_t prec, emax, emin; uint32_t traps, status, newtrap; int round, clamp, allcr; } mpd_context_t;

typedef void binary(mpd_t *result, const mpd_t *a, const mpd_t *b, const mpd_context_t *context, uint32_t *status);
typedef int copy(mpd_t *result, const mpd_t *a, uint32_t *status);

typedef struct {
    binary *add, *subtract, *multiply, *divide;
    void (*fma)(mpd_t *, const mpd_t *, const mpd_t *, const mpd_t *, const mpd_context_t *, uint32_t *);
    copy *copy, *copy_abs, *copy_negate;
    int (*cmp)(const mpd_t *, const mpd_t *, uint32_t *);
    int (*iszero)(const mpd_t *);
    void (*set_ssize)(mpd_t *, int64_t, const mpd_context_t *, uint32_t *);
    void (*set_string)(mpd_t *, const char *, const mpd_context_t *, uint32_t *);
    char *(*to_sci)(const mpd_t *, int);
    mpd_t *(*new)(void);
} functions;

typedef struct { mpd_t *s, *c, *e; } cell;

#define HALF_EVEN 6
static const mpd_context_t eight = { 8, 999999, -999999, 0, 0, 0, HALF_EVEN, 0, 1 };
static const mpd_context_t wide = { 150, 999999999999999999, -999999999999999999, 0, 0, 0, HALF_EVEN, 0, 1 };

static functions f;
static uint32_t status;
static cell row[65], next;
static mpd_t *x, *size_of_x, *p, *beta, *sigma, *w, *g, *h, *t, *a, *l, *zero, *one, *u, *high, *below_3n, *below_2;

static int adjusted(const mpd_t *r) { return r->exp + r->digits - 1; }

static int at_most_high(const mpd_t *r)
{
    if (adjusted(r) < 40) return 1;
    f.copy_abs(t, r, &status);
    return f.cmp(t, high, &status) <= 0;
}

static int in_range(const mpd_t *r, const mpd_t *left, const mpd_t *right)
{
    if (f.iszero(r)) return f.iszero(left) || f.iszero(right);
    return adjusted(r) >= -40 && at_most_high(r);
}

/* The cell after x in `next`; 0, or the number of the operation that is refused. */
static inline int update(cell old, cell below, int tested)
{
    f.multiply(p, x, below.s, &eight, &status);
    if (tested && !in_range(p, x, below.s)) return 1;
    f.copy_negate(t, p, &status);
    f.fma(beta, x, below.s, t, &wide, &status);
    f.add(next.s, old.s, p, &eight, &status);
    if (tested && !at_most_high(next.s)) return 2;
    f.add(t, old.s, p, &wide, &status);
    f.subtract(sigma, t, next.s, &wide, &status);
    f.add(w, beta, sigma, &eight, &status);
    if (tested && !at_most_high(w)) return 3;
    f.add(g, old.c, w, &eight, &status);
    if (tested && !at_most_high(g)) return 4;
    f.multiply(h, x, below.c, &eight, &status);
    if (tested && !in_range(h, x, below.c)) return 5;
    f.add(next.c, g, h, &eight, &status);
    if (tested && !at_most_high(next.c)) return 6;
    f.copy_abs(w, w, &status);
    f.add(g, old.e, w, &eight, &status);
    if (tested && !at_most_high(g)) return 7;
    f.multiply(h, size_of_x, below.e, &eight, &status);
    if (tested && !in_range(h, x, below.e)) return 8;
    f.add(next.e, g, h, &eight, &status);
    if (tested && !at_most_high(next.e)) return 9;
    return 0;
}

static inline int add(size_t n, int tested)
{
    f.copy_abs(size_of_x, x, &status);
    for (size_t j = n; j >= 1; j--)
        if (update(row[j], row[j - 1], tested)) return 1;
    for (size_t j = n; j >= 1; j--) {
        update(row[j], row[j - 1], tested);
        cell old = row[j];
        row[j] = next;
        next = old;
    }
    return 0;
}

static void roundoffs(mpd_t *result, size_t m)
{
    f.set_ssize(result, m, &wide, &status);
    f.multiply(result, result, u, &wide, &status);
}

/* 1 - m u, by which a lift by m divides. */
static void divisor(mpd_t *result, size_t m)
{
    roundoffs(result, m);
    f.subtract(result, one, result, &wide, &status);
}

/* γ, the grain of 2(n - 1) lifted by 2(n - 1), in g, and the divisors of the other lifts. */
static void prepare_closing(size_t n)
{
    roundoffs(t, 2 * (n - 1));
    f.add(g, t, zero, &eight, &status);
    divisor(t, 2 * (n - 1));
    f.divide(g, g, t, &eight, &status);
    divisor(below_3n, 3 * n);
    divisor(below_2, 2);
}

/* The value and the bound of order k, in a and l. */
static void close_order(cell q, size_t k)
{
    f.add(a, q.s, q.c, &eight, &status);
    f.add(t, q.s, q.c, &wide, &status);
    f.subtract(p, t, a, &wide, &status);
    f.copy_abs(p, p, &status);
    f.multiply(l, g, q.e, &eight, &status);
    f.divide(l, l, below_3n, &eight, &status);
    f.add(l, p, l, &eight, &status);
    f.divide(l, l, below_2, &eight, &status);
    if (k % 2) f.copy_negate(a, a, &status);
}

static int work(mpd_t **zeros, size_t n, int tested, char **answers)
{
    for (size_t j = 0; j <= n; j++) {
        f.copy(row[j].s, j ? zero : one, &status);
        f.copy(row[j].c, zero, &status);
        f.copy(row[j].e, zero, &status);
    }
    for (size_t i = 0; i < n; i++) {
        x = zeros[i];
        if (tested ? add(i + 1, 1) : add(i + 1, 0)) return 1;
    }
    prepare_closing(n);
    for (size_t k = 1; k <= n; k++) {
        close_order(row[k], k);
        if (answers) {
            answers[2 * k] = f.to_sci(a, 1);
            answers[2 * k + 1] = f.to_sci(l, 1);
        }
    }
    return 0;
}

/* Works the card of these zeros so many times; the texts of the values and bounds of the orders from 1 up stand in answers[2 k] and
   answers[2 k + 1]. Answers 1 where an operation is refused. */
int mpd_cards(const functions *given, const char **texts, size_t n, int tested, size_t times, char **answers)
{
    mpd_t **numbers[] = { &next.s, &next.c, &next.e, &size_of_x, &p, &beta, &sigma, &w, &g, &h, &t, &a, &l, &zero, &one, &u, &high,
                          &below_3n, &below_2 };
    mpd_t *zeros[64];
    if (!f.new) {
        f = *given;
        for (size_t i = 0; i < sizeof numbers / sizeof *numbers; i++) *numbers[i] = f.new();
        for (size_t j = 0; j < 65; j++) row[j] = (cell){ f.new(), f.new(), f.new() };
        f.set_string(zero, "0", &wide, &status);
        f.set_string(one, "1", &wide, &status);
        f.set_string(u, "5E-8", &wide, &status);
        f.set_string(high, "1E40", &wide, &status);
    }
    for (size_t i = 0; i < n; i++) {
        zeros[i] = f.new();
        f.set_string(zeros[i], texts[i], &wide, &status);
    }
    for (size_t time = 0; time < times; time++)
        if (work(zeros, n, tested, time ? NULL : answers)) return 1;
    return 0;
}
