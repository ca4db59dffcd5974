/* The product of the roots by Arb, in balls of so many bits, with the midpoints and the radii as doubles. */
#include <arb.h>
#include <arb_poly.h>

size_t c_arb(const double *zeros, size_t n, size_t times, double *answers, long bits)
{
    arb_ptr roots = _arb_vec_init(n);
    arb_poly_t product;
    arb_poly_init(product);
    for (size_t i = 0; i < n; i++)
        arb_set_d(roots + i, zeros[i]);
    for (size_t t = 0; t < times; t++)
        arb_poly_product_roots(product, roots, n, bits);
    for (size_t k = 0; k <= n; k++) {
        arb_srcptr coefficient = product->coeffs + (n - k);
        answers[2 * k] = arf_get_d(arb_midref(coefficient), ARF_RND_NEAR);
        answers[2 * k + 1] = mag_get_d(arb_radref(coefficient));
    }
    arb_poly_clear(product);
    _arb_vec_clear(roots, n);
    return n;
}
