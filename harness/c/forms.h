/* The forms of the same card that the proved bench is compared with. Each works a card of n zeros `times` times, from a new row, and puts
   the value and the bound of the orders 0 to n into answers[2 k] and answers[2 k + 1] (without a bound: 0). A card that is refused answers
   0, any other its count of zeros. The row is tried whole before a cell is written, but where a form says otherwise. */
#include <stddef.h>
#include <stdint.h>

typedef size_t form(const double *zeros, size_t n, size_t times, double *answers);

form c_two_passes, c_two_passes_tested, c_same_form, c_double_double, c_two_passes_tested_fma;
