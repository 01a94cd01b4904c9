/* The C face from C: every function of fermion.h on drawn and on boundary inputs against the plain implementation, and
 * on examples that are worked out by hand. */
#include "test.h"
#include <stdio.h>

int main(void)
{
    int passed = 0, failed = 0;
    check_self(&passed, &failed);
    check_examples(&passed, &failed);
    check_shelf(&passed, &failed);
    check_single();
    check_reads();
    check_sums();
    check_products();
    check_elements();
    check_floats();
    report(&passed, &failed);
    printf("%d passed, %d failed\n", passed, failed);
    return failed != 0;
}
