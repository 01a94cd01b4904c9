/* The plain side against itself: exchanging neighbours and applying ladders to words are two ways to one answer. */
#include "test.h"
#include <stdio.h>

enum { MODES = 3, WORDS = 1 << MODES };

static struct terms made;

/* at every bra and ket, the rows of a product have the element that r and then l give */
static long product_differs(const struct term *l, const struct term *r)
{
    long differ = 0;
    made.n = 0;
    multiply(&made, l, r, 1);
    for (uint64_t ket = 0; ket < WORDS; ket++) {
        struct outcome first = apply(r->cre, r->ann, ket), second = apply(l->cre, l->ann, first.word);
        for (uint64_t bra = 0; bra < WORDS; bra++) {
            bool there = first.applied && second.applied && second.word == bra;
            differ += element(&made, bra, ket) != (there ? first.minus == second.minus ? 1 : -1 : 0);
        }
    }
    return differ + ((wide)made.n != row_count(l, r));
}

/* at every bra and ket, the adjoint has the element at ket and bra */
static long adjoint_differs(const struct term *t)
{
    long differ = 0;
    for (uint64_t ket = 0; ket < WORDS; ket++)
        for (uint64_t bra = 0; bra < WORDS; bra++) {
            made.n = 0;
            adjoin(&made, t);
            wide there = element(&made, bra, ket);
            made.n = 0;
            put(&made, t->ann, t->cre, 1);
            differ += there != element(&made, ket, bra);
        }
    return differ;
}

static void print(int *passed, int *failed, const char *what, long number, long differ)
{
    printf("the plain side: %ld %s, %ld differ\n", number, what, differ);
    ++*(differ ? failed : passed);
}

/* all terms and all pairs of terms on three modes */
void check_self(int *passed, int *failed)
{
    long products = 0, adjoints = 0;
    for (uint64_t left = 0; left < WORDS * WORDS; left++) {
        struct term l = {left / WORDS, left % WORDS, 1};
        adjoints += adjoint_differs(&l);
        for (uint64_t right = 0; right < WORDS * WORDS; right++) {
            struct term r = {right / WORDS, right % WORDS, 1};
            products += product_differs(&l, &r);
        }
    }
    print(passed, failed, "products act as right and then left on every word", WORDS * WORDS * WORDS * WORDS, products);
    print(passed, failed, "adjoints have every element turned over", WORDS * WORDS, adjoints);
}
