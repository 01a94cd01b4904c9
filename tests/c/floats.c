/* Float elements, real and complex; values are compared by their bits. */
#include "test.h"
#include <float.h>
#include <math.h>
#include <string.h>

enum { LIST = MAX_TERMS + 2 };

static uint64_t cre[LIST], ann[LIST];
static double part[2][LIST];
static struct floats f = {.cre = cre, .ann = ann, .part = {part[0], part[1]}};

static enum face which(void)
{
    return f.parts == 1 ? MAT_ELEM_REAL : MAT_ELEM_COMPLEX;
}

static struct answer judge_floats(void)
{
    static struct lent shown[4], out;
    double value[2];
    struct answer right = plain_mat_elem(&f, value);
    const uint64_t *c = (const uint64_t *)show_aligned(&shown[0], cre, 8 * f.cre_len);
    const uint64_t *a = (const uint64_t *)show_aligned(&shown[1], ann, 8 * f.ann_len);
    const double *re = (const double *)show_aligned(&shown[2], part[0], 8 * f.part_len[0]);
    const double *im = (const double *)show_aligned(&shown[3], part[1], 8 * f.part_len[1]);
    double *to = (double *)lend_aligned(&out, sizeof value);
    must_hold(&out, value, sizeof value);
    if (f.parts == 1)
        fermion_mat_elem_real(f.m, c, f.cre_len, a, f.ann_len, re, f.part_len[0], f.bra, f.ket, to, lend_answer());
    else
        fermion_mat_elem_complex(f.m, c, f.cre_len, a, f.ann_len, re, f.part_len[0], im, f.part_len[1], f.bra, f.ket,
                                 to, lend_answer());
    bool kept = holds(&shown[0]) && holds(&shown[1]) && holds(&shown[2]) && holds(&shown[3]);
    judge(which(), &right, kept && holds(&out));
    return right;
}

static void demand(uint64_t number, uint64_t operand, uint64_t place)
{
    struct answer right = judge_floats();
    require(which(), &right, number, operand, place);
}

static void set_length(size_t n)
{
    f.cre_len = f.ann_len = f.part_len[0] = f.part_len[1] = n;
}

static double of_bits(uint64_t bits)
{
    double d;
    memcpy(&d, &bits, 8);
    return d;
}

/* infinities and NaNs of both signs, quiet and signalling */
static void put_not_finite(double *to)
{
    static const uint64_t bits[] = {0x7FF0000000000000, 0xFFF0000000000000, 0x7FF8000000000000, 0xFFF8000000000001,
                                    0x7FF0000000000001, 0xFFFFFFFFFFFFFFFF, 0x7FF7FFFFFFFFFFFF, 0xFFF4000000000000};
    memcpy(to, &bits[below(8)], 8);
}

/* any bits, numbers of one size whose sums round, zeros of both signs, subnormals, and the largest */
static double draw_finite(void)
{
    static const double some[] = {0.0, -0.0, DBL_TRUE_MIN, -DBL_TRUE_MIN, DBL_MIN, 0.1,
                                  1.0, -0.1, 1e16,         -1e16,         DBL_MAX, -DBL_MAX};
    uint64_t kind = below(4), bits = next();
    if (kind == 0)
        return some[below(12)];
    if (kind == 1)
        return (double)(int64_t)bits / 3.0;
    if (kind == 2)
        return of_bits(bits & UINT64_C(0x801FFFFFFFFFFFFF)); /* subnormals and the smallest normal numbers */
    double d = of_bits(bits);
    return isfinite(d) ? d : 0.5;
}

/* up to 8 terms, sometimes up to 59; most of them take the ket to the bra, some repeat an earlier term */
static void draw_list(void)
{
    unsigned m = draw_modes();
    size_t n = one_in(40) ? below(60) : below(9);
    f.m = m;
    f.ket = draw_word(m);
    f.bra = draw_word(m);
    set_length(n);
    for (size_t i = 0; i < n; i++) {
        uint64_t both = draw_word(m) & f.ket & f.bra; /* annihilated and created again */
        cre[i] = one_in(6) ? draw_word(m) : (f.bra & ~f.ket) | both;
        ann[i] = one_in(6) ? draw_word(m) : (f.ket & ~f.bra) | both;
        if (i > 0 && one_in(4)) {
            size_t j = below(i);
            cre[i] = cre[j];
            ann[i] = ann[j];
        }
        for (int k = 0; k < 2; k++)
            part[k][i] = one_in(3) && i > 0 ? -part[k][below(i)] : draw_finite();
    }
}

/* one fault, or two */
static void spoil(void)
{
    static const uint64_t counts[] = {0, 65, 256, UINT64_C(1) << 32, UINT64_MAX};
    uint64_t kind = below(6);
    size_t *lengths[] = {&f.cre_len, &f.ann_len, &f.part_len[0], &f.part_len[1]}, *length = lengths[below(4)];
    size_t n = f.cre_len, at = n > 0 ? below(n) : 0;
    uint64_t *word = one_in(2) ? &cre[at] : &ann[at];
    if (kind == 0)
        f.m = counts[below(5)];
    if (kind == 1)
        *length += one_in(2) || n == 0 ? 1 : SIZE_MAX;
    if (kind == 2 && n > 0)
        *word = draw_word_off((unsigned)f.m);
    if (kind == 3 && n > 0)
        put_not_finite(&part[below(f.parts)][at]);
    if (kind == 4)
        f.bra = draw_word_off((unsigned)f.m);
    if (kind == 5)
        f.ket = draw_word_off((unsigned)f.m);
    if (kind > 1 && one_in(4))
        spoil();
}

static void check_drawn(void)
{
    for (long i = 0; i < CASES; i++) {
        draw_list();
        if (one_in(3))
            spoil();
        judge_floats();
    }
}

/* every term keeps every ket */
static void identities(size_t n, double re, double im)
{
    f.m = 2;
    f.bra = f.ket = 1;
    set_length(n);
    for (size_t i = 0; i < n; i++) {
        cre[i] = ann[i] = 0;
        part[0][i] = re;
        part[1][i] = im;
    }
}

/* m of 0, 1, 64, 65; 2,048 and 2,049 terms; each list a term longer and shorter */
static void check_lengths(void)
{
    static const uint64_t counts[][2] = {{0, 1}, {1, 0}, {64, 0}, {65, 1}, {UINT64_C(1) << 32 | 2, 1}, {UINT64_MAX, 1}};
    for (int i = 0; i < 6; i++) {
        identities(3, 0.1, 0.2);
        f.m = counts[i][0];
        demand(counts[i][1], counts[i][1], 0);
    }
    for (size_t n = 0; n <= MAX_TERMS + 1; n += n == 0 ? 2047 : 1) {
        identities(n, 0.1, -0.3);
        demand(n > MAX_TERMS, n > MAX_TERMS, 0);
    }
    size_t *lengths[] = {&f.cre_len, &f.ann_len, &f.part_len[0], &f.part_len[1]};
    for (size_t k = 0; k < 2 + f.parts; k++)
        for (size_t step = 0; step < 3; step++) {
            identities(3, 0.1, 0.2);
            *lengths[k] = step == 0 ? 2 : step == 1 ? 4 : 0;
            demand(1, 1, 0);
        }
}

/* 2 before 13 at a term, the earlier term first, all terms before the bra, the bra before the ket */
static void check_order(void)
{
    identities(4, 1.0, 1.0);
    f.bra = f.ket = 4;
    demand(12, 3, 0);
    f.bra = 3;
    demand(12, 4, 0);
    f.bra = 4;
    for (size_t k = 0; k < f.parts; k++)
        for (size_t i = 4; i-- > 0;) { /* from the last to the first, so that later faults stay */
            put_not_finite(&part[k][i]);
            demand(13, 1, i);
            cre[i] = 4;
            demand(2, 1, i);
            cre[i] = 0;
            ann[i] = UINT64_C(1) << 63;
            demand(2, 1, i);
            ann[i] = 0;
            if (i == 0)
                identities(4, 1.0, 1.0);
        }
}

/* a running sum made not finite at each place and in each part, also where a later term would bring it back */
static void check_overflow(void)
{
    /* half of the last place of the largest number, which rounds up when added, and the next below, which does not */
    const double half = of_bits(0x7C90000000000000), less = of_bits(0x7C8FFFFFFFFFFFFF);
    for (size_t k = 0; k < f.parts; k++)
        for (size_t i = 1; i < 6; i++) {
            identities(6, 0.0, 0.0);
            part[k][0] = DBL_MAX;
            part[k][i] = half;
            demand(13, 1, i);
            part[k][i] = less;
            demand(0, 0, 0);
            part[k][0] = -DBL_MAX;
            part[k][i] = -DBL_MAX;
            if (i < 5)
                part[k][5] = DBL_MAX;
            demand(13, 1, i);
            cre[i] = 2; /* the term no longer joins */
            demand(0, 0, 0);
        }
}

/* one joining term: its coefficient exactly, with the sign; a zero comes out as plus zero */
static void check_one_term(void)
{
    for (int i = 0; i < 400; i++)
        for (int minus = 0; minus < 2; minus++) {
            identities(3, DBL_MAX, -DBL_MAX);
            cre[0] = cre[2] = 2;
            cre[1] = 0;
            ann[1] = 3; /* {|0,1} takes 3 to 0 with a minus */
            f.ket = 3;
            f.bra = 0;
            if (!minus)
                ann[1] = 0, f.bra = 3, f.ket = 3;
            part[0][1] = i % 4 ? draw_finite() : -0.0;
            part[1][1] = i % 3 ? draw_finite() : 0.0;
            demand(0, 0, 0);
        }
}

void check_floats(void)
{
    for (f.parts = 1; f.parts <= 2; f.parts++) {
        check_drawn();
        check_lengths();
        check_order();
        check_overflow();
        check_one_term();
    }
}
