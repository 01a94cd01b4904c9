/* What each call must answer, and what it must leave in the output. */
#include "plain.h"
#include <math.h>
#include <stdio.h>
#include <stdlib.h>

static struct terms first, second, result; /* too large for the stack */

static struct answer values(uint64_t x, uint64_t y, uint64_t z)
{
    return (struct answer){{0, 0, 0, 0, 0, x, y, z}};
}

/* 1 and the lowest annihilated mode missing from the ket; if none is missing, 2 and the lowest created mode that is still
 * occupied once the annihilated ones are removed */
static struct answer blocked(uint64_t cre, uint64_t ann, uint64_t ket)
{
    for (unsigned p = 0; p < 64; p++)
        if (occupied(ann, p) && !occupied(ket, p))
            return values(0, 1, p);
    for (unsigned p = 0; p < 64; p++)
        if (occupied(cre, p) && occupied(ket, p) && !occupied(ann, p))
            return values(0, 2, p);
    fprintf(stderr, "the plain side: a term that gives nothing, and no mode that blocks it\n");
    abort();
}

struct answer plain_apply(uint64_t cre, uint64_t ann, uint64_t ket)
{
    struct outcome o = apply(cre, ann, ket);
    return o.applied ? values(1, o.word, o.minus) : blocked(cre, ann, ket);
}

/* the lowest mode in which two rows differ is the most significant choice, and low rank comes first */
static int by_choices(const void *x, const void *y)
{
    uint64_t differ = ((const struct term *)x)->cre ^ ((const struct term *)y)->cre;
    for (unsigned p = 0; p < 64; p++)
        if (occupied(differ, p))
            return occupied(((const struct term *)x)->cre, p) ? 1 : -1;
    return 0;
}

/* The count of the specification beside the rows that the ladders gave: they differ only if this file is wrong. */
static void check_count(wide count)
{
    if (count != (wide)result.n) {
        fprintf(stderr, "the plain side: the rows are not as many as the specification counts\n");
        abort();
    }
}

struct answer plain_mul_cmpnts(const struct term *l, const struct term *r, size_t room, uint8_t *out)
{
    wide count = row_count(l, r);
    if (ROW * count > (wide)room)
        return refused(7, 0, 0);
    result.n = 0;
    if (count > 0) /* an empty product can have very many parts that all come to nothing */
        multiply(&result, l, r, 1);
    check_count(count);
    qsort(result.at, result.n, sizeof result.at[0], by_choices);
    for (size_t i = 0; i < result.n; i++) {
        write_u64(out + ROW * i, result.at[i].ann);
        write_u64(out + ROW * i + 8, result.at[i].cre);
        write_u64(out + ROW * i + 16, (uint64_t)result.at[i].c);
    }
    return (struct answer){{0, 0, 0, ROW * result.n, result.n}};
}

struct answer plain_check(struct bytes a)
{
    struct answer no;
    return accepted(&no, a, 1, &first) ? values(first.m, first.n, (uint64_t)weight(&first)) : no;
}

/* the first record fully, the second likewise, then 6 */
static bool both_accepted(struct answer *no, struct bytes a, struct bytes b)
{
    if (!accepted(no, a, 1, &first) || !accepted(no, b, 2, &second))
        return false;
    *no = refused(6, 0, 0);
    return first.m == second.m;
}

/* the joined result written, or 10, 9, 11 */
static struct answer delivered(size_t room, uint8_t *out, uint64_t branches)
{
    result.m = first.m;
    join(&result);
    if (result.n > MAX_TERMS)
        return refused(10, 0, 0);
    if (weight(&result) > MAX_WEIGHT)
        return refused(9, 0, 0);
    if (HEADER + ROW * result.n > room)
        return refused(11, 0, 0);
    return (struct answer){{0, 0, 0, encode(out, &result), branches}};
}

struct answer plain_sum(struct bytes a, struct bytes b, int sign, size_t room, uint8_t *out)
{
    struct answer no;
    if (!both_accepted(&no, a, b))
        return no;
    result.n = 0;
    for (size_t i = 0; i < first.n; i++)
        put(&result, first.at[i].ann, first.at[i].cre, first.at[i].c);
    for (size_t i = 0; i < second.n; i++)
        put(&result, second.at[i].ann, second.at[i].cre, sign * second.at[i].c);
    return delivered(room, out, 0);
}

static wide all_rows(const struct terms *l, const struct terms *r)
{
    wide count = 0;
    for (size_t i = 0; i < l->n; i++)
        for (size_t j = 0; j < r->n; j++)
            count += row_count(&l->at[i], &r->at[j]);
    return count;
}

static void multiply_all(const struct terms *l, const struct terms *r, int sign)
{
    for (size_t i = 0; i < l->n; i++)
        for (size_t j = 0; j < r->n; j++)
            if (row_count(&l->at[i], &r->at[j]) > 0)
                multiply(&result, &l->at[i], &r->at[j], sign * l->at[i].c * r->at[j].c);
}

/* a b, and where other_order is 1 or -1 also b a with that sign */
struct answer plain_product(struct bytes a, struct bytes b, int other_order, size_t work, size_t room, uint8_t *out)
{
    struct answer no;
    if (!both_accepted(&no, a, b))
        return no;
    if (weight(&first) * weight(&second) > MAX_WEIGHT)
        return refused(8, 0, 0);
    wide branches = all_rows(&first, &second) + (other_order ? all_rows(&second, &first) : 0);
    if (ROW * branches > (wide)work)
        return refused(7, 0, 0);
    result.n = 0;
    multiply_all(&first, &second, 1);
    if (other_order)
        multiply_all(&second, &first, other_order);
    check_count(branches);
    return delivered(room, out, (uint64_t)branches);
}

static void adjoin_all(void)
{
    result.m = first.m;
    result.n = 0;
    for (size_t i = 0; i < first.n; i++)
        adjoin(&result, &first.at[i]);
    join(&result);
}

struct answer plain_adjoint(struct bytes a, size_t room, uint8_t *out)
{
    struct answer no;
    if (!accepted(&no, a, 1, &first))
        return no;
    adjoin_all();
    return delivered(room, out, 0);
}

static bool alike(const struct term *x, const struct term *y)
{
    return x->ann == y->ann && x->cre == y->cre && x->c == y->c;
}

struct answer plain_is_hermitian(struct bytes a)
{
    struct answer no;
    if (!accepted(&no, a, 1, &first))
        return no;
    adjoin_all();
    bool same = first.n == result.n;
    for (size_t i = 0; same && i < first.n; i++)
        same = alike(&first.at[i], &result.at[i]);
    return values(same, 0, 0);
}

struct answer plain_conserves_particle_number(struct bytes a)
{
    struct answer no;
    if (!accepted(&no, a, 1, &first))
        return no;
    bool every = true;
    for (size_t i = 0; i < first.n; i++)
        every = every && size(first.at[i].cre) == size(first.at[i].ann);
    return values(every, 0, 0);
}

struct answer plain_max_n_body(struct bytes a)
{
    struct answer no;
    if (!accepted(&no, a, 1, &first))
        return no;
    uint64_t most = 0;
    for (size_t i = 0; i < first.n; i++) {
        uint64_t cre = size(first.at[i].cre), ann = size(first.at[i].ann), rank = cre > ann ? cre : ann;
        most = rank > most ? rank : most;
    }
    return values(most, 0, 0);
}

struct answer plain_active_modes(struct bytes a)
{
    struct answer no;
    if (!accepted(&no, a, 1, &first))
        return no;
    uint64_t all = 0;
    for (size_t i = 0; i < first.n; i++)
        all |= first.at[i].cre | first.at[i].ann;
    return values(all, 0, 0);
}

struct answer plain_block(struct bytes a, uint64_t ann)
{
    struct answer no;
    uint64_t from = 0, entries = 0;
    if (!accepted(&no, a, 1, &first))
        return values(0, 0, 0);
    for (size_t i = first.n; i-- > 0;)
        if (first.at[i].ann == ann) {
            from = HEADER + 8 * (first.n + i);
            entries++;
        }
    return values(from, 8 * entries, 0);
}

struct answer plain_element(struct bytes a, uint64_t bra, uint64_t ket)
{
    struct answer no;
    if (!accepted(&no, a, 1, &first))
        return no;
    if (outside(bra, first.m))
        return refused(12, 3, 0);
    if (outside(ket, first.m))
        return refused(12, 4, 0);
    return values((uint64_t)element(&first, bra, ket), 0, 0);
}

/* a basis: its length, then 12 in order, then repeats; number 0 where it is right */
static struct answer basis_refusal(const uint64_t *basis, size_t n)
{
    if (n > MAX_BASIS)
        return refused(14, 3, 0);
    for (size_t i = 0; i < n; i++)
        if (outside(basis[i], first.m))
            return refused(12, 3, i);
    for (size_t i = 0; i < n; i++)
        for (size_t j = 0; j < i; j++)
            if (basis[i] == basis[j])
                return refused(14, 3, i);
    return values(0, 0, 0);
}

struct answer plain_matrix(struct bytes a, const uint64_t *basis, size_t n, int64_t matrix[64])
{
    struct answer no;
    for (int i = 0; i < 64; i++)
        matrix[i] = 0;
    if (!accepted(&no, a, 1, &first))
        return no;
    no = basis_refusal(basis, n);
    for (size_t i = 0; no.n[0] == 0 && i < n; i++)
        for (size_t j = 0; j < n; j++)
            matrix[8 * i + j] = (int64_t)element(&first, basis[i], basis[j]);
    return no;
}

/* whether x is named rather than y: fewer annihilations, then lower words */
static bool ahead(const struct term *x, const struct term *y)
{
    unsigned of_x = size(x->ann), of_y = size(y->ann);
    if (of_x != of_y)
        return of_x < of_y;
    return x->ann != y->ann ? x->ann < y->ann : x->cre < y->cre;
}

/* the best of `best` and the terms of x that y does not hold with the same coefficient */
static const struct term *best_of(const struct term *best, const struct terms *x, const struct terms *y)
{
    for (size_t i = 0; i < x->n; i++) {
        const struct term *t = &x->at[i];
        bool held = false;
        for (size_t j = 0; j < y->n && !held; j++)
            held = alike(t, &y->at[j]);
        if (!held && (best == NULL || ahead(t, best)))
            best = t;
    }
    return best;
}

struct answer plain_compare(struct bytes a, struct bytes b)
{
    struct answer no;
    if (!both_accepted(&no, a, b))
        return no;
    const struct term *named = best_of(best_of(NULL, &first, &second), &second, &first);
    return named ? values(0, named->cre, named->ann) : values(1, 0, 0);
}

/* 1; then per term 2, 13; then 12 of the bra and of the ket; number 0 where all is right */
static struct answer list_refusal(const struct floats *f)
{
    bool lengths = f->cre_len == f->ann_len;
    for (size_t k = 0; k < f->parts; k++)
        lengths = lengths && f->part_len[k] == f->cre_len;
    if (f->m < 1 || f->m > 64 || !lengths || f->cre_len > MAX_TERMS)
        return refused(1, 1, 0);
    for (size_t i = 0; i < f->cre_len; i++) {
        if (outside(f->cre[i], f->m) || outside(f->ann[i], f->m))
            return refused(2, 1, i);
        for (size_t k = 0; k < f->parts; k++)
            if (!isfinite(f->part[k][i]))
                return refused(13, 1, i);
    }
    if (outside(f->bra, f->m))
        return refused(12, 3, 0);
    return outside(f->ket, f->m) ? refused(12, 4, 0) : values(0, 0, 0);
}

/* from plus zero, one rounding a part for each term that takes ket to bra; 13 at the first sum that isn't finite */
struct answer plain_mat_elem(const struct floats *f, double value[2])
{
    struct answer no = list_refusal(f);
    value[0] = value[1] = 0.0;
    for (size_t i = 0; no.n[0] == 0 && i < f->cre_len; i++) {
        struct outcome o = apply(f->cre[i], f->ann[i], f->ket);
        if (!o.applied || o.word != f->bra)
            continue;
        for (size_t k = 0; k < f->parts; k++)
            value[k] += o.minus ? -f->part[k][i] : f->part[k][i];
        if (!isfinite(value[0]) || !isfinite(value[1]))
            no = refused(13, 1, i);
    }
    if (no.n[0] != 0)
        value[0] = value[1] = 0.0;
    return no;
}
