/* The exact element, the projected matrix and the comparison. */
#include "test.h"

static struct lent shown[2], basis_shown, matrix;
static struct record a, b;
static struct terms s, t;

static struct answer judge_element(const struct record *r, uint64_t bra, uint64_t ket)
{
    struct answer right = plain_element(bytes_of(r), bra, ket);
    const uint8_t *at = show(&shown[0], r->bytes, r->len);
    fermion_element(at, r->len, bra, ket, lend_answer());
    judge(ELEMENT, &right, holds(&shown[0]));
    return right;
}

static struct answer judge_matrix(const struct record *r, const uint64_t *basis, size_t n)
{
    int64_t entries[64];
    struct answer right = plain_matrix(bytes_of(r), basis, n, entries);
    const uint8_t *at = show(&shown[0], r->bytes, r->len), *words = show_aligned(&basis_shown, basis, 8 * n);
    uint8_t *to = lend_aligned(&matrix, sizeof entries);
    must_hold(&matrix, entries, sizeof entries);
    fermion_mat_ortho_projected(at, r->len, (const uint64_t *)words, n, (int64_t *)to, lend_answer());
    judge(MATRIX, &right, holds(&shown[0]) && holds(&basis_shown) && holds(&matrix));
    return right;
}

static struct answer judge_compare(const struct record *x, const struct record *y)
{
    struct answer right = plain_compare(bytes_of(x), bytes_of(y));
    const uint8_t *at[2];
    show_two(shown, x, y, at);
    fermion_compare(at[0], x->len, at[1], y->len, lend_answer());
    judge(COMPARE, &right, hold_two(shown));
    return right;
}

/* a boundary record, with a bra, a ket and a basis that are wrong as well where it is refused */
static void on_boundary(const struct record *r, uint64_t number, uint64_t place)
{
    static struct record none;
    const uint64_t wrong[9] = {UINT64_MAX, UINT64_MAX}, none_yet[] = {0};
    struct answer right = judge_element(r, number ? UINT64_MAX : 0, 0);
    require(ELEMENT, &right, number, number ? 1 : 0, place);
    right = judge_matrix(r, number ? wrong : none_yet, number ? 9 : 0);
    require(MATRIX, &right, number, number ? 1 : 0, place);
    unsigned m = number ? 9 : r->bytes[4];
    write_none(&none, m);
    right = judge_compare(r, &none);
    require(COMPARE, &right, number, number ? 1 : 0, place);
    right = judge_compare(&none, r);
    require(COMPARE, &right, number, number ? 2 : 0, place);
    write_none(&none, m % 64 + 1);
    right = judge_compare(r, &none);
    require(COMPARE, &right, number ? number : 6, number ? 1 : 0, place);
    right = judge_compare(&none, r);
    require(COMPARE, &right, number ? number : 6, number ? 2 : 0, place);
}

/* a ket that some term of x acts on, as far as there is one */
static uint64_t draw_ket(const struct terms *x)
{
    uint64_t ket = draw_word(x->m);
    if (x->n == 0 || one_in(6))
        return ket;
    struct term at = x->at[below(x->n)];
    return (ket | at.ann) & ~(at.cre & ~at.ann);
}

/* where some term of x takes the ket, as far as there is one */
static uint64_t draw_bra(const struct terms *x, uint64_t ket)
{
    for (int tries = 0; x->n > 0 && tries < 8; tries++) {
        struct term at = x->at[below(x->n)];
        struct outcome o = apply(at.cre, at.ann, ket);
        if (o.applied)
            return o.word;
    }
    return draw_word(x->m);
}

static void draw_record(void)
{
    draw_any(&s);
    if (one_in(3)) /* terms that all keep a word, so that many join in one element */
        for (size_t i = 0; i < s.n; i++)
            s.at[i].cre = s.at[i].ann;
    join(&s);
    write_record(&a, &s);
    if (one_in(5))
        damage(&a, &s);
}

static void check_drawn_elements(void)
{
    for (long i = 0; i < CASES; i++) {
        draw_record();
        uint64_t ket = draw_ket(&s), bra = draw_bra(&s, ket);
        if (one_in(12))
            bra = draw_word_off(s.m);
        if (one_in(12))
            ket = draw_word_off(s.m);
        judge_element(&a, bra, ket);
    }
}

/* words that the terms lead to from each other, mostly different; 9 and 10 of them now and then */
static size_t draw_basis(uint64_t basis[10])
{
    size_t n = one_in(16) ? 9 + below(2) : below(9);
    for (size_t i = 0; i < n; i++)
        for (int tries = 0, fresh = 0; !fresh && tries < 12; tries++) {
            basis[i] = i > 0 && !one_in(3) ? draw_bra(&s, basis[below(i)]) : draw_ket(&s);
            fresh = 1;
            for (size_t j = 0; j < i; j++)
                fresh = fresh && basis[j] != basis[i];
        }
    size_t i = n > 0 ? below(n) : 0, j = n > 0 ? below(n) : 0;
    if (n > 0 && one_in(12))
        basis[i] = draw_word_off(s.m);
    if (n > 0 && one_in(12))
        basis[j] = basis[0];
    return n;
}

static void check_drawn_matrices(void)
{
    for (long i = 0; i < CASES; i++) {
        uint64_t basis[10];
        draw_record();
        judge_matrix(&a, basis, draw_basis(basis));
    }
}

/* the bra before the ket; a basis by its length, then 12 in order, then repeats at their first place */
static void check_words(void)
{
    const uint64_t beyond = 8, top = UINT64_C(1) << 63;
    const struct {
        uint64_t words[9];
        size_t n;
        uint64_t number, place;
    } bases[] = {
        {{0, 1, 2, 3, 4, 5, 6, 7}, 8, 0, 0},           {{0, 1, 2, 3, 4, 5, 6, 7, 0}, 9, 14, 0},
        {{beyond, 1, 1}, 9, 14, 0},                    {{beyond}, 1, 12, 0},
        {{0, 1, 2, 3, 4, 5, 6, top}, 8, 12, 7},        {{1, 1, beyond, top}, 4, 12, 2},
        {{1, 1}, 2, 14, 1},                            {{1, 2, 3, 2, 1}, 5, 14, 3},
        {{7, 6, 5, 4, 3, 2, 1, 7}, 8, 14, 7},          {{0, 0, 0}, 3, 14, 1},
    };
    s.m = 3;
    s.n = 0;
    for (uint64_t code = 0; code < 64; code++)
        put(&s, code >> 3, code & 7, 1 + (wide)code);
    write_record(&a, &s);
    for (size_t i = 0; i < sizeof bases / sizeof bases[0]; i++) {
        struct answer right = judge_matrix(&a, bases[i].words, bases[i].n);
        require(MATRIX, &right, bases[i].number, bases[i].number ? 3 : 0, bases[i].place);
    }
    for (uint64_t code = 0; code < 256; code++) { /* words of four bits on three modes */
        uint64_t bra = code & 15, ket = code >> 4;
        struct answer right = judge_element(&a, bra, ket);
        require(ELEMENT, &right, bra > 7 || ket > 7 ? 12 : 0, bra > 7 ? 3 : ket > 7 ? 4 : 0, 0);
    }
}

/* weights of 2^60 in one element, of both signs, and 2,048 terms */
static void check_large(void)
{
    const uint64_t basis[8] = {0, UINT64_MAX, 1, 2, 3, UINT64_C(1) << 63, 5, UINT64_MAX >> 1};
    for (int sign = -1; sign <= 1; sign += 2) {
        s.m = 64;
        s.n = 0;
        for (uint64_t i = 0; i < MAX_TERMS; i++) /* all of them keep the full word */
            put(&s, i << 50, i << 50, size(i) % 4 < 2 ? sign * ((wide)1 << 49) : -sign * ((wide)1 << 49));
        write_record(&a, &s);
        struct answer right = judge_element(&a, UINT64_MAX, UINT64_MAX);
        must(ELEMENT, right.n[0] == 0 && (int64_t)right.n[5] == sign * (INT64_C(1) << 60));
        judge_matrix(&a, basis, 8);
    }
    draw_many(&s, 64, MAX_TERMS);
    draw_relative(&t, &s);
    while (t.n > MAX_TERMS)
        t.n--;
    write_record(&a, &s);
    write_record(&b, &t);
    judge_matrix(&a, basis, 8);
    judge_compare(&a, &b);
    judge_compare(&b, &a);
    judge_compare(&a, &a);
}

static void check_drawn_comparisons(void)
{
    for (long i = 0; i < CASES; i++) {
        draw_record();
        if (one_in(4)) {
            copy_terms(&t, &s);
            if (t.n > 0 && one_in(2))
                t.at[below(t.n)].c *= -1;
        } else
            draw_relative(&t, &s);
        if (one_in(40))
            t.m = t.m % 64 + 1; /* a word may then lie outside */
        write_record(&b, &t);
        if (one_in(8))
            damage(&b, &t);
        judge_compare(&a, one_in(20) ? &a : &b);
    }
}

void check_elements(void)
{
    each_boundary(on_boundary);
    check_drawn_elements();
    check_drawn_matrices();
    check_words();
    check_large();
    check_drawn_comparisons();
}
