/* Product, commutator and anticommutator, with their work. */
#include "test.h"

static struct lent shown[2], work, out;
static uint8_t written[ROOM];
static struct record a, b;
static struct terms s, t;
static const uint64_t full = UINT64_MAX;

static const struct {
    product_of *call;
    int other_order;
} products[] = {
    [MUL] = {fermion_mul, 0}, [COMMUTATOR] = {fermion_commutator, -1}, [ANTICOMMUTATOR] = {fermion_anticommutator, 1}};

static struct answer judge_product(enum face f, const struct record *x, const struct record *y, size_t rows,
                                   size_t room)
{
    struct answer right = plain_product(bytes_of(x), bytes_of(y), products[f].other_order, rows, room, written);
    const uint8_t *at[2];
    show_two(shown, x, y, at);
    uint8_t *with = lend(&work, rows), *to = lend(&out, room);
    must_hold(&work, written, 0);
    must_hold(&out, written, right.n[3]);
    products[f].call(at[0], x->len, at[1], y->len, with, rows, to, room, lend_answer());
    judge(f, &right, hold_two(shown) && holds(&work) && holds(&out));
    return right;
}

static void demand(enum face f, const struct record *x, const struct record *y, size_t rows, size_t room,
                   uint64_t number)
{
    struct answer right = judge_product(f, x, y, rows, room);
    require(f, &right, number, 0, 0);
}

static void demand_all(const struct record *x, const struct record *y, size_t rows, size_t room, uint64_t number)
{
    for (enum face f = MUL; f <= ANTICOMMUTATOR; f++)
        demand(f, x, y, rows, room, number);
}

/* lengths that are right, a byte or a row short, and longer; ample work where the result itself is refused */
static void judge_near(enum face f, const struct record *x, const struct record *y)
{
    struct answer needed = plain_product(bytes_of(x), bytes_of(y), products[f].other_order, MOST, ROOM, written);
    size_t rows = needed.n[0] > 8 ? MOST : near_length(ROW * needed.n[4]), room = near_length(needed.n[3]);
    judge_product(f, x, y, rows, room);
}

/* a boundary record as first and as second of two, before anything of the product */
static void on_boundary(const struct record *r, uint64_t number, uint64_t place)
{
    static struct record none;
    unsigned m = number ? 9 : r->bytes[4];
    write_none(&none, m);
    for (enum face f = MUL; f <= ANTICOMMUTATOR; f++) {
        struct answer right = judge_product(f, r, &none, 0, ROOM);
        require(f, &right, number, number ? 1 : 0, place);
        right = judge_product(f, &none, r, 100, ROOM);
        require(f, &right, number, number ? 2 : 0, place);
    }
    write_none(&none, m % 64 + 1);
    for (enum face f = MUL; f <= ANTICOMMUTATOR; f++) {
        struct answer right = judge_product(f, r, &none, 100, 0);
        require(f, &right, number ? number : 6, number ? 1 : 0, place);
        right = judge_product(f, &none, r, 0, 100);
        require(f, &right, number ? number : 6, number ? 2 : 0, place);
    }
}

/* how many parts the plain side makes at most, those that come to nothing included */
static wide parts(const struct terms *x, const struct terms *y)
{
    wide sum = 0;
    for (size_t i = 0; i < x->n; i++)
        for (size_t j = 0; j < y->n; j++)
            sum += (wide)1 << size(x->at[i].ann & y->at[j].cre & ~x->at[i].cre);
    return sum;
}

/* coefficients that weigh about 2^30, or exactly, so that two such operators are at the ends of 8 and 9 */
static void load(struct terms *x)
{
    wide left = (wide)1 << 30, factor = x->n > 0 ? left / weight(x) : 0;
    if (factor == 0)
        return;
    for (size_t i = 0; i < x->n; i++)
        x->at[i].c *= factor;
    left -= weight(x);
    if (one_in(2))
        x->at[0].c += x->at[0].c < 0 ? -left : left;
}

/* two operators that are not too large for the plain side; the second often shares terms or has the first's adjoint */
static void draw_pair(void)
{
    do {
        draw_terms(&s, draw_modes(), 6);
        uint64_t kind = below(4);
        t.n = 0;
        if (kind == 0)
            draw_relative(&t, &s);
        else
            draw_terms(&t, s.m, 6);
        for (size_t i = 0; kind == 1 && i < s.n; i++)
            adjoin(&t, &s.at[i]);
        join(&t);
    } while (parts(&s, &t) + parts(&t, &s) > 400);
}

static void check_drawn(void)
{
    for (long i = 0; i < CASES; i++) {
        draw_pair();
        if (one_in(8)) {
            load(&s);
            load(&t);
        }
        write_record(&a, &s);
        write_record(&b, &t);
        if (one_in(12))
            damage(&a, &s);
        if (one_in(12))
            damage(&b, &t);
        bool same = one_in(20) && parts(&s, &s) < 400;
        for (enum face f = MUL; f <= ANTICOMMUTATOR; f++)
            judge_near(f, &a, same ? &a : &b);
    }
}

/* one term, on 64 modes */
static void one_term(struct record *to, uint64_t cre, uint64_t ann, int64_t c)
{
    t.m = 64;
    t.n = 0;
    put(&t, ann, cre, c);
    write_record(to, &t);
}

/* case 14: work and output exactly right, a byte short, and 7 before 11 */
static void check_lengths(void)
{
    one_term(&a, 1, 2, 1);
    one_term(&b, 2, 1, 1);
    for (enum face f = MUL; f <= ANTICOMMUTATOR; f++) {
        size_t rows = f == MUL ? 48 : 96, len = f == ANTICOMMUTATOR ? 104 : 80;
        demand(f, &a, &b, rows, len, 0);
        demand(f, &a, &b, rows + 1, len + 1, 0);
        demand(f, &a, &b, rows - 1, len, 7);
        demand(f, &a, &b, rows, len - 1, 11);
        demand(f, &a, &b, rows - 1, len - 1, 7);
        demand(f, &a, &b, 0, 0, 7);
    }
}

/* 8: weights that multiply to exactly 2^60 and above, also past 64 and 63 bits; 8 before 7 */
static void check_weights(void)
{
    const int64_t top = INT64_C(1) << 60, third = top / 3;
    const struct {
        int64_t x, y;
        uint64_t number;
    } pairs[] = {
        {1 << 30, 1 << 30, 0},           {1, top, 0},      {-top, 1, 0},     {3, third, 0},
        {(1 << 30) + 1, 1 << 30, 8},     {2, top, 8},      {top, -2, 8},     {3, third + 1, 8},
        {INT64_C(1) << 32, INT64_C(1) << 32, 8},           {top, 16, 8},     {top, top, 8},
        {INT64_C(1) << 40, -(INT64_C(1) << 40), 8},        {top - 1, top - 1, 8},
    };
    for (size_t i = 0; i < sizeof pairs / sizeof pairs[0]; i++) {
        one_term(&a, 1, 0, pairs[i].x);
        one_term(&b, 2, 0, pairs[i].y);
        demand_all(&a, &b, 0, 0, pairs[i].number ? 8 : 7);
        demand(MUL, &a, &b, 24, 56, pairs[i].number);
        demand(COMMUTATOR, &a, &b, 48, 56, pairs[i].number ? 8 : 9); /* twice {0,1|} */
        demand(ANTICOMMUTATOR, &a, &b, 48, 32, pairs[i].number);     /* nothing, so 32 bytes */
    }
}

/* 9: the weight of the exact result at 2^60 and above, where the weights multiply to less; 9 before 11 */
static void check_result_weights(void)
{
    const int64_t half = INT64_C(1) << 59;
    for (int64_t more = 0; more < 3; more++) {
        one_term(&a, 0, 1, 1);
        one_term(&b, 1, 0, half); /* {|0} times {0|}: two terms */
        if (more > 0)
            put(&t, 0, 2, more);
        write_record(&b, &t);
        demand(MUL, &a, &b, 72, 104, more ? 9 : 0);
        demand(MUL, &a, &b, 72, 79, more ? 9 : 11);
        demand(COMMUTATOR, &a, &b, 120, 104, 9); /* 1 - 2 {0|0} */
        one_term(&a, 2, 0, 1);
        one_term(&b, 1, 0, half + more);
        demand(COMMUTATOR, &a, &b, 48, 56, more ? 9 : 0);
        demand(COMMUTATOR, &a, &b, 48, 55, more ? 9 : 11);
        one_term(&a, 0, 0, -1);
        demand(ANTICOMMUTATOR, &a, &b, 48, 56, more ? 9 : 0);
        demand(ANTICOMMUTATOR, &a, &b, 48, 55, more ? 9 : 11);
    }
}

/* {|0..k-1} and {0..k-1|}, which have 2^k rows, with further creations of one and of two modes beside the second */
static void ladder_pair(unsigned k, unsigned singles, unsigned doubles, int64_t c)
{
    uint64_t word = (UINT64_C(1) << k) - 1;
    one_term(&a, 0, word, c);
    one_term(&b, word, 0, c);
    while (singles-- > 0)
        put(&t, 0, UINT64_C(1) << (20 + singles), c);
    while (doubles-- > 0)
        put(&t, 0, UINT64_C(3) << (40 + 2 * doubles), c);
    join(&t);
    write_record(&b, &t);
}

/* Results of 2,048 and 2,049 terms. Past 11 annihilations, one creation adds to the commutator alone, and two creations
 * to the anticommutator, which has lost {0..10|0..10}. Then 8 before 7, 7 before 10, 10 before 9, 9 before 11. */
static void check_sizes(void)
{
    for (enum face f = MUL; f <= ANTICOMMUTATOR; f++)
        for (unsigned more = 0; more < 2; more++) {
            unsigned singles = f == ANTICOMMUTATOR ? 0 : more, doubles = f == ANTICOMMUTATOR ? 1 + more : 0;
            size_t rows = ROW * (2048 + singles + doubles + (f == MUL ? 0 : 1 + singles + doubles));
            ladder_pair(11, singles, doubles, 3);
            demand(f, &a, &b, rows, ROOM, more ? 10 : 0);
            demand(f, &a, &b, rows, ROOM - 1, more ? 10 : 11);
            demand(f, &a, &b, rows - 1, ROOM, 7);
            ladder_pair(11, singles, doubles, 1 << 28);
            demand(f, &a, &b, rows, 0, more ? 10 : 9);
            demand(f, &a, &b, rows - 1, 0, 7);
            ladder_pair(11, singles, doubles, INT64_C(1) << 31);
            demand(f, &a, &b, rows - 1, 0, 8);
        }
    for (unsigned k = 0; k < 12; k++)
        for (enum face f = MUL; f <= ANTICOMMUTATOR; f++) {
            ladder_pair(k, 1, 1, -2);
            judge_near(f, &a, &b);
            judge_near(f, &b, &a);
        }
}

/* 2,048 terms and the identity: the work exactly right and a byte short */
static void check_full(void)
{
    for (int i = 0; i < 2; i++) {
        draw_many(&s, 64, MAX_TERMS);
        write_record(&a, &s);
        one_term(&b, 0, 0, 3);
        const struct record *x = i ? &a : &b, *y = i ? &b : &a;
        for (enum face f = MUL; f <= ANTICOMMUTATOR; f++) {
            size_t rows = ROW * MAX_TERMS * (f == MUL ? 1 : 2), len = f == COMMUTATOR ? HEADER : ROOM;
            demand(f, x, y, rows, len, 0);
            demand(f, x, y, rows - 1, len, 7);
            demand(f, x, y, rows, len - 1, 11);
        }
    }
}

/* {0|} - {|0} and n terms on the other modes: results of about 2,048 terms, in one order or after cancelling */
static void check_many(void)
{
    for (int i = 0; i < 10; i++)
        for (enum face f = MUL; f <= ANTICOMMUTATOR; f++) {
            draw_many(&s, 63, f == MUL ? MAX_TERMS / 2 + below(2) : MAX_TERMS);
            s.m = 64;
            for (size_t j = 0; j < s.n; j++) {
                s.at[j].ann <<= 1;
                s.at[j].cre <<= 1;
            }
            write_record(&a, &s);
            one_term(&b, 1, 0, 1);
            put(&t, 1, 0, -1);
            write_record(&b, &t);
            struct answer right = judge_product(f, i % 2 ? &a : &b, i % 2 ? &b : &a, MOST, ROOM);
            must(f, right.n[0] == 0 || right.n[0] == 10);
        }
}

/* n words of all modes without 64 - k, each of which has 2^k rows with {0..63|} */
static void huge_factor(unsigned k, size_t n)
{
    t.m = 64;
    t.n = 0;
    while (t.n < n) {
        uint64_t word = full;
        while (size(word) > k)
            word &= ~(UINT64_C(1) << below(64));
        put(&t, word, 0, 1);
        join(&t);
    }
}

/* 2^58 branches and more, also sums that are 0 or small where they are counted in 64 bits: refused with 7 at once */
static void check_huge(void)
{
    for (unsigned k = 58; k <= 64; k++)
        for (size_t n = (size_t)1 << (64 - k), more = 0; more < 2; more++) {
            huge_factor(k, k == 64 ? 1 : n + more);
            write_record(&a, &t);
            one_term(&b, full, 0, 1);
            demand_all(&a, &b, 0, ROOM, 7);
            demand_all(&a, &b, MOST, 0, 7);
            demand(COMMUTATOR, &b, &a, MOST, ROOM, 7);
            demand(ANTICOMMUTATOR, &b, &a, MOST, ROOM, 7);
        }
}

/* empty pairs are not counted, however many modes they have in common */
static void check_empty(void)
{
    one_term(&b, full, 0, 2);
    for (unsigned p = 0; p < 64; p++) {
        uint64_t bit = UINT64_C(1) << p;
        one_term(&a, bit, full & ~bit, 3);
        demand(MUL, &a, &b, 0, HEADER, 0);
        demand(MUL, &a, &b, 0, HEADER - 1, 11);
    }
}

/* an operator commutes with itself, and terms that create what they annihilate commute with each other */
static void check_cancelling(void)
{
    for (int i = 0; i < 200; i++) {
        draw_pair();
        for (size_t j = 0; j < t.n; j++) {
            t.at[j].cre = t.at[j].ann &= 63;
            t.at[j].c = 1 + (wide)below(3);
        }
        join(&t);
        write_record(&a, &t);
        struct answer right = judge_product(COMMUTATOR, &a, &a, MOST, HEADER);
        require(COMMUTATOR, &right, 0, 0, 0);
        for (size_t j = 0; j < t.n; j++)
            t.at[j].c = -t.at[j].c * 2;
        write_record(&b, &t);
        demand(COMMUTATOR, &a, &b, MOST, HEADER, 0);
        judge_near(ANTICOMMUTATOR, &a, &b);
    }
}

void check_products(void)
{
    each_boundary(on_boundary);
    check_drawn();
    check_lengths();
    check_weights();
    check_result_weights();
    check_sizes();
    check_full();
    check_many();
    check_huge();
    check_empty();
    check_cancelling();
}
