/* Sum, difference and adjoint: calls that write a record and need no work. */
#include "test.h"

static struct lent shown[2], out;
static uint8_t written[ROOM];
static struct record a, b;
static struct terms s, t;

static struct answer judge_sum(enum face f, const struct record *x, const struct record *y, size_t room)
{
    sum_of *call = f == ADD ? fermion_add : fermion_sub;
    struct answer right = plain_sum(bytes_of(x), bytes_of(y), f == ADD ? 1 : -1, room, written);
    const uint8_t *at[2];
    show_two(shown, x, y, at);
    uint8_t *to = lend(&out, room);
    must_hold(&out, written, right.n[3]);
    call(at[0], x->len, at[1], y->len, to, room, lend_answer());
    judge(f, &right, hold_two(shown) && holds(&out));
    return right;
}

static void judge_sums(const struct record *x, const struct record *y)
{
    for (enum face f = ADD; f <= SUB; f++) {
        uint64_t len = plain_sum(bytes_of(x), bytes_of(y), f == ADD ? 1 : -1, ROOM, written).n[3];
        judge_sum(f, x, y, near_length(len));
    }
}

static struct answer judge_adjoint(const struct record *x, size_t room)
{
    struct answer right = plain_adjoint(bytes_of(x), room, written);
    const uint8_t *at = show(&shown[0], x->bytes, x->len);
    uint8_t *to = lend(&out, room);
    must_hold(&out, written, right.n[3]);
    fermion_adjoint(at, x->len, to, room, lend_answer());
    judge(ADJOINT, &right, holds(&shown[0]) && holds(&out));
    return right;
}

static void demand_sum(const struct record *x, const struct record *y, size_t room, uint64_t number, uint64_t operand,
                       uint64_t place)
{
    for (enum face f = ADD; f <= SUB; f++) {
        struct answer right = judge_sum(f, x, y, room);
        require(f, &right, number, operand, place);
    }
}

/* a boundary record alone, then as first and as second of two, beside no terms on other modes as well */
static void on_boundary(const struct record *r, uint64_t number, uint64_t place)
{
    static struct record none;
    struct answer right = judge_adjoint(r, ROOM);
    require(ADJOINT, &right, number, number ? 1 : 0, place);
    if (number == 0) {
        right = judge_adjoint(r, r->len);
        require(ADJOINT, &right, 0, 0, 0);
        right = judge_adjoint(r, r->len - 1);
        require(ADJOINT, &right, 11, 0, 0);
    }
    unsigned m = number ? 9 : r->bytes[4];
    write_none(&none, m);
    demand_sum(r, &none, ROOM, number, number ? 1 : 0, place);
    demand_sum(&none, r, ROOM, number, number ? 2 : 0, place);
    if (number)
        demand_sum(r, r, ROOM, number, 1, place);
    write_none(&none, m % 64 + 1);
    demand_sum(r, &none, 0, number ? number : 6, number ? 1 : 0, place);
    demand_sum(&none, r, 0, number ? number : 6, number ? 2 : 0, place);
}

static void check_drawn(void)
{
    for (long i = 0; i < CASES; i++) {
        draw_any(&s);
        draw_relative(&t, &s);
        write_record(&a, &s);
        write_record(&b, &t);
        if (one_in(6))
            damage(&a, &s);
        if (one_in(6))
            damage(&b, &t);
        judge_sums(&a, one_in(20) ? &a : &b);
        judge_adjoint(&a, near_length(plain_adjoint(bytes_of(&a), ROOM, written).n[3]));
    }
}

/* two halves of 2,048 or 2,049 terms, of which `shared` stand in both */
static void split(size_t n, size_t shared, wide c)
{
    static struct terms all;
    draw_many(&all, 64, n);
    s.m = t.m = 64;
    s.n = t.n = 0;
    for (size_t i = 0; i < n; i++) {
        struct term x = all.at[i];
        if (i % 2 == 0 || i < shared)
            put(&s, x.ann, x.cre, x.c * c);
        if (i % 2 == 1 || i < shared)
            put(&t, x.ann, x.cre, x.c * c);
    }
    write_record(&a, &s);
    write_record(&b, &t);
}

/* results of 2,048 and 2,049 terms; 10 before 9, 9 before 11 */
static void check_sizes(void)
{
    const wide heavy = (wide)1 << 49;
    for (int i = 0; i < 4; i++) {
        split(MAX_TERMS, 0, i + 1);
        demand_sum(&a, &b, ROOM, 0, 0, 0);
        demand_sum(&a, &b, ROOM - 1, 11, 0, 0);
        split(MAX_TERMS + 1, 0, i + 1);
        demand_sum(&a, &b, ROOM, 10, 0, 0);
        demand_sum(&b, &a, 0, 10, 0, 0);
        split(MAX_TERMS + 1, 1, i + 1); /* the first cancels in the difference only */
        judge_sums(&a, &b);
    }
    split(MAX_TERMS, 0, heavy);
    demand_sum(&a, &b, ROOM, 0, 0, 0);
    s.at[0].c *= 2;
    write_record(&a, &s);
    demand_sum(&a, &b, ROOM, 9, 0, 0);
    split(MAX_TERMS + 1, 0, heavy); /* 2,049 terms and too heavy */
    demand_sum(&a, &b, 0, 10, 0, 0);
}

static void one_term(struct record *to, uint64_t ann, int64_t c)
{
    t.m = 64;
    t.n = 0;
    put(&t, ann, 0, c);
    write_record(to, &t);
}

/* the weight of the result at exactly 2^60 and above, in different terms and in one; 9 before 11 */
static void check_weights(void)
{
    const int64_t top = INT64_C(1) << 60;
    const int64_t half = top / 2;
    const int64_t pairs[][2] = {{top - 1, 1}, {top, 1}, {half, half}, {half, half + 1}, {top, top}, {top, -1}};
    for (int i = 0; i < 6; i++) {
        bool fits = i % 2 == 0 && i < 4;
        one_term(&a, 1, pairs[i][0]);
        one_term(&b, 2, pairs[i][1]);
        demand_sum(&a, &b, 80, fits ? 0 : 9, 0, 0);
        demand_sum(&a, &b, 79, fits ? 11 : 9, 0, 0);
        one_term(&b, 1, pairs[i][1]);
        for (size_t room = 31; room < 57; room++)
            for (enum face f = ADD; f <= SUB; f++)
                judge_sum(f, &a, &b, room);
    }
}

/* adjoints whose order turns round, and dense words */
static void check_adjoints(void)
{
    for (int i = 0; i < 6; i++) {
        draw_many(&s, 64, MAX_TERMS);
        for (size_t j = 0; j < s.n; j++)
            s.at[j].cre = i % 2 ? s.n - j : s.at[j].cre;
        write_record(&a, &s);
        for (size_t short_by = 0; short_by < 2; short_by++) {
            struct answer right = judge_adjoint(&a, a.len - short_by);
            require(ADJOINT, &right, short_by ? 11 : 0, 0, 0);
        }
    }
}

void check_sums(void)
{
    each_boundary(on_boundary);
    check_drawn();
    check_sizes();
    check_weights();
    check_adjoints();
}
