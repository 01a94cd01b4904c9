/* Every function on the specification's example or on a few terms, with answers that are worked out by hand. */
#include "examples.h"
#include <stdio.h>
#include <string.h>

void compare(struct tally *t, const void *got, const void *expected, size_t n)
{
    t->compared++;
    if (memcmp(got, expected, n) != 0)
        t->differ++;
}

const uint8_t example[80] = {
    1, 0, 0, 0, 2, 0, 0, 0, 2, 0, 0, 0, 32, 0, 0, 0, 48, 0, 0, 0, 64, 0, 0, 0, 80, 0, 0, 0, 0, 0, 0, 0,
    1, 0, 0, 0, 0, 0, 0, 0, 2, 0, 0, 0, 0, 0, 0, 0, 1, 0, 0, 0, 0, 0, 0, 0, 2, 0, 0, 0, 0, 0, 0, 0,
    1, 0, 0, 0, 0, 0, 0, 0, 255, 255, 255, 255, 255, 255, 255, 255,
};
const uint8_t none[32] = {1, 0, 0, 0, 2, 0, 0, 0, 0, 0, 0, 0, 32, 0, 0, 0, 32, 0, 0, 0, 32, 0, 0, 0, 32};
/* No terms, on three modes. */
static const uint8_t other[32] = {1, 0, 0, 0, 3, 0, 0, 0, 0, 0, 0, 0, 32, 0, 0, 0, 32, 0, 0, 0, 32, 0, 0, 0, 32};

/* an output between guards, full of garbage before the call */
struct room {
    uint8_t before[16], out[2048], after[16];
};

struct guarded answer_of(uint64_t number, uint64_t operand, uint64_t len, uint64_t rows, uint64_t x, uint64_t y,
                         uint64_t z)
{
    return (struct guarded){7, {number, operand, 0, len, rows, x, y, z}, 9};
}

struct guarded dirty(void)
{
    struct guarded g = {7, {0}, 9};
    for (int i = 0; i < 8; i++)
        g.answer[i] = next();
    return g;
}

void same_answer(struct tally *t, struct guarded got, struct guarded expected)
{
    compare(t, &got, &expected, sizeof got);
}

typedef void test_of(const uint8_t *a, size_t a_len, uint64_t answer[8]);

/* a function of one record that fills no output: its values on the example, and the refusal of one byte less */
static struct tally check_test(const char *name, test_of *f, uint64_t x, uint64_t y, uint64_t z)
{
    struct tally t = {name, 0, 0};
    struct guarded got = dirty();
    f(example, 80, got.answer);
    same_answer(&t, got, answer_of(0, 0, 0, 0, x, y, z));
    got = dirty();
    f(example, 79, got.answer);
    same_answer(&t, got, answer_of(1, 1, 0, 0, 0, 0, 0));
    return t;
}

static struct tally check_stretches(void)
{
    struct tally t = {"fermion_block", 0, 0};
    const uint64_t expected[][3] = {{1, 48, 8}, {2, 56, 8}, {0, 0, 0}, {3, 0, 0}, {4, 0, 0}};
    for (size_t i = 0; i < sizeof expected / sizeof expected[0]; i++) {
        struct guarded got = dirty();
        fermion_block(example, 80, expected[i][0], got.answer);
        same_answer(&t, got, answer_of(0, 0, 0, 0, expected[i][1], expected[i][2], 0));
    }
    return t;
}

static struct tally check_element(void)
{
    struct tally t = {"fermion_element", 0, 0};
    const struct {
        uint64_t bra, ket, number, operand;
        int64_t value;
    } expected[] = {{1, 1, 0, 0, 1}, {2, 2, 0, 0, -1}, {3, 3, 0, 0, 0}, {1, 2, 0, 0, 0}, {4, 4, 12, 3, 0}, {0, 4, 12, 4, 0}};
    for (size_t i = 0; i < sizeof expected / sizeof expected[0]; i++) {
        struct guarded got = dirty();
        fermion_element(example, 80, expected[i].bra, expected[i].ket, got.answer);
        same_answer(&t, got, answer_of(expected[i].number, expected[i].operand, 0, 0, (uint64_t)expected[i].value, 0, 0));
    }
    return t;
}

/* a matrix between guards, full of garbage before the call */
struct square {
    int64_t before, entries[64], after;
};

static struct square dirty_square(void)
{
    struct square s;
    s.before = 7, s.after = 9;
    for (int i = 0; i < 64; i++)
        s.entries[i] = (int64_t)next();
    return s;
}

static struct tally check_matrix(void)
{
    struct tally t = {"fermion_mat_ortho_projected", 0, 0};
    const uint64_t words[] = {1, 2, 3, 4, 1, 0, 0, 0, 0};
    const struct {
        size_t from, len;
        uint64_t number, place;
        int64_t diagonal[3];
    } expected[] = {
        {0, 0, 0, 0, {0, 0, 0}}, {0, 3, 0, 0, {1, -1, 0}}, {1, 2, 0, 0, {-1, 0, 0}}, {0, 9, 14, 0, {0, 0, 0}},
        {2, 3, 12, 1, {0, 0, 0}}, {4, 3, 14, 2, {0, 0, 0}},
    };
    for (size_t i = 0; i < sizeof expected / sizeof expected[0]; i++) {
        struct square got = dirty_square(), right = {7, {0}, 9};
        struct guarded answer = dirty();
        struct guarded told = answer_of(expected[i].number, expected[i].number ? 3 : 0, 0, 0, 0, 0, 0);
        told.answer[2] = expected[i].place;
        for (int j = 0; j < 3; j++)
            right.entries[9 * j] = expected[i].diagonal[j];
        fermion_mat_ortho_projected(example, 80, words + expected[i].from, expected[i].len, got.entries, answer.answer);
        compare(&t, &got, &right, sizeof got);
        same_answer(&t, answer, told);
    }
    return t;
}

static struct tally check_compare(void)
{
    struct tally t = {"fermion_compare", 0, 0};
    const struct {
        const uint8_t *b;
        size_t len;
        struct guarded answer;
    } expected[] = {
        {example, 80, answer_of(0, 0, 0, 0, 1, 0, 0)}, {none, 32, answer_of(0, 0, 0, 0, 0, 1, 1)},
        {none, 31, answer_of(1, 2, 0, 0, 0, 0, 0)},    {other, 32, answer_of(6, 0, 0, 0, 0, 0, 0)},
    };
    for (size_t i = 0; i < sizeof expected / sizeof expected[0]; i++) {
        struct guarded got = dirty();
        fermion_compare(example, 80, expected[i].b, expected[i].len, got.answer);
        same_answer(&t, got, expected[i].answer);
    }
    return t;
}

/* what one call that fills an output must leave: len bytes, then zeros as far as room, then garbage as it was */
struct left {
    struct room lent;
    struct guarded answer;
};

static struct left before_call(void)
{
    struct left l;
    for (size_t i = 0; i < sizeof l.lent; i++)
        ((uint8_t *)&l.lent)[i] = (uint8_t)next();
    l.answer = dirty();
    return l;
}

static struct left expected_left(struct left l, size_t room, const uint8_t *bytes, struct guarded answer)
{
    memset(l.lent.out, 0, room);
    memcpy(l.lent.out, bytes, answer.answer[3]);
    l.answer = answer;
    return l;
}

static void check_sum(struct tally *t, sum_of *f, const uint8_t *b, size_t b_len, size_t room, const uint8_t *bytes,
                      struct guarded answer)
{
    struct left got = before_call(), expected = expected_left(got, room, bytes, answer);
    f(example, 80, b, b_len, got.lent.out, room, got.answer.answer);
    compare(t, &got, &expected, sizeof got);
}

/* the example and itself give `doubled`; with no terms it stays; then 1 of the second, 6 and 11 */
static struct tally check_combined(const char *name, sum_of *f, const uint8_t *doubled, size_t len)
{
    struct tally t = {name, 0, 0};
    check_sum(&t, f, example, 80, 100, doubled, answer_of(0, 0, len, 0, 0, 0, 0));
    check_sum(&t, f, none, 32, 80, example, answer_of(0, 0, 80, 0, 0, 0, 0));
    check_sum(&t, f, none, 31, 80, example, answer_of(1, 2, 0, 0, 0, 0, 0));
    check_sum(&t, f, other, 32, 80, example, answer_of(6, 0, 0, 0, 0, 0, 0));
    check_sum(&t, f, none, 32, 79, example, answer_of(11, 0, 0, 0, 0, 0, 0));
    return t;
}

static struct tally check_add(void)
{
    uint8_t doubled[80];
    memcpy(doubled, example, 80);
    doubled[64] = 2;   /* 1 + 1 */
    doubled[72] = 254; /* -1 - 1 */
    return check_combined("fermion_add", fermion_add, doubled, 80);
}

/* the example is its own adjoint, and {1|0} is the adjoint of {0|1} */
static struct tally check_adjoint(void)
{
    struct tally t = {"fermion_adjoint", 0, 0};
    static const uint8_t hop[2][56] = {
        {1, 0, 0, 0, 2, 0, 0, 0, 1, 0, 0, 0, 32, 0, 0, 0, 40, 0, 0, 0, 48, 0, 0, 0, 56, 0, 0, 0, 0, 0, 0, 0, 2, 0, 0, 0, 0,
         0, 0, 0, 1, 0, 0, 0, 0, 0, 0, 0, 5},
        {1, 0, 0, 0, 2, 0, 0, 0, 1, 0, 0, 0, 32, 0, 0, 0, 40, 0, 0, 0, 48, 0, 0, 0, 56, 0, 0, 0, 0, 0, 0, 0, 1, 0, 0, 0, 0,
         0, 0, 0, 2, 0, 0, 0, 0, 0, 0, 0, 5},
    };
    const struct {
        const uint8_t *a, *bytes;
        size_t len, room;
        struct guarded answer;
    } calls[] = {
        {example, example, 80, 128, answer_of(0, 0, 80, 0, 0, 0, 0)}, {hop[0], hop[1], 56, 56, answer_of(0, 0, 56, 0, 0, 0, 0)},
        {hop[0], hop[1], 56, 55, answer_of(11, 0, 0, 0, 0, 0, 0)},    {example, example, 79, 80, answer_of(1, 1, 0, 0, 0, 0, 0)},
    };
    for (size_t i = 0; i < sizeof calls / sizeof calls[0]; i++) {
        struct left got = before_call(), expected = expected_left(got, calls[i].room, calls[i].bytes, calls[i].answer);
        fermion_adjoint(calls[i].a, calls[i].len, got.lent.out, calls[i].room, got.answer.answer);
        compare(&t, &got, &expected, sizeof got);
    }
    return t;
}

/* the record of n terms on two modes, each an annihilation word, a creation word and a coefficient */
static size_t record_of(uint8_t *to, size_t n, const int8_t terms[][3])
{
    const size_t header[8] = {1, 2, n, 32, 32 + 8 * n, 32 + 16 * n, 32 + 24 * n, 0};
    memset(to, 0, 32 + 24 * n);
    for (int i = 0; i < 8; i++)
        to[4 * i] = (uint8_t)header[i];
    for (size_t column = 0; column < 3; column++)
        for (size_t i = 0; i < n; i++) {
            uint8_t *entry = to + 32 + 8 * (n * column + i);
            memset(entry, terms[i][column] < 0 ? 255 : 0, 8); /* the sign of a coefficient fills its entry */
            entry[0] = (uint8_t)terms[i][column];
        }
    return 32 + 24 * n;
}

/* {0|1} and {1|0}: work and output exactly right and to spare, then 7, 11, 1 of each record and 6 */
static struct tally check_product(const char *name, product_of *f, uint64_t branches, size_t n, const int8_t terms[][3])
{
    struct tally t = {name, 0, 0};
    static const int8_t hop[2][1][3] = {{{2, 1, 1}}, {{1, 2, 1}}};
    uint8_t a[56], b[56], right[128];
    size_t len = record_of(right, n, terms), rows = 24 * branches;
    record_of(a, 1, hop[0]);
    record_of(b, 1, hop[1]);
    const struct {
        const uint8_t *b;
        size_t a_len, b_len, work, room;
        struct guarded answer;
    } calls[] = {
        {b, 56, 56, rows, len, answer_of(0, 0, len, branches, 0, 0, 0)}, {b, 56, 56, 128, 128, answer_of(0, 0, len, branches, 0, 0, 0)},
        {b, 56, 56, rows - 1, len, answer_of(7, 0, 0, 0, 0, 0, 0)},      {b, 56, 56, rows, len - 1, answer_of(11, 0, 0, 0, 0, 0, 0)},
        {b, 55, 56, rows, len, answer_of(1, 1, 0, 0, 0, 0, 0)},          {b, 56, 55, rows, len, answer_of(1, 2, 0, 0, 0, 0, 0)},
        {other, 56, 32, rows, len, answer_of(6, 0, 0, 0, 0, 0, 0)},
    };
    for (size_t i = 0; i < sizeof calls / sizeof calls[0]; i++) {
        struct left got = before_call(), work = before_call(), expected = expected_left(got, calls[i].room, right, calls[i].answer);
        struct room clean = work.lent;
        memset(clean.out, 0, calls[i].work);
        f(a, calls[i].a_len, calls[i].b, calls[i].b_len, work.lent.out, calls[i].work, got.lent.out, calls[i].room, got.answer.answer);
        compare(&t, &got, &expected, sizeof got);
        compare(&t, &work.lent, &clean, sizeof clean);
    }
    return t;
}

/* {0|1} times {1|0} is {0|0} + {0,1|0,1}, the other way round {1|1} + {0,1|0,1} */
static struct tally check_mul(void)
{
    static const int8_t terms[][3] = {{1, 1, 1}, {3, 3, 1}};
    return check_product("fermion_mul", fermion_mul, 2, 2, terms);
}

static struct tally check_commutator(void)
{
    static const int8_t terms[][3] = {{1, 1, 1}, {2, 2, -1}};
    return check_product("fermion_commutator", fermion_commutator, 4, 2, terms);
}

static struct tally check_anticommutator(void)
{
    static const int8_t terms[][3] = {{1, 1, 1}, {2, 2, 1}, {3, 3, 2}};
    return check_product("fermion_anticommutator", fermion_anticommutator, 4, 3, terms);
}

/* {|0} and {0|} have two branches one way and one the other; then 1 of each record and 6 */
static struct tally check_branches(void)
{
    struct tally t = {"fermion_branches", 0, 0};
    static const int8_t ladders[2][1][3] = {{{1, 0, 1}}, {{0, 1, 1}}};
    uint8_t a[56], b[56];
    record_of(a, 1, ladders[0]);
    record_of(b, 1, ladders[1]);
    const struct {
        const uint8_t *a, *b;
        size_t a_len, b_len;
        struct guarded answer;
    } calls[] = {
        {a, b, 56, 56, answer_of(0, 0, 0, 2, 1, 0, 0)},       {b, a, 56, 56, answer_of(0, 0, 0, 1, 2, 0, 0)},
        {a, a, 56, 56, answer_of(0, 0, 0, 0, 0, 0, 0)},       {example, none, 80, 32, answer_of(0, 0, 0, 0, 0, 0, 0)},
        {example, example, 80, 80, answer_of(0, 0, 0, 4, 4, 0, 0)},
        {a, b, 55, 56, answer_of(1, 1, 0, 0, 0, 0, 0)},       {a, b, 56, 55, answer_of(1, 2, 0, 0, 0, 0, 0)},
        {a, other, 56, 32, answer_of(6, 0, 0, 0, 0, 0, 0)},
    };
    for (size_t i = 0; i < sizeof calls / sizeof calls[0]; i++) {
        struct guarded got = dirty();
        fermion_branches(calls[i].a, calls[i].a_len, calls[i].b, calls[i].b_len, got.answer);
        same_answer(&t, got, calls[i].answer);
    }
    return t;
}

static void check_rank(struct tally *t, size_t n, const int8_t terms[][3], uint64_t rank)
{
    uint8_t a[104];
    struct guarded got = dirty();
    fermion_max_n_body(a, record_of(a, n, terms), got.answer);
    same_answer(t, got, answer_of(0, 0, 0, 0, rank, 0, 0));
}

/* The example, whose terms have rank 1; then {|}, {0|}, {|1}, {0,1|}, {0,1|1} and {|0,1}, each alone, and the first three. */
static struct tally check_max_n_body(void)
{
    struct tally t = check_test("fermion_max_n_body", fermion_max_n_body, 1, 0, 0);
    static const int8_t terms[][3] = {{0, 0, 1}, {0, 1, 1}, {2, 0, 1}, {0, 3, 1}, {2, 3, 1}, {3, 0, 1}};
    static const uint64_t ranks[] = {0, 1, 1, 2, 2, 2};
    for (size_t i = 0; i < sizeof ranks / sizeof ranks[0]; i++)
        check_rank(&t, 1, &terms[i], ranks[i]);
    check_rank(&t, 3, terms, 1);
    return t;
}

/* a report between guards */
struct counted {
    uint64_t before, numbers[FERMION_REPORT], after;
};

/* a report in which all terms have rank 1 */
static struct counted report_of(uint64_t yes, uint64_t no, uint64_t terms, uint64_t high, uint64_t low, uint64_t largest)
{
    return (struct counted){7, {yes, no, terms, high, low, largest, [9] = terms, high, low}, 9};
}

static void check_count(struct tally *t, const uint8_t *a, size_t len, struct counted got, struct counted right,
                        struct guarded told)
{
    struct guarded answer = dirty();
    fermion_report_add(a, len, got.numbers, answer.answer);
    compare(t, &got, &right, sizeof got);
    same_answer(t, answer, told);
}

static void check_bad_report(struct tally *t, struct counted report)
{
    struct guarded told = answer_of(15, 0, 0, 0, 0, 0, 0);
    check_count(t, example, 80, report, report, told);
    check_count(t, example, 79, report, report, told);
    check_count(t, NULL, 0, report, report, told);
}

/* full, by sums above 2^64 too; and each number but the largest weight one above its limit */
static void check_bad_reports(struct tally *t)
{
    const uint64_t above[] = {(1 << 21) + 1, 1025, UINT64_C(1) << 60}, half = UINT64_C(1) << 63;
    check_bad_report(t, report_of(1000, 24, 2, 0, 2, 2));
    check_bad_report(t, report_of(0, 1024, 0, 0, 0, 0));
    check_bad_report(t, report_of(half, half, 2, 0, 2, 2));
    check_bad_report(t, report_of(1, UINT64_MAX, 2, 0, 2, 2));
    for (size_t i = 0; i < 66; i++)
        for (size_t j = 0; j < 3; j++) {
            struct counted odd = report_of(1, 0, 2, 0, 2, 2);
            odd.numbers[(i ? 3 + 3 * i : 2) + j] = above[j];
            check_bad_report(t, odd);
        }
}

/* The example has two terms of rank 1 and the weight 2, and so has {0|} - {|1}. A byte less of the example is refused with 1,
 * and so are no bytes; with its second coefficient 0 it is refused with 4 at the place 1. A weight is carried over 2^60, and
 * sums go above the limits. */
static struct tally check_report(void)
{
    struct tally t = {"fermion_report_add", 0, 0};
    static const int8_t zero[][3] = {{1, 1, 1}, {2, 2, 0}}, odd[][3] = {{0, 1, 1}, {2, 0, -1}};
    const uint64_t unit = UINT64_C(1) << 60, most = 1 << 21;
    const struct guarded yes = answer_of(0, 0, 0, 0, 1, 0, 0), no = answer_of(0, 0, 0, 0, 0, 1, 0);
    const struct counted once = report_of(1, 0, 2, 0, 2, 2), twice = report_of(2, 0, 4, 0, 4, 2);
    const struct counted and_one_not = report_of(1, 1, 2, 0, 2, 2), room_for_one = report_of(1000, 23, 2, 0, 2, 2);
    uint8_t wrong[80], lone[80];
    record_of(wrong, 2, zero), record_of(lone, 2, odd);
    check_count(&t, example, 80, report_of(0, 0, 0, 0, 0, 0), once, yes);
    check_count(&t, lone, 80, report_of(0, 0, 0, 0, 0, 0), once, yes);
    check_count(&t, example, 80, once, twice, yes);
    check_count(&t, none, 32, once, report_of(2, 0, 2, 0, 2, 2), yes);
    check_count(&t, example, 79, once, and_one_not, no);
    check_count(&t, NULL, 0, once, and_one_not, no);
    check_count(&t, wrong, 80, once, and_one_not, answer_of(0, 0, 0, 0, 0, 4, 1));
    check_count(&t, example, 80, room_for_one, report_of(1001, 23, 4, 0, 4, 2), yes);
    check_count(&t, example, 79, room_for_one, report_of(1000, 24, 2, 0, 2, 2), no);
    check_count(&t, example, 80, report_of(0, 0, 5, 3, unit - 2, 1), report_of(1, 0, 7, 4, 0, 2), yes);
    check_count(&t, example, 80, report_of(0, 0, most, 1024, unit - 1, UINT64_MAX),
                report_of(1, 0, most + 2, 1025, 1, UINT64_MAX), yes);
    check_bad_reports(&t);
    return t;
}

/* The example's text, and as the commutator that it is, written out; then 7 and 11 by a byte, 1, 16 for a line feed too few and
 * for another grammar, 2 and 17, each at its line, and 8. No lines are no terms. A ladder that comes twice gives nothing. */
static struct tally check_import(void)
{
    struct tally t = {"fermion_import", 0, 0};
    static const char text[] = "1 0^ 0_\n-1 1^ 1_\n", hops[] = "1 0^ 1_ 1^ 0_\n-1 1^ 0_ 0^ 1_\n";
    const struct guarded whole = answer_of(0, 0, 80, 0, 0, 0, 0), empty = answer_of(0, 0, 32, 0, 0, 0, 0);
    const struct {
        uint64_t m;
        const char *text;
        size_t work, room;
        const uint8_t *bytes;
        struct guarded answer;
        uint64_t place;
    } calls[] = {
        {2, text, 384, 80, example, whole, 0},
        {2, text, 2048, 99, example, whole, 0},
        {2, hops, 1536, 80, example, whole, 0},
        {2, "-1 1^ 1_\n2\n-2\n1 0^ 0_\n", 480, 80, example, whole, 0},
        {2, "", 0, 32, none, empty, 0},
        {2, "-0 0^\n0\n7 1^ 1^\n5 0_ 1_ 0_\n", 720, 32, none, empty, 0},
        {2, text, 383, 80, none, answer_of(7, 0, 0, 0, 0, 0, 0), 0},
        {2, text, 384, 79, none, answer_of(11, 0, 0, 0, 0, 0, 0), 0},
        {0, text, 384, 80, none, answer_of(1, 1, 0, 0, 0, 0, 0), 0},
        {65, "", 384, 80, none, answer_of(1, 1, 0, 0, 0, 0, 0), 0},
        {2, "1 0^ 0_\n-1 1^ 1_", 384, 80, none, answer_of(16, 0, 0, 0, 0, 0, 0), 1},
        {2, "1\n1\n+1 9^\n", 384, 80, none, answer_of(16, 0, 0, 0, 0, 0, 0), 2},
        {2, "1\n1 0^ 2_\n01\n", 384, 80, none, answer_of(2, 1, 0, 0, 0, 0, 0), 1},
        {2, "1 18446744073709551616^\n", 384, 80, none, answer_of(2, 1, 0, 0, 0, 0, 0), 0},
        {2, "1 0^ 0^ 0^ 0^ 0^ 0^ 0^ 0^ 0^ 0^ 0^ 0^ 0^\n", 384, 80, none, answer_of(17, 0, 0, 0, 0, 0, 0), 0},
        {2, "576460752303423489 0^\n", 0, 0, none, answer_of(8, 0, 0, 0, 0, 0, 0), 0},
        {2, "1\n18446744073709551616\n", 384, 80, none, answer_of(8, 0, 0, 0, 0, 0, 0), 0},
    };
    for (size_t i = 0; i < sizeof calls / sizeof calls[0]; i++) {
        struct guarded told = calls[i].answer;
        told.answer[2] = calls[i].place;
        struct left got = before_call(), work = before_call(), expected = expected_left(got, calls[i].room, calls[i].bytes, told);
        struct room clean = work.lent;
        memset(clean.out, 0, calls[i].work);
        fermion_import(calls[i].m, (const uint8_t *)calls[i].text, strlen(calls[i].text), work.lent.out, calls[i].work,
                       got.lent.out, calls[i].room, got.answer.answer);
        compare(&t, &got, &expected, sizeof got);
        compare(&t, &work.lent, &clean, sizeof clean);
    }
    return t;
}

/* The example as text, with an output exactly right, to spare and a byte short; a byte less of it is refused with 1. No terms
 * are no text. Creations come first, also where their modes are higher. */
static struct tally check_export(void)
{
    struct tally t = {"fermion_export", 0, 0};
    static const char text[] = "1 0^ 0_\n-1 1^ 1_\n";
    static const int8_t terms[][3] = {{1, 2, -120}, {3, 3, 7}};
    uint8_t two[80];
    record_of(two, 2, terms);
    const struct {
        const uint8_t *a;
        size_t len, room;
        const char *text;
        struct guarded answer;
    } calls[] = {
        {example, 80, 17, text, answer_of(0, 0, 17, 0, 0, 0, 0)}, {example, 80, 99, text, answer_of(0, 0, 17, 0, 0, 0, 0)},
        {example, 80, 16, "", answer_of(11, 0, 0, 0, 0, 0, 0)},   {example, 79, 17, "", answer_of(1, 1, 0, 0, 0, 0, 0)},
        {none, 32, 0, "", answer_of(0, 0, 0, 0, 0, 0, 0)},        {none, 32, 9, "", answer_of(0, 0, 0, 0, 0, 0, 0)},
        {two, 80, 40, "-120 1^ 0_\n7 0^ 1^ 0_ 1_\n", answer_of(0, 0, 25, 0, 0, 0, 0)},
    };
    for (size_t i = 0; i < sizeof calls / sizeof calls[0]; i++) {
        const uint8_t *right = (const uint8_t *)calls[i].text;
        struct left got = before_call(), expected = expected_left(got, calls[i].room, right, calls[i].answer);
        fermion_export(calls[i].a, calls[i].len, got.lent.out, calls[i].room, got.answer.answer);
        compare(&t, &got, &expected, sizeof got);
    }
    return t;
}

/* The specification's cases 9 to 13, with what blocks the two that give Zero; then modes 0 and 63 that are missing or still
 * occupied, alone and with others above them, a missing mode above an occupied one, and the examples of docs/RECORD.md. */
static struct tally check_apply(void)
{
    struct tally t = {"fermion_apply", 0, 0};
    enum { MISSING = FERMION_MISSING, OCCUPIED = FERMION_OCCUPIED };
    const uint64_t top = UINT64_C(1) << 63, full = UINT64_MAX;
    const uint64_t calls[][6] = {
        {0, 0, top, 1, top, 0},           {4, 1, 3, 1, 6, 1},
        {0, 4, 3, 0, MISSING, 2},         {1, 0, 1, 0, OCCUPIED, 0},
        {1, 1, 1, 1, 1, 0},               {top, 0, top - 1, 1, full, 1},
        {0, 3, 3, 1, 0, 1},               {3, 0, 0, 1, 3, 0},
        {0, full, 0, 0, MISSING, 0},      {0, full, top - 1, 0, MISSING, 63},
        {full, 0, full, 0, OCCUPIED, 0},  {full, top - 1, full, 0, OCCUPIED, 63},
        {1, top, 1, 0, MISSING, 63},      {12, 3, 15, 0, OCCUPIED, 2},
        {0, 6, 0, 0, MISSING, 1},         {0, 6, 2, 0, MISSING, 2},
        {3, 0, 2, 0, OCCUPIED, 1},
    };
    for (size_t i = 0; i < sizeof calls / sizeof calls[0]; i++) {
        struct guarded got = dirty();
        fermion_apply(calls[i][0], calls[i][1], calls[i][2], got.answer);
        same_answer(&t, got, answer_of(0, 0, 0, 0, calls[i][3], calls[i][4], calls[i][5]));
    }
    return t;
}

/* {|0} times {0|} is {|} - {0|0}, the lower rank first; a byte less is refused with 7; {|0} times {|0} is nothing */
static struct tally check_mul_cmpnts(void)
{
    struct tally t = {"fermion_mul_cmpnts", 0, 0};
    static const uint8_t rows[48] = {[16] = 1, [24] = 1, [32] = 1, [40] = 255, 255, 255, 255, 255, 255, 255, 255};
    const struct {
        uint64_t r_cre, r_ann;
        size_t room;
        struct guarded answer;
    } calls[] = {
        {1, 0, 48, answer_of(0, 0, 48, 2, 0, 0, 0)},
        {1, 0, 60, answer_of(0, 0, 48, 2, 0, 0, 0)},
        {1, 0, 47, answer_of(7, 0, 0, 0, 0, 0, 0)},
        {0, 1, 0, answer_of(0, 0, 0, 0, 0, 0, 0)},
    };
    for (size_t i = 0; i < sizeof calls / sizeof calls[0]; i++) {
        struct left got = before_call(), expected = expected_left(got, calls[i].room, rows, calls[i].answer);
        fermion_mul_cmpnts(0, 1, calls[i].r_cre, calls[i].r_ann, got.lent.out, calls[i].room, got.answer.answer);
        compare(&t, &got, &expected, sizeof got);
    }
    return t;
}

/* two numbers between guards */
struct values {
    double before, value[2], after;
};

/* {|} and {|0,1} with re 1.5 and 0.1, im -2.0 and 0.2, on two modes. On the ket 3 the first keeps it, and the second takes
 * it to 0 with a minus. A bra outside the modes is refused, and so is a list that is one entry short. */
static struct tally check_mat_elem(const char *name, bool complex)
{
    struct tally t = {name, 0, 0};
    const uint64_t cre[] = {0, 0}, ann[] = {0, 3};
    const double re[] = {1.5, 0.1}, im[] = {-2.0, 0.2};
    const struct {
        uint64_t bra;
        size_t len;
        double re, im;
        struct guarded answer;
    } calls[] = {
        {3, 2, 1.5, -2.0, answer_of(0, 0, 0, 0, 0, 0, 0)}, {0, 2, -0.1, -0.2, answer_of(0, 0, 0, 0, 0, 0, 0)},
        {1, 2, 0.0, 0.0, answer_of(0, 0, 0, 0, 0, 0, 0)},  {4, 2, 0.0, 0.0, answer_of(12, 3, 0, 0, 0, 0, 0)},
        {3, 1, 0.0, 0.0, answer_of(1, 1, 0, 0, 0, 0, 0)},
    };
    for (size_t i = 0; i < sizeof calls / sizeof calls[0]; i++) {
        struct guarded garbage = dirty();
        struct values got = {7, {(double)garbage.answer[0], (double)garbage.answer[1]}, 9};
        struct values expected = {7, {calls[i].re, complex ? calls[i].im : 0.0}, 9};
        struct guarded answer = dirty();
        if (complex)
            fermion_mat_elem_complex(2, cre, 2, ann, 2, re, 2, im, calls[i].len, calls[i].bra, 3, got.value, answer.answer);
        else
            fermion_mat_elem_real(2, cre, 2, ann, 2, re, calls[i].len, calls[i].bra, 3, got.value, answer.answer);
        compare(&t, &got, &expected, sizeof got);
        same_answer(&t, answer, calls[i].answer);
    }
    return t;
}

void print_tallies(const struct tally *all, size_t n, int *passed, int *failed)
{
    for (size_t i = 0; i < n; i++) {
        printf("%s, by hand: %ld compared, %ld differ\n", all[i].name, all[i].compared, all[i].differ);
        ++*(all[i].differ ? failed : passed);
    }
}

void check_examples(int *passed, int *failed)
{
    struct tally all[] = {
        check_apply(),
        check_mul_cmpnts(),
        check_test("fermion_check", fermion_check, 2, 2, 2),
        check_add(),
        check_combined("fermion_sub", fermion_sub, none, 32),
        check_mul(),
        check_commutator(),
        check_anticommutator(), check_branches(),
        check_adjoint(),
        check_test("fermion_is_hermitian", fermion_is_hermitian, 1, 0, 0),
        check_test("fermion_conserves_particle_number", fermion_conserves_particle_number, 1, 0, 0),
        check_max_n_body(),
        check_test("fermion_active_modes", fermion_active_modes, 3, 0, 0),
        check_report(),
        check_import(),
        check_export(),
        check_stretches(),
        check_element(),
        check_mat_elem("fermion_mat_elem_real", false),
        check_mat_elem("fermion_mat_elem_complex", true),
        check_matrix(),
        check_compare(),
    };
    print_tallies(all, sizeof all / sizeof all[0], passed, failed);
}
