/* One term on one word, and one product: fermion_apply and fermion_mul_cmpnts. */
#include "test.h"

static const uint64_t full = UINT64_MAX, low = UINT64_MAX >> 1, top = UINT64_C(1) << 63;

static void judge_apply(uint64_t cre, uint64_t ann, uint64_t ket)
{
    struct answer right = plain_apply(cre, ann, ket);
    fermion_apply(cre, ann, ket, lend_answer());
    judge(APPLY, &right, true);
}

static void check_apply(void)
{
    for (uint64_t code = 0; code < 4096; code++) /* all on four modes */
        judge_apply(code & 15, code >> 4 & 15, code >> 8);
    for (long i = 0; i < 5 * CASES; i++) {
        unsigned m = 1 + (unsigned)below(64);
        uint64_t cre = draw_word(m), ann = draw_word(m), ket = draw_word(m);
        if (!one_in(4)) /* most terms act on their ket */
            ket = (ket | ann) & ~(cre & ~ann);
        judge_apply(cre, ann, ket);
    }
}

static struct answer judge_rows(const struct term *l, const struct term *r, size_t room)
{
    static struct lent out;
    static uint8_t rows[MOST];
    struct answer right = plain_mul_cmpnts(l, r, room, rows);
    uint8_t *at = lend(&out, room);
    must_hold(&out, rows, right.n[3]);
    fermion_mul_cmpnts(l->cre, l->ann, r->cre, r->ann, at, room, lend_answer());
    judge(MUL_CMPNTS, &right, holds(&out));
    return right;
}

/* takes modes out of r's creations until no more than `most` ladders of l and r meet without an end at once */
static void part(const struct term *l, struct term *r, unsigned most)
{
    for (unsigned p = 0; p < 64; p++)
        if (size(l->ann & r->cre & ~l->cre) > most)
            r->cre &= ~(l->ann & ~l->cre & UINT64_C(1) << p);
}

/* words on m modes; in most draws the modes that would empty the product are taken out */
static void draw_factors(struct term *l, struct term *r, unsigned m)
{
    l->ann = draw_word(m);
    l->cre = draw_word(m);
    r->ann = draw_word(m);
    r->cre = draw_word(m);
    part(l, r, one_in(50) ? 9 : (unsigned)below(5));
    if (!one_in(4)) {
        r->cre &= ~(l->cre & ~l->ann);
        r->ann &= ~(l->ann & ~r->cre);
    }
}

static void check_drawn(void)
{
    struct term l, r;
    for (long i = 0; i < CASES; i++) {
        draw_factors(&l, &r, draw_modes());
        judge_rows(&l, &r, near_length(ROW * (size_t)row_count(&l, &r)));
    }
}

/* every pair of terms on two modes, with the room exactly right and a byte short */
static void check_all_small(void)
{
    for (uint64_t code = 0; code < 256; code++) {
        struct term l = {code & 3, code >> 2 & 3, 1}, r = {code >> 4 & 3, code >> 6, 1};
        size_t right = ROW * (size_t)row_count(&l, &r);
        judge_rows(&l, &r, right);
        if (right > 0)
            judge_rows(&l, &r, right - 1);
    }
}

/* {|0..b-1} times {0..b-1|} has 2^b rows; b may be 64 */
static void check_branching(void)
{
    for (unsigned b = 0; b <= 64; b++) {
        uint64_t word = b == 64 ? full : (UINT64_C(1) << b) - 1;
        struct term l = {word, 0, 1}, r = {0, word, 1};
        size_t room = b <= 11 ? (size_t)ROW << b : ROOM;
        struct answer right = judge_rows(&l, &r, room);
        require(MUL_CMPNTS, &right, b <= 11 ? 0 : 7, 0, 0);
        right = judge_rows(&l, &r, room - 1);
        require(MUL_CMPNTS, &right, 7, 0, 0);
    }
}

/* products on all modes, with one row or empty, though up to 64 modes are common */
static void check_ends(void)
{
    const struct {
        struct term l, r;
        uint64_t rows;
    } ends[] = {
        {{full, full, 1}, {full, full, 1}, 1}, {{full, full, 1}, {0, full, 1}, 1}, {{0, full, 1}, {full, 0, 1}, 1},
        {{0, full, 1}, {0, full, 1}, 0},       {{full, 0, 1}, {full, 0, 1}, 0},    {{0, 0, 1}, {0, 0, 1}, 1},
        {{low, top, 1}, {0, full, 1}, 0},      {{full, 0, 1}, {top, low, 1}, 0},   {{1023, 0, 1}, {1023, 1023, 1}, 1},
    };
    for (size_t i = 0; i < sizeof ends / sizeof ends[0]; i++) {
        struct answer right = judge_rows(&ends[i].l, &ends[i].r, ROW * ends[i].rows);
        must(MUL_CMPNTS, right.n[0] == 0 && right.n[4] == ends[i].rows);
        judge_rows(&ends[i].l, &ends[i].r, 100);
    }
}

void check_single(void)
{
    check_apply();
    check_all_small();
    check_drawn();
    check_branching();
    check_ends();
}
