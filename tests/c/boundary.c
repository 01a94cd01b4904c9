/* Records at the ends of what is accepted: headers wrong by field, words outside, order, zeros, weights, sizes. */
#include "test.h"
#include <string.h>

static struct record r;
static struct terms t;

static void start(unsigned m)
{
    t.m = m;
    t.n = 0;
}

static void give(visit *v, uint64_t number, uint64_t place)
{
    write_record(&r, &t);
    v(&r, number, place);
}

/* four terms on m modes, 3 or more, that are accepted */
static void good(unsigned m)
{
    start(m);
    put(&t, 0, 1, 3);
    put(&t, 1, 1, -2);
    put(&t, 1, 2, 1);
    put(&t, 6, 0, -1);
}

static void put_u32(uint8_t *to, uint64_t number)
{
    for (int i = 0; i < 4; i++)
        to[i] = (uint8_t)(number >> 8 * i);
}

static uint64_t get_u32(const uint8_t *from)
{
    return from[0] | (uint64_t)from[1] << 8 | (uint64_t)from[2] << 16 | (uint64_t)from[3] << 24;
}

/* each of the eight fields changed; the mode count to numbers that are none, since 1 to 64 could be right */
static void each_field(visit *v)
{
    for (size_t at = 0; at < HEADER; at += 4) {
        write_record(&r, &t);
        const uint64_t was = get_u32(r.bytes + at);
        const uint64_t others[] = {was + 1, was - 1, was + 256, was ^ UINT64_C(1) << 31, ~was};
        const uint64_t counts[] = {0, 65, 256 + t.m, UINT64_C(1) << 31, UINT32_MAX};
        for (int i = 0; i < 5; i++) {
            put_u32(r.bytes + at, at == 4 ? counts[i] : others[i]);
            v(&r, 1, 0);
        }
    }
}

static void each_length(visit *v)
{
    const size_t lengths[] = {0, 1, 31, HEADER, HEADER + 24 * t.n - 1, HEADER + 24 * t.n + 1, HEADER + 24 * t.n + 24};
    for (int i = 0; i < 7; i++) {
        write_record(&r, &t);
        memset(r.bytes + r.len, 0, sizeof r.bytes - r.len);
        if (lengths[i] == r.len)
            continue;
        r.len = lengths[i];
        v(&r, 1, 0);
    }
}

/* a mode just outside and the highest, in either word, at each place */
static void each_outside(visit *v)
{
    static const unsigned counts[] = {3, 12, 33, 63};
    for (int k = 0; k < 4; k++)
        for (size_t i = 0; i < 4; i++)
            for (int which = 0; which < 4; which++) {
                good(counts[k]);
                uint64_t *word = which % 2 ? &t.at[i].ann : &t.at[i].cre;
                *word |= UINT64_C(1) << (which < 2 ? counts[k] : 63);
                give(v, 2, i);
            }
}

/* like the term before it, below it in one word or both, and two terms exchanged */
static void each_order(visit *v)
{
    static const uint64_t words[][3] = {{1, 1, 1}, {2, 1, 1}, {2, 1, 0}, {3, 1, 2}, {3, 0, 7}, {1, 0, 1}, {1, 0, 0}};
    for (size_t i = 0; i < sizeof words / sizeof words[0]; i++) {
        good(3);
        size_t at = words[i][0];
        t.at[at].ann = words[i][1];
        t.at[at].cre = words[i][2];
        bool falls = at != 1 || words[i][1] == 0;
        give(v, falls ? 3 : 0, falls ? at : 0);
    }
    start(64); /* bit 63 counts as high, not as a sign */
    put(&t, 0, 1, 1);
    put(&t, 0, UINT64_C(1) << 63, 1);
    put(&t, UINT64_MAX >> 1, 0, 1);
    put(&t, UINT64_C(1) << 63, 0, 1);
    give(v, 0, 0);
    struct term last = t.at[3];
    t.at[3] = t.at[2];
    t.at[2] = last;
    give(v, 3, 3);
}

static void each_zero(visit *v)
{
    for (size_t i = 0; i < 4; i++) {
        good(3);
        t.at[i].c = 0;
        give(v, 4, i);
    }
}

/* two faults: the earlier term counts, and at one term 2 before 3 before 4; 5 comes last */
static void each_two(visit *v)
{
    for (size_t i = 1; i < 4; i++) {
        good(3);
        t.at[i] = (struct term){t.at[i - 1].ann, t.at[i - 1].cre | 8, 0};
        give(v, 2, i); /* outside and zero */
        t.at[i] = (struct term){0, 8, 0};
        give(v, 2, i); /* outside, below and zero */
        t.at[i] = (struct term){t.at[i - 1].ann, t.at[i - 1].cre, 0};
        give(v, 3, i); /* like the one before, and zero */
        t.at[i - 1].c = 0;
        give(v, 4, i - 1); /* a zero before it */
    }
    good(3);
    t.at[0].c = INT64_MIN;
    t.at[3].c = 0;
    give(v, 4, 3);
    t.at[3].ann = 8;
    give(v, 2, 3);
}

/* n terms of these coefficients, then one more where it is not 0 */
static void weigh(visit *v, int64_t c, size_t n, int64_t more, uint64_t number)
{
    start(64);
    for (size_t i = 0; i < n; i++)
        put(&t, i, 0, c);
    if (more != 0)
        put(&t, n, 0, more);
    give(v, number, 0);
}

/* weights of exactly 2^60 and above, also sums of magnitudes that pass 63 and 64 bits */
static void each_weight(visit *v)
{
    const int64_t top = INT64_C(1) << 60;
    const struct {
        int64_t c;
        size_t n;
        int64_t more;
        uint64_t number;
    } weights[] = {
        {top, 1, 0, 0},        {-top, 1, 0, 0},       {top - 1, 1, -1, 0},  {top / 2, 2, 0, 0},
        {-top / 4, 4, 0, 0},   {top >> 11, 2048, 0, 0}, {top + 1, 1, 0, 5}, {-top - 1, 1, 0, 5},
        {top, 1, 1, 5},        {top, 1, -1, 5},       {top / 2, 2, -1, 5},  {INT64_MAX, 1, 0, 5},
        {INT64_MIN, 1, 0, 5},  {INT64_MIN, 2, 0, 5},  {INT64_MAX, 2, 2, 5}, {top, 16, 0, 5},
        {-top * 4, 4, 0, 5},   {INT64_MIN, 2, 1, 5},  {top >> 7, 2048, 0, 5}, {INT64_MIN, 2048, 0, 5},
        {top >> 11, 2047, (top >> 11) + 1, 5},
    };
    for (size_t i = 0; i < sizeof weights / sizeof weights[0]; i++)
        weigh(v, weights[i].c, weights[i].n, weights[i].more, weights[i].number);
}

/* no terms, one, 2,048 and 2,049; 1 and 64 modes */
static void each_size(visit *v)
{
    static const unsigned counts[] = {1, 2, 64};
    for (int k = 0; k < 3; k++) {
        start(counts[k]);
        give(v, 0, 0);
        put(&t, 1, 1, -7);
        give(v, 0, 0);
    }
    draw_many(&t, 64, MAX_TERMS);
    give(v, 0, 0);
    draw_many(&t, 64, MAX_TERMS + 1);
    give(v, 1, 0);
}

void each_boundary(visit *v)
{
    good(12);
    give(v, 0, 0);
    each_field(v);
    good(12);
    each_length(v);
    start(5);
    each_field(v);
    each_length(v);
    each_outside(v);
    each_order(v);
    each_zero(v);
    each_two(v);
    each_weight(v);
    each_size(v);
}
