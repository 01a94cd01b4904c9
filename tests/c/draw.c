/* Seeded draws: words, terms, records, and records damaged in one way or two. */
#include "test.h"
#include <string.h>

static uint64_t state = 20261115;

/* xorshift64*: seeded, and the same on every machine as long as no expression draws twice in an order left open by C */
uint64_t next(void)
{
    state ^= state >> 12;
    state ^= state << 25;
    state ^= state >> 27;
    return state * UINT64_C(2685821657736338717);
}

uint64_t below(uint64_t n)
{
    return next() % n;
}

bool one_in(uint64_t n)
{
    return below(n) == 0;
}

/* few modes in half of the draws, so that terms meet; 63 and 64 often enough */
unsigned draw_modes(void)
{
    uint64_t kind = below(8);
    if (kind < 4)
        return 1 + (unsigned)below(4);
    return kind < 6 ? 5 + (unsigned)below(8) : kind < 7 ? 63 + (unsigned)below(2) : 1 + (unsigned)below(64);
}

static uint64_t all_modes(unsigned m)
{
    return m == 64 ? UINT64_MAX : (UINT64_C(1) << m) - 1;
}

/* a word of m modes, sparse or dense */
uint64_t draw_word(unsigned m)
{
    uint64_t w = next(), kind = below(3);
    if (kind == 0)
        w &= next() & next();
    if (kind == 1)
        w &= next();
    return w & all_modes(m);
}

/* a word with a mode beyond m, often the first beyond; on 64 modes there is none */
uint64_t draw_word_off(unsigned m)
{
    uint64_t w = draw_word(m);
    return m == 64 ? w : w | UINT64_C(1) << (one_in(2) ? m : m + below(64 - m));
}

/* up to k modes of m */
static uint64_t few_modes(unsigned m, uint64_t k)
{
    uint64_t w = 0;
    while (k-- > 0)
        w |= UINT64_C(1) << below(m);
    return w;
}

/* not zero; mostly small, sometimes up to 2^54 */
static wide draw_coefficient(bool small)
{
    static const unsigned bits[] = {0, 1, 3, 8, 20, 40, 54};
    wide c = 1 + (wide)below(UINT64_C(1) << (small ? 1 + below(2) : bits[below(7)]));
    return one_in(2) ? c : -c;
}

/* Up to `most` terms, ascending: dense words, few modes, or as many creations as annihilations, all on modes that are
 * near each other in half of the draws. */
void draw_terms(struct terms *to, unsigned m, size_t most)
{
    uint64_t kind = below(3), n = below(most + 1);
    unsigned width = one_in(2) && m > 6 ? 6 : m, from = (unsigned)below(m - width + 1);
    bool small = !one_in(3);
    to->m = m;
    to->n = 0;
    while (n-- > 0) {
        uint64_t ann = kind == 0 ? draw_word(width) : few_modes(width, below(4));
        uint64_t cre = kind == 0 ? draw_word(width) : few_modes(width, kind == 1 ? below(4) : size(ann));
        put(to, ann << from, cre << from, draw_coefficient(small));
    }
    join(to);
}

/* up to 9 terms in most draws, up to 40 in some */
void draw_any(struct terms *to)
{
    unsigned m = draw_modes();
    draw_terms(to, m, one_in(20) ? 40 : 9);
}

/* terms that share some with `from`: equal, opposite and other coefficients */
void draw_relative(struct terms *to, const struct terms *from)
{
    draw_terms(to, from->m, one_in(2) ? 0 : 5);
    for (size_t i = 0; i < from->n; i++) {
        struct term t = from->at[i];
        if (!one_in(3))
            put(to, t.ann, t.cre, one_in(4) ? draw_coefficient(true) : one_in(3) ? -t.c : t.c);
    }
    join(to);
}

/* The terms and their adjoints, so that the record is Hermitian; sometimes with one coefficient changed. */
void draw_partners(struct terms *t)
{
    for (size_t i = 0, n = t->n; i < n; i++)
        adjoin(t, &t->at[i]);
    join(t);
    if (t->n > 0 && one_in(3)) {
        wide *c = &t->at[below(t->n)].c;
        *c = one_in(2) ? -*c : *c + (*c < 0 ? -1 : 1);
    }
}

/* n terms that differ, with coefficients 1 or -1 */
void draw_many(struct terms *to, unsigned m, size_t n)
{
    to->m = m;
    to->n = 0;
    while (to->n < n) {
        for (size_t left = n - to->n; left > 0; left--) {
            uint64_t ann = next() & all_modes(m), cre = next() & all_modes(m);
            put(to, ann, cre, one_in(2) ? 1 : -1);
        }
        join(to);
    }
}

void copy_terms(struct terms *to, const struct terms *from)
{
    to->m = from->m;
    to->n = from->n;
    memcpy(to->at, from->at, from->n * sizeof from->at[0]);
}

void write_record(struct record *to, const struct terms *t)
{
    to->len = encode(to->bytes, t);
}

/* no terms, on m modes */
void write_none(struct record *to, unsigned m)
{
    static struct terms none;
    none.m = m;
    write_record(to, &none);
}

struct bytes bytes_of(const struct record *r)
{
    return (struct bytes){r->bytes, r->len};
}

/* a length: exactly right, a byte or a row short, longer, or none */
size_t near_length(size_t right)
{
    static const int steps[] = {0, 0, 0, 0, -1, 1, -24, 24, 200};
    int step = steps[below(9)];
    return one_in(16) || (step < 0 && right < (size_t)-step) ? 0 : right + (size_t)step;
}

/* a header field with another number */
static void damage_field(struct record *r)
{
    uint8_t *field = r->bytes + 4 * below(8), *byte = field + below(4);
    if (one_in(2))
        *byte ^= (uint8_t)(1 + below(255));
    else
        *field += one_in(2) ? 1 : 255;
}

static void damage_length(struct record *r)
{
    const size_t lengths[] = {r->len - 1, r->len + 1, 31, 0, r->len - 24, r->len + 24};
    r->len = lengths[below(6)];
}

/* one entry of a term: a mode outside, words of the term before it or of any, no coefficient or a heavy one */
static void damage_term(struct terms *t)
{
    static const int64_t heavy[] = {INT64_C(1) << 60, -(INT64_C(1) << 60), INT64_MAX, INT64_MIN};
    size_t i = below(t->n), j = i > 0 && one_in(2) ? i - 1 : below(t->n);
    struct term *at = &t->at[i];
    uint64_t kind = below(6);
    if (kind == 0)
        at->ann = draw_word_off(t->m);
    if (kind == 1)
        at->cre = draw_word_off(t->m);
    if (kind == 2)
        at->c = 0;
    if (kind == 3)
        at->c = heavy[below(4)];
    if (kind >= 4) {
        at->ann = t->at[j].ann;
        at->cre = kind == 4 ? t->at[j].cre : at->cre;
    }
}

/* A copy of these terms that is wrong in one way or two; sometimes right by chance. */
void damage(struct record *r, const struct terms *t)
{
    static struct terms changed;
    uint64_t kind = below(8);
    copy_terms(&changed, t);
    if (kind > 1 && t->n > 0)
        damage_term(&changed);
    if (kind == 7 && t->n > 0)
        damage_term(&changed);
    write_record(r, &changed);
    if (kind == 0 || (t->n == 0 && kind < 4))
        damage_field(r);
    if (kind == 1)
        damage_length(r);
}
