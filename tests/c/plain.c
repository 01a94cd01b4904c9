/* Words, terms and sums of terms, by the phase rule and by exchanging neighbouring ladders. */
#include "plain.h"
#include <stdio.h>
#include <stdlib.h>
#include <string.h>

bool occupied(uint64_t word, unsigned p)
{
    return word >> p & 1;
}

bool outside(uint64_t word, uint64_t m)
{
    return m < 64 && word >> m != 0;
}

unsigned size(uint64_t word)
{
    unsigned count = 0;
    for (unsigned p = 0; p < 64; p++)
        count += occupied(word, p);
    return count;
}

/* one ladder: creating needs the mode empty, annihilating occupied; a flip for each occupied mode below */
static void step(struct outcome *o, bool creates, unsigned p)
{
    if (!o->applied || occupied(o->word, p) == creates) {
        *o = (struct outcome){0};
        return;
    }
    for (unsigned q = 0; q < p; q++)
        o->minus ^= occupied(o->word, q);
    o->word ^= UINT64_C(1) << p;
}

/* the rightmost operator first: annihilations from the highest mode down, then creations from the highest mode down */
struct outcome apply(uint64_t cre, uint64_t ann, uint64_t ket)
{
    struct outcome o = {true, false, ket};
    for (unsigned p = 64; p-- > 0;)
        if (occupied(ann, p))
            step(&o, false, p);
    for (unsigned p = 64; p-- > 0;)
        if (occupied(cre, p))
            step(&o, true, p);
    return o;
}

void put(struct terms *to, uint64_t ann, uint64_t cre, wide c)
{
    if (to->n == MAX_ROWS) {
        fprintf(stderr, "a test that makes more rows than it has room for\n");
        abort();
    }
    to->at[to->n++] = (struct term){ann, cre, c};
}

/* Ladders written from left to right, as many as two terms have at most. */
struct ladder {
    bool creates;
    uint8_t mode;
};

struct string {
    struct ladder at[256];
    int n;
    bool minus;
};

/* creations ascending, then annihilations ascending */
static bool in_order(struct ladder x, struct ladder y)
{
    return x.creates == y.creates ? x.mode < y.mode : x.creates;
}

static struct string without_two(struct string s, int i)
{
    memmove(s.at + i, s.at + i + 2, (size_t)(s.n - i - 2) * sizeof s.at[0]);
    s.n -= 2;
    return s;
}

static uint64_t word_of(const struct string *s, bool creates)
{
    uint64_t word = 0;
    for (int i = 0; i < s->n; i++)
        if (s->at[i].creates == creates)
            word |= UINT64_C(1) << s->at[i].mode;
    return word;
}

/* Moves each ladder from `done` on to its place among those before it, which stand in order. Neighbours exchanged flip
 * the sign; the same ladder twice is nothing; and a a+ of one mode is 1 - a+ a, of which the 1 goes on by itself. */
static void bring_into_order(struct terms *to, struct string s, int done, wide c)
{
    for (; done < s.n; done++)
        for (int i = done; i > 0 && !in_order(s.at[i - 1], s.at[i]); i--) {
            struct ladder left = s.at[i - 1], right = s.at[i];
            if (left.mode == right.mode) {
                if (left.creates == right.creates)
                    return;
                bring_into_order(to, without_two(s, i - 1), done - 1, c);
            }
            s.at[i - 1] = right;
            s.at[i] = left;
            s.minus = !s.minus;
        }
    put(to, word_of(&s, false), word_of(&s, true), s.minus ? -c : c);
}

static void append(struct string *s, uint64_t word, bool creates)
{
    for (unsigned p = 0; p < 64; p++)
        if (occupied(word, p))
            s->at[s->n++] = (struct ladder){creates, (uint8_t)p};
}

/* c times the product of the words of l and r, added to a sum of terms */
void multiply(struct terms *to, const struct term *l, const struct term *r, wide c)
{
    struct string s = {.n = 0};
    append(&s, l->cre, true);
    append(&s, l->ann, false);
    append(&s, r->cre, true);
    append(&s, r->ann, false);
    bring_into_order(to, s, 0, c);
}

/* the adjoint of one term: its ladders from right to left, each turned into its opposite */
void adjoin(struct terms *to, const struct term *t)
{
    struct string s = {.n = 0}, turned = {.n = 0};
    append(&s, t->cre, true);
    append(&s, t->ann, false);
    while (s.n > 0) {
        struct ladder last = s.at[--s.n];
        turned.at[turned.n++] = (struct ladder){!last.creates, last.mode};
    }
    bring_into_order(to, turned, 0, t->c);
}

/* 0 for an empty product, otherwise 2^b, as the specification counts, since 2^64 rows cannot be made */
wide row_count(const struct term *l, const struct term *r)
{
    wide count = 1;
    for (unsigned p = 0; p < 64; p++) {
        bool lc = occupied(l->cre, p), la = occupied(l->ann, p), rc = occupied(r->cre, p), ra = occupied(r->ann, p);
        if ((lc && rc && !la) || (la && ra && !rc))
            return 0;
        if (la && rc && !lc && !ra)
            count *= 2;
    }
    return count;
}

static int by_words(const void *x, const void *y)
{
    const struct term *a = x, *b = y;
    if (a->ann != b->ann)
        return a->ann < b->ann ? -1 : 1;
    return a->cre < b->cre ? -1 : a->cre > b->cre;
}

/* like terms joined, zeros dropped, ascending by (annihilation, creation) */
void join(struct terms *t)
{
    size_t n = 0;
    qsort(t->at, t->n, sizeof t->at[0], by_words);
    for (size_t i = 0; i < t->n;) {
        struct term sum = t->at[i++];
        for (; i < t->n && by_words(&sum, &t->at[i]) == 0; i++)
            sum.c += t->at[i].c;
        if (sum.c != 0)
            t->at[n++] = sum;
    }
    t->n = n;
}

wide weight(const struct terms *t)
{
    wide sum = 0;
    for (size_t i = 0; i < t->n; i++)
        sum += t->at[i].c < 0 ? -t->at[i].c : t->at[i].c;
    return sum;
}

/* the sum of signed coefficients of the terms that take ket to bra */
wide element(const struct terms *t, uint64_t bra, uint64_t ket)
{
    wide sum = 0;
    for (size_t i = 0; i < t->n; i++) {
        struct outcome o = apply(t->at[i].cre, t->at[i].ann, ket);
        if (o.applied && o.word == bra)
            sum += o.minus ? -t->at[i].c : t->at[i].c;
    }
    return sum;
}
