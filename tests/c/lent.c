/* Buffers as an earlier job might leave them, and what a call may not touch. */
#include "test.h"
#include <string.h>

static void randomize(uint8_t *at, size_t len)
{
    for (size_t i = 0; i < len; i += 8) {
        uint64_t garbage = next();
        memcpy(at + i, &garbage, len - i < 8 ? len - i : 8);
    }
}

/* random bytes; in one of four zeros first, in one of eight 255s only, in one of eight zeros last */
static void soil(uint8_t *at, size_t len)
{
    static const size_t zeros[] = {1, 8, 24, 32};
    uint64_t kind = below(8);
    size_t some = zeros[below(4)];
    if (some > len)
        some = len;
    randomize(at, len);
    if (kind < 2)
        memset(at, 0, some);
    if (kind == 2)
        memset(at, 255, len);
    if (kind == 3)
        memset(at + len - some, 0, some);
}

static uint8_t *place(struct lent *l, size_t len, size_t shift)
{
    l->start = GUARD + shift;
    l->len = len;
    randomize(l->whole, l->start);
    soil(l->whole + l->start, len);
    randomize(l->whole + l->start + len, GUARD);
    memcpy(l->right, l->whole, l->start + len + GUARD);
    return l->whole + l->start;
}

/* bytes may begin anywhere */
uint8_t *lend(struct lent *l, size_t len)
{
    return place(l, len, below(8));
}

uint8_t *lend_aligned(struct lent *l, size_t len)
{
    return place(l, len, 0);
}

static const uint8_t *filled(struct lent *l, const void *bytes, size_t len)
{
    must_hold(l, bytes, len);
    memcpy(l->whole, l->right, l->start + l->len + GUARD);
    return l->whole + l->start;
}

/* bytes to be read: they must stay as they are */
const uint8_t *show(struct lent *l, const void *bytes, size_t len)
{
    lend(l, len);
    return filled(l, bytes, len);
}

const uint8_t *show_aligned(struct lent *l, const void *bytes, size_t len)
{
    lend_aligned(l, len);
    return filled(l, bytes, len);
}

/* two records; one record given twice is the same memory */
void show_two(struct lent l[2], const struct record *x, const struct record *y, const uint8_t *at[2])
{
    at[0] = show(&l[0], x->bytes, x->len);
    at[1] = show(&l[1], y->bytes, x == y ? 0 : y->len);
    if (x == y)
        at[1] = at[0];
}

/* these bytes, then zeros to the end of what was lent */
void must_hold(struct lent *l, const void *bytes, size_t len)
{
    memset(l->right + l->start, 0, l->len);
    memcpy(l->right + l->start, bytes, len);
}

bool holds(const struct lent *l)
{
    return memcmp(l->whole, l->right, l->start + l->len + GUARD) == 0;
}

bool hold_two(const struct lent l[2])
{
    return holds(&l[0]) && holds(&l[1]);
}
