/* Calls that read one record and fill nothing but the answer. */
#include "test.h"

static const struct {
    enum face f;
    void (*call)(const uint8_t *a, size_t a_len, uint64_t answer[8]);
    struct answer (*plain)(struct bytes a);
} ones[] = {
    {CHECK, fermion_check, plain_check},
    {IS_HERMITIAN, fermion_is_hermitian, plain_is_hermitian},
    {CONSERVES, fermion_conserves_particle_number, plain_conserves_particle_number},
    {MAX_N_BODY, fermion_max_n_body, plain_max_n_body},
    {ACTIVE_MODES, fermion_active_modes, plain_active_modes},
};

static struct lent shown;

static struct answer judge_one(size_t k, const struct record *r)
{
    struct answer right = ones[k].plain(bytes_of(r));
    const uint8_t *at = show(&shown, r->bytes, r->len);
    ones[k].call(at, r->len, lend_answer());
    judge(ones[k].f, &right, holds(&shown));
    return right;
}

static void judge_block(const struct record *r, uint64_t ann)
{
    struct answer right = plain_block(bytes_of(r), ann);
    const uint8_t *at = show(&shown, r->bytes, r->len);
    fermion_block(at, r->len, ann, lend_answer());
    judge(BLOCK, &right, holds(&shown));
}

static void on_boundary(const struct record *r, uint64_t number, uint64_t place)
{
    for (size_t k = 0; k < sizeof ones / sizeof ones[0]; k++) {
        struct answer right = judge_one(k, r);
        require(ones[k].f, &right, number, number ? 1 : 0, place);
    }
    judge_block(r, 0);
    judge_block(r, 1);
    judge_block(r, 6);
}

/* an annihilation word of the record, one beside it, or any */
static uint64_t asked_word(const struct terms *t)
{
    if (t->n == 0 || one_in(8))
        return one_in(2) ? draw_word(t->m) : draw_word_off(t->m);
    uint64_t ann = t->at[below(t->n)].ann;
    return one_in(4) ? ann + (one_in(2) ? 1 : UINT64_MAX) : ann;
}

/* few annihilation words, so that stretches are long; otherwise terms of any kind, Hermitian in one of three */
static void draw(struct terms *t)
{
    draw_any(t);
    if (one_in(3))
        draw_partners(t);
    else if (one_in(3)) {
        for (size_t i = 0; i < t->n; i++)
            t->at[i].ann &= 3;
        join(t);
    }
}

static void check_drawn(void)
{
    static struct terms t;
    static struct record r;
    for (long i = 0; i < CASES; i++) {
        draw(&t);
        write_record(&r, &t);
        if (one_in(4))
            damage(&r, &t);
        for (size_t k = 0; k < sizeof ones / sizeof ones[0]; k++)
            judge_one(k, &r);
        judge_block(&r, asked_word(&t));
    }
}

/* records of 2,048 terms: Hermitian or nearly, and each with one annihilation word or 2,048 of them */
static void check_large(void)
{
    static struct terms t;
    static struct record r;
    for (int i = 0; i < 8; i++) {
        draw_many(&t, 64, MAX_TERMS / 2);
        for (size_t j = 0; i % 2 && j < t.n; j++)
            t.at[j].ann = UINT64_MAX << 60;
        if (i % 2)
            join(&t);
        else
            draw_partners(&t);
        write_record(&r, &t);
        for (size_t k = 0; k < sizeof ones / sizeof ones[0]; k++)
            judge_one(k, &r);
        for (int j = 0; j < 20; j++)
            judge_block(&r, asked_word(&t));
    }
}

void check_reads(void)
{
    each_boundary(on_boundary);
    check_drawn();
    check_large();
}
