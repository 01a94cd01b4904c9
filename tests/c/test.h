/* What the tests share: seeded draws, lent buffers with garbage and guards, and how often each number was met. */
#ifndef TEST_H
#define TEST_H
#include "fermion.h"
#include "plain.h"

enum { CASES = 20000 }; /* drawn for each function, besides its boundary inputs */

/* the shapes that several functions have */

typedef void sum_of(const uint8_t *a, size_t a_len, const uint8_t *b, size_t b_len, uint8_t *out, size_t out_len,
                    uint64_t answer[8]);
typedef void product_of(const uint8_t *a, size_t a_len, const uint8_t *b, size_t b_len, uint8_t *work, size_t work_len,
                        uint8_t *out, size_t out_len, uint64_t answer[8]);

/* draw.c */

struct record {
    size_t len;
    uint8_t bytes[ROOM + 2 * ROW];
};

uint64_t next(void);
uint64_t below(uint64_t n);
bool one_in(uint64_t n);
unsigned draw_modes(void);
uint64_t draw_word(unsigned m);
uint64_t draw_word_off(unsigned m);
void draw_terms(struct terms *to, unsigned m, size_t most);
void draw_any(struct terms *to);
void draw_relative(struct terms *to, const struct terms *from);
void draw_partners(struct terms *t);
void draw_many(struct terms *to, unsigned m, size_t n);
void copy_terms(struct terms *to, const struct terms *from);
void write_record(struct record *to, const struct terms *t);
void write_none(struct record *to, unsigned m);
void damage(struct record *r, const struct terms *t);
struct bytes bytes_of(const struct record *r);
size_t near_length(size_t right);

/* lent.c: bytes that a call is lent, between guards; `right` is what must be there after the call */

enum { GUARD = 64, MOST = ROW * MAX_ROWS, WHOLE = GUARD + 8 + MOST + GUARD };

struct lent {
    size_t start, len;
    _Alignas(16) uint8_t whole[WHOLE], right[WHOLE];
};

uint8_t *lend(struct lent *l, size_t len);
uint8_t *lend_aligned(struct lent *l, size_t len);
const uint8_t *show(struct lent *l, const void *bytes, size_t len);
const uint8_t *show_aligned(struct lent *l, const void *bytes, size_t len);
void show_two(struct lent l[2], const struct record *x, const struct record *y, const uint8_t *at[2]);
void must_hold(struct lent *l, const void *bytes, size_t len);
bool holds(const struct lent *l);
bool hold_two(const struct lent l[2]);

/* tally.c: one row for each function of fermion.h that is drawn for, in its order, and nowhere else: its name; whether [5] may
 * be 0 or not where it is not refused; and by operand the numbers that the specification's order of refusals leaves for it */

#define FACE(F) \
    F(APPLY, fermion_apply, true, N(0)) \
    F(MUL_CMPNTS, fermion_mul_cmpnts, false, N(0) | N(7)) \
    F(CHECK, fermion_check, false, ONE) \
    F(ADD, fermion_add, false, N(0) | RESULT, RECORD, RECORD) \
    F(SUB, fermion_sub, false, N(0) | RESULT, RECORD, RECORD) \
    F(MUL, fermion_mul, false, N(0) | RESULT | N(7) | N(8), RECORD, RECORD) \
    F(COMMUTATOR, fermion_commutator, false, N(0) | RESULT | N(7) | N(8), RECORD, RECORD) \
    F(ANTICOMMUTATOR, fermion_anticommutator, false, N(0) | RESULT | N(7) | N(8), RECORD, RECORD) \
    F(ADJOINT, fermion_adjoint, false, N(0) | N(11), RECORD) \
    F(IS_HERMITIAN, fermion_is_hermitian, true, ONE) \
    F(CONSERVES, fermion_conserves_particle_number, true, ONE) \
    F(MAX_N_BODY, fermion_max_n_body, true, ONE) \
    F(ACTIVE_MODES, fermion_active_modes, true, ONE) \
    F(BLOCK, fermion_block, true, N(0)) \
    F(ELEMENT, fermion_element, true, N(0), RECORD, 0, N(12), N(12)) \
    F(MATRIX, fermion_mat_ortho_projected, false, N(0), RECORD, 0, N(12) | N(14)) \
    F(COMPARE, fermion_compare, true, N(0) | N(6), RECORD, RECORD) \
    F(MAT_ELEM_REAL, fermion_mat_elem_real, false, LISTS) \
    F(MAT_ELEM_COMPLEX, fermion_mat_elem_complex, false, LISTS)

#define ID(id, ...) id,
enum face { FACE(ID) FUNCTIONS };

uint64_t *lend_answer(void);
void judge(enum face f, const struct answer *right, bool rest_is_right);
void must(enum face f, bool so);
void require(enum face f, const struct answer *right, uint64_t number, uint64_t operand, uint64_t place);
void report(int *passed, int *failed);

/* boundary.c: records at the ends of what is accepted, with the refusal that the specification gives, 0 for none */

typedef void visit(const struct record *r, uint64_t number, uint64_t place);

void each_boundary(visit *v);

/* the groups */

void check_examples(int *passed, int *failed);
void check_shelf(int *passed, int *failed);
void check_self(int *passed, int *failed);
void check_single(void);
void check_reads(void);
void check_sums(void);
void check_products(void);
void check_elements(void);
void check_floats(void);
#endif
