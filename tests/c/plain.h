/* The specification in plain C: terms worked out one ladder operator at a time, records, and what every call of
 * fermion.h must answer. Nothing here comes from the library, which is compared with it. */
#ifndef PLAIN_H
#define PLAIN_H
#include <stdbool.h>
#include <stddef.h>
#include <stdint.h>

typedef __int128 wide; /* sums of magnitudes, products of weights and sums of 2^b pass 64 bits */

enum { MAX_TERMS = 2048, MAX_ROWS = 8192, MAX_BASIS = 8, HEADER = 32, ROW = 24, ROOM = HEADER + ROW * MAX_TERMS };
#define MAX_WEIGHT ((wide)1 << 60)

/* plain.c: words, terms and sums of terms */

struct term {
    uint64_t ann, cre;
    wide c;
};

struct terms {
    unsigned m;
    size_t n;
    struct term at[MAX_ROWS];
};

struct outcome {
    bool applied, minus;
    uint64_t word;
};

bool occupied(uint64_t word, unsigned p);
bool outside(uint64_t word, uint64_t m);
unsigned size(uint64_t word);
struct outcome apply(uint64_t cre, uint64_t ann, uint64_t ket);
void put(struct terms *to, uint64_t ann, uint64_t cre, wide c);
void multiply(struct terms *to, const struct term *l, const struct term *r, wide c);
void adjoin(struct terms *to, const struct term *t);
wide row_count(const struct term *l, const struct term *r);
void join(struct terms *t);
wide weight(const struct terms *t);
wide element(const struct terms *t, uint64_t bra, uint64_t ket);

/* record.c: the record, written and checked */

struct bytes {
    const uint8_t *at;
    size_t len;
};

/* the eight numbers, laid out as fermion.h says */
struct answer {
    uint64_t n[8];
};

void write_u64(uint8_t *to, uint64_t number);
size_t encode(uint8_t *to, const struct terms *t);
struct answer refused(uint64_t number, uint64_t operand, uint64_t place);
bool accepted(struct answer *why_not, struct bytes record, uint64_t operand, struct terms *to);

/* answers.c: the answer of each call. `out` and `matrix` are what the call must leave: n[3] bytes of output and the
 * whole matrix; every other byte that is lent is then zero. */

struct answer plain_apply(uint64_t cre, uint64_t ann, uint64_t ket);
struct answer plain_mul_cmpnts(const struct term *l, const struct term *r, size_t room, uint8_t *out);
struct answer plain_check(struct bytes a);
struct answer plain_sum(struct bytes a, struct bytes b, int sign, size_t room, uint8_t *out);
struct answer plain_product(struct bytes a, struct bytes b, int other_order, size_t work, size_t room, uint8_t *out);
struct answer plain_adjoint(struct bytes a, size_t room, uint8_t *out);
struct answer plain_is_hermitian(struct bytes a);
struct answer plain_conserves_particle_number(struct bytes a);
struct answer plain_max_n_body(struct bytes a);
struct answer plain_active_modes(struct bytes a);
struct answer plain_block(struct bytes a, uint64_t ann);
struct answer plain_element(struct bytes a, uint64_t bra, uint64_t ket);
struct answer plain_matrix(struct bytes a, const uint64_t *basis, size_t n, int64_t matrix[64]);
struct answer plain_compare(struct bytes a, struct bytes b);

/* a list of terms with float coefficients; for a real element `parts` is 1 and the second list is not looked at */
struct floats {
    uint64_t m, bra, ket;
    const uint64_t *cre, *ann;
    const double *part[2];
    size_t cre_len, ann_len, part_len[2], parts;
};

struct answer plain_mat_elem(const struct floats *f, double value[2]);
#endif
