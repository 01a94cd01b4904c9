/* The C face of the library: exact fermion operators on up to 64 modes, for a worker written in C, C++, Rust, Python
 * or any other language that calls C. docs/INSTALL.md says how to build, install and link, docs/RECORD.md what a
 * record is and when exactly each refusal is given. `tools/shared_object.sh` makes libfermion.so and the
 * archive libfermion.a, both for x86-64 alone.
 *
 * What holds for every function:
 *
 * - It takes any bytes and numbers, checks them itself, ends, and fills `answer` whole, on success and on refusal:
 *     answer[0]  number of the refusal, 0 where the call is not refused (enum fermion_refusal)
 *     answer[1]  operand of the refusal, else 0: 1 the first record, the list of terms or the text, 2 the second record,
 *                3 the bra or the basis, 4 the ket, 0 none of them
 *     answer[2]  place of the refusal, counted from 0, else 0
 *     answer[3]  length in bytes of what stands in `out`, 0 where there is no output or a refusal
 *     answer[4]  branches (product family) or rows (mul_cmpnts), 0 elsewhere and on refusal
 *     answer[5], answer[6], answer[7]  the call's own values, named below; 0 where unused and on refusal
 *   A signed value stands there as its two's complement. On a refusal everything else that is lent for writing is
 *   zero; only a report and a shelf, which a call reads and changes, are then left as they were.
 *
 * - Refusals are named below in the order in which they are looked for; the first that applies is given. "The record"
 *   means MALFORMED for the whole; then for each term in turn WORD_OUTSIDE, OUT_OF_ORDER, ZERO_COEFF; then TOO_HEAVY.
 *
 * - `out` holds the result in its first answer[3] bytes and zeros after them, `work` is all zero after every call. It
 *   does not matter what they held before. What is only read is never changed; and nobody else changes it, or a
 *   shelf, while the call runs, no thread and no process: memory that a tenant can still write to is copied first.
 *
 * - A slice is a pointer and then a length in elements. Records, texts, `shelf`, `out` and `work` may start at any
 *   address; what points to uint64_t, int64_t or double is aligned for it. The records of one call may be the same
 *   memory (A times A); nothing that is lent for writing overlaps anything else: a record that is put on a shelf does
 *   not lie on it, nor does the output of a copy from it. A slice of length 0 may be a null pointer: nothing is read or
 *   written through it, since the compiled code assumes nothing of a slice's pointer and reaches only elements below
 *   the length; the tests pass null for every slice, on both kinds of machine. `answer`, `matrix`, `value` and `report`
 *   are never null.
 *
 * - It allocates no memory, keeps nothing between calls and has no data of its own to write to: calls from many
 *   threads at once are safe, each on its own `answer`, `out`, `work`, `matrix`, `value`, `report` and `shelf`; what is
 *   only read may be shared, and so may a shelf while all calls on it are fermion_shelf_get. It takes no lock and makes
 *   no system call. The library needs memcpy and memset, and nothing else.
 *
 * - It needs at most FERMION_MAX_STACK bytes of stack, whatever the input. The most that was measured is 7,168, for a
 *   product in which 18 modes branch; with all the work that a process can address it would be less than 14,000. The
 *   loader's own need is not counted, where a program binds its calls only when they are first made.
 */
#ifndef FERMION_H
#define FERMION_H
#include <stddef.h>
#include <stdint.h>

#define FERMION_VERSION "0.1.0"

#define FERMION_MAX_MODES 64                             /* modes of a record, at least 1 */
#define FERMION_MAX_TERMS 2048                           /* terms of a record, and entries of a list of float terms */
#define FERMION_MAX_RECORD 49184                         /* bytes of the longest record, 32 + 24 * FERMION_MAX_TERMS */
#define FERMION_ROW 24                                   /* bytes of a row: one term of a product */
#define FERMION_MAX_WEIGHT UINT64_C(1152921504606846976) /* 2^60: sum of a record's coefficients' magnitudes */
#define FERMION_MAX_BASIS 8                              /* words of a matrix' basis */
#define FERMION_REPORT 201                               /* numbers of a report */
#define FERMION_MAX_REPORTED 1024                        /* records that a report counts, refused ones among them */
#define FERMION_MAX_LADDERS 12                           /* ladders of a line of text that is imported */
#define FERMION_MAX_TEXT 1048576                         /* bytes, 2^20: no exported text is longer */
#define FERMION_SHELF 65536                              /* bytes of a shelf */
#define FERMION_HALF 32768                               /* bytes of a party's half of it */
#define FERMION_SLOTS 16                                 /* slots of a half */
#define FERMION_MAX_STACK 16384                          /* bytes of stack that a call needs */

/* answer[0]. docs/RECORD.md has each in full. */
enum fermion_refusal {
    FERMION_OK = 0,                  /* not refused */
    FERMION_MALFORMED = 1,           /* header, length, modes (1 to 64), terms (up to 2,048) or lengths of lists */
    FERMION_WORD_OUTSIDE = 2,        /* a word of a term, or a mode of a line, is outside the modes */
    FERMION_OUT_OF_ORDER = 3,        /* a term does not stand above the one before it */
    FERMION_ZERO_COEFF = 4,          /* a coefficient is zero */
    FERMION_TOO_HEAVY = 5,           /* the weight is above 2^60 */
    FERMION_MODES_DIFFER = 6,        /* the mode counts of the two records differ */
    FERMION_ROWS_DO_NOT_FIT = 7,     /* the rows, 24 bytes each, do not fit into the work or the output */
    FERMION_PRODUCT_TOO_HEAVY = 8,   /* the product of the two weights, or what the lines may weigh, is above 2^60 */
    FERMION_RESULT_TOO_HEAVY = 9,    /* the weight of the result is above 2^60 */
    FERMION_TOO_MANY_TERMS = 10,     /* the result has more than 2,048 terms */
    FERMION_OUTPUT_TOO_SHORT = 11,   /* the output is shorter than the record or the text of the result */
    FERMION_OCCUPATION_OUTSIDE = 12, /* a bra, a ket or a basis word is outside the modes */
    FERMION_NOT_FINITE = 13,         /* a float coefficient or a running sum is not finite */
    FERMION_BAD_BASIS = 14,          /* the basis has more than 8 words, or a word twice */
    FERMION_BAD_REPORT = 15,         /* the report counts 1,024 records, or one of its numbers is above its limit */
    FERMION_BAD_LINE = 16,           /* a line breaks the grammar of ladder text */
    FERMION_TOO_MANY_LADDERS = 17,   /* a line has more than 12 ladders */
    FERMION_NO_SUCH_PARTY = 18,      /* the party is not 0 or 1 */
    FERMION_DAMAGED_HALF = 19,       /* the party's half of the shelf is damaged, or the shelf is not 65,536 bytes */
    FERMION_NO_FREE_SLOT = 20,       /* the party has no free slot */
    FERMION_NO_GAP = 21,             /* no gap of the party's half is long enough for the record */
    FERMION_NO_SUCH_SLOT = 22        /* the slot is empty or unknown */
};

/* answer[6] of fermion_apply where a term gives Zero; answer[7] is the lowest such mode. */
enum fermion_blocked {
    FERMION_MISSING = 1, /* an annihilated mode is missing from the ket */
    FERMION_OCCUPIED = 2 /* none is missing, and a created mode is still occupied once the annihilated ones are removed */
};

#ifdef __cplusplus
extern "C" {
#endif

/* One term {cre|ann} on one occupation word. [5] 1 applied: [6] the new word, [7] 1 where the sign is minus. [5] 0
 * Zero: [6] what blocked it (enum fermion_blocked), [7] the mode. Refusals: none. */
void fermion_apply(uint64_t cre, uint64_t ann, uint64_t ket, uint64_t answer[8]);

/* The rows of one product L R, FERMION_ROW bytes each: annihilation word, creation word, coefficient (1 or -1).
 * [4] the rows. Refusals: ROWS_DO_NOT_FIT, into `out`. A product without rows is never refused. */
void fermion_mul_cmpnts(uint64_t l_cre, uint64_t l_ann, uint64_t r_cre, uint64_t r_ann,
                        uint8_t *out, size_t out_len, uint64_t answer[8]);

/* The record's own check. [5] modes, [6] terms, [7] weight. Refusals: the record (operand 1). */
void fermion_check(const uint8_t *a, size_t a_len, uint64_t answer[8]);

/* The sum a + b and the difference a - b. Refusals: a (operand 1), b (operand 2), MODES_DIFFER, TOO_MANY_TERMS,
 * RESULT_TOO_HEAVY, OUTPUT_TOO_SHORT. An output of FERMION_MAX_RECORD bytes is never too short. */
void fermion_add(const uint8_t *a, size_t a_len, const uint8_t *b, size_t b_len,
                 uint8_t *out, size_t out_len, uint64_t answer[8]);
void fermion_sub(const uint8_t *a, size_t a_len, const uint8_t *b, size_t b_len,
                 uint8_t *out, size_t out_len, uint64_t answer[8]);

/* The branches of the products a b ([4]) and b a ([5]), exactly, without memory: a work of FERMION_ROW * [4] bytes
 * is enough for fermion_mul, one of FERMION_ROW * ([4] + [5]) for fermion_commutator and fermion_anticommutator.
 * Refusals: a (operand 1), b (operand 2), MODES_DIFFER, ROWS_DO_NOT_FIT where FERMION_ROW * ([4] + [5]) is more
 * than 2^63. */
void fermion_branches(const uint8_t *a, size_t a_len, const uint8_t *b, size_t b_len, uint64_t answer[8]);

/* The product a b, the commutator a b - b a and the anticommutator a b + b a. The work holds one row a branch
 * during the call. [4] the branches. Refusals: a (operand 1), b (operand 2), MODES_DIFFER, PRODUCT_TOO_HEAVY,
 * ROWS_DO_NOT_FIT (into `work`), TOO_MANY_TERMS, RESULT_TOO_HEAVY, OUTPUT_TOO_SHORT. */
void fermion_mul(const uint8_t *a, size_t a_len, const uint8_t *b, size_t b_len,
                 uint8_t *work, size_t work_len, uint8_t *out, size_t out_len, uint64_t answer[8]);
void fermion_commutator(const uint8_t *a, size_t a_len, const uint8_t *b, size_t b_len,
                        uint8_t *work, size_t work_len, uint8_t *out, size_t out_len, uint64_t answer[8]);
void fermion_anticommutator(const uint8_t *a, size_t a_len, const uint8_t *b, size_t b_len,
                            uint8_t *work, size_t work_len, uint8_t *out, size_t out_len, uint64_t answer[8]);

/* The adjoint of a. Refusals: the record, OUTPUT_TOO_SHORT. */
void fermion_adjoint(const uint8_t *a, size_t a_len, uint8_t *out, size_t out_len, uint64_t answer[8]);

/* Tests and figures of one record, in [5]: 1 or 0; 1 or 0; the largest rank; the union of all words. The rank of a term
 * is the larger of its creation and annihilation counts. Refusals: the record. */
void fermion_is_hermitian(const uint8_t *a, size_t a_len, uint64_t answer[8]);
void fermion_conserves_particle_number(const uint8_t *a, size_t a_len, uint64_t answer[8]);
void fermion_max_n_body(const uint8_t *a, size_t a_len, uint64_t answer[8]);
void fermion_active_modes(const uint8_t *a, size_t a_len, uint64_t answer[8]);

/* One record counted into a report, which is handed on from call to call. A fresh report is all zero, and it counts up
 * to FERMION_MAX_REPORTED records; their order does not matter. Its numbers:
 *     report[0] accepted records, [1] refused records, [2] terms, [3] high and [4] low of the total weight, [5] the
 *     largest weight, [6 + 3 r] terms of rank r, [7 + 3 r] high and [8 + 3 r] low of their weight, r from 0 to 64
 * A summed weight is high times 2^60 plus low, low below 2^60. A refused record is no refusal of the call: it adds one
 * to report[1] and nothing else. [5] 1 where the record is accepted, 0 where it is refused; [6] the number and [7] the
 * place of the record's own refusal, both 0 where it is accepted. Refusals: BAD_REPORT where report[0] + report[1] is
 * 1,024 or more, or where of the total or of a rank the terms are above 2^21, the high is above 1,024 or the low is not
 * below 2^60; the report is then left as it was, and the record is not looked at. */
void fermion_report_add(const uint8_t *a, size_t a_len, uint64_t report[201], uint64_t answer[8]);

/* The record, on m modes, of an operator written as ladder text: the sum of all lines, each multiplied out. A line is an
 * optional minus, a number, then for each ladder one space, a mode and ^ (create) or _ (annihilate), then a line feed
 * (byte 10); the rightmost ladder acts first. A number or a mode is 0, or digits without a leading zero, of any length;
 * -0 is 0. Nothing else is a line. A text that is not empty and does not end in a line feed breaks the grammar in its
 * last line; the empty text has no lines and gives the record without terms. Refusals: MALFORMED where m is not 1 to 64
 * (operand 1); for each line in turn, the place being the line, BAD_LINE, WORD_OUTSIDE where a mode is not below m
 * (operand 1), TOO_MANY_LADDERS; then over all lines PRODUCT_TOO_HEAVY where the magnitudes of the coefficients, each
 * times 2 to the number of its ladders, sum to more than 2^60, ROWS_DO_NOT_FIT where 48 times the sum of 2 to the number
 * of ladders is more than work_len; TOO_MANY_TERMS, OUTPUT_TOO_SHORT. Both sums are exact, and lines that vanish count.
 * An output of FERMION_MAX_RECORD bytes is never too short. */
void fermion_import(uint64_t m, const uint8_t *text, size_t text_len,
                    uint8_t *work, size_t work_len, uint8_t *out, size_t out_len, uint64_t answer[8]);

/* The record as ladder text: one line a term, in the record's order, with its creations ascending and then its
 * annihilations ascending. No terms give the empty text. Importing the text under the same m gives back the record's
 * bytes, where it is not refused. Refusals: the record, OUTPUT_TOO_SHORT. An output of FERMION_MAX_TEXT bytes is never
 * too short. */
void fermion_export(const uint8_t *a, size_t a_len, uint8_t *out, size_t out_len, uint64_t answer[8]);

/* A shelf keeps the records of two parties in memory that every call is lent, FERMION_SHELF bytes: party 0 has the
 * lower FERMION_HALF of them, party 1 the upper. The first 512 bytes of a half are the entries of FERMION_SLOTS slots,
 * slot i's at byte 32 i; records stand after them. An entry is the record's place in the half and its length, 4 bytes
 * each, and 24 zero bytes; all zero means free. Bytes in no record and no entry are a gap, whatever they hold. From one
 * clear to the next, what a party is answered, what it is given and what its half holds follow from its own calls
 * alone: nothing of it depends on the other party.
 *
 * The shelf, or whatever is lent, of any length, is zeroed. This is neither party's call. Refusals: none. */
void fermion_shelf_clear(uint8_t *shelf, size_t shelf_len, uint64_t answer[8]);

/* The record is copied to the start of the lowest gap of the party's half that is long enough, and the lowest free slot
 * names it. [5] the slot. Refusals: NO_SUCH_PARTY where the party is not 0 or 1; DAMAGED_HALF where shelf_len is not
 * FERMION_SHELF, or where a used entry of the party's half has a length below 32, a place below 512, an end past 32,768,
 * a byte of its last 24 that is not zero, or bytes in common with another; the record (operand 1); NO_FREE_SLOT; NO_GAP.
 * The other half is not looked at. */
void fermion_shelf_put(uint8_t *shelf, size_t shelf_len, uint64_t party,
                       const uint8_t *a, size_t a_len, uint64_t answer[8]);

/* A copy of the record in a slot of a party, as it stands there: it is not checked again. Refusals: NO_SUCH_PARTY,
 * DAMAGED_HALF, NO_SUCH_SLOT, OUTPUT_TOO_SHORT. An output of FERMION_HALF bytes is never too short. */
void fermion_shelf_get(const uint8_t *shelf, size_t shelf_len, uint64_t party, uint64_t slot,
                       uint8_t *out, size_t out_len, uint64_t answer[8]);

/* The record in a slot of a party and the slot's entry are zeroed: the slot is free, and its room a gap. Refusals:
 * NO_SUCH_PARTY, DAMAGED_HALF, NO_SUCH_SLOT. */
void fermion_shelf_drop(uint8_t *shelf, size_t shelf_len, uint64_t party, uint64_t slot, uint64_t answer[8]);

/* The stretch of the creation column for one annihilation word: [5] its offset in the record's bytes, [6] its
 * length in bytes; both 0 for the empty part: no such word, a word outside the modes, or a record that isn't
 * accepted, which fermion_check tells. Refusals: none. */
void fermion_block(const uint8_t *a, size_t a_len, uint64_t ann, uint64_t answer[8]);

/* [5] the exact element between bra and ket, signed (cast it to int64_t). Refusals: the record, OCCUPATION_OUTSIDE
 * for the bra (operand 3), OCCUPATION_OUTSIDE for the ket (operand 4). */
void fermion_element(const uint8_t *a, size_t a_len, uint64_t bra, uint64_t ket, uint64_t answer[8]);

/* matrix[8 * i + j] is the element at bra basis[i], ket basis[j]; all others are 0. Refusals: the record;
 * BAD_BASIS for more than FERMION_MAX_BASIS words; OCCUPATION_OUTSIDE for each word in turn; BAD_BASIS for a
 * repeat (all operand 3). */
void fermion_mat_ortho_projected(const uint8_t *a, size_t a_len, const uint64_t *basis, size_t basis_len,
                                 int64_t matrix[64], uint64_t answer[8]);

/* [5] 1 equal, 0 different; [6] the bra and [7] the ket at which the elements differ, 0 where equal. Refusals: a
 * (operand 1), b (operand 2), MODES_DIFFER. */
void fermion_compare(const uint8_t *a, size_t a_len, const uint8_t *b, size_t b_len, uint64_t answer[8]);

/* Float elements of a list of terms on m modes: value[0] re, value[1] im (plus zero for a real). Entry i of every
 * list belongs to term i; the lists have one length, 0 to FERMION_MAX_TERMS. Refusals: MALFORMED (operand 1); for
 * each term in turn WORD_OUTSIDE, NOT_FINITE (operand 1); OCCUPATION_OUTSIDE for the bra (3), for the ket (4);
 * while summing, NOT_FINITE (operand 1). */
void fermion_mat_elem_real(uint64_t m, const uint64_t *cre, size_t cre_len, const uint64_t *ann, size_t ann_len,
                           const double *coeff, size_t coeff_len, uint64_t bra, uint64_t ket,
                           double value[2], uint64_t answer[8]);
void fermion_mat_elem_complex(uint64_t m, const uint64_t *cre, size_t cre_len, const uint64_t *ann, size_t ann_len,
                              const double *re, size_t re_len, const double *im, size_t im_len,
                              uint64_t bra, uint64_t ket, double value[2], uint64_t answer[8]);

#ifdef __cplusplus
}
#endif
#endif
