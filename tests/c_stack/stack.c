/* How much stack each function of the C face needs, and what it does with a null pointer and length 0.
 *
 * A call runs on a stack of its own that was painted before; how much of the paint is gone afterwards is what it needed.
 * There is no header of the C library here, so that this can be compiled for x86-64 where only the library itself is. */
#include "fermion.h"
#include "against.h" /* creation words in an order made against the sort: against_128, against_2048 */

int printf(const char *format, ...);
void *calloc(size_t count, size_t size);
void free(void *memory);

#define BOUND FERMION_MAX_STACK
#define SPACE ((size_t)1 << 18)
#define PAINT 0xA5
#define MOST_BRANCHING 42 /* modes: 24 * 2^43 bytes is more than a process can address (2^47) */
#define MOST_DEPTH 48     /* of the sort, on that many rows: the bits of their number, and 5 */

static _Alignas(64) unsigned char space[SPACE];
static unsigned passed, failed;

static void on_own_stack(void (*call)(void))
{
    unsigned char *top = space + SPACE;
#if defined(__x86_64__)
    __asm__ volatile("movq %%rsp, %%rbx\n\tmovq %0, %%rsp\n\tcall *%1\n\tmovq %%rbx, %%rsp"
                     : "+r"(top), "+r"(call)
                     :
                     : "rax", "rbx", "rcx", "rdx", "rsi", "rdi", "r8", "r9", "r10", "r11", "memory", "cc", "xmm0", "xmm1",
                       "xmm2", "xmm3", "xmm4", "xmm5", "xmm6", "xmm7", "xmm8", "xmm9", "xmm10", "xmm11", "xmm12", "xmm13",
                       "xmm14", "xmm15");
#elif defined(__aarch64__)
    __asm__ volatile("mov x19, sp\n\tmov sp, %0\n\tblr %1\n\tmov sp, x19"
                     : "+r"(top), "+r"(call)
                     :
                     : "x0", "x1", "x2", "x3", "x4", "x5", "x6", "x7", "x8", "x9", "x10", "x11", "x12", "x13", "x14", "x15",
                       "x16", "x17", "x18", "x19", "x30", "memory", "cc", "v0", "v1", "v2", "v3", "v4", "v5", "v6", "v7", "v8",
                       "v9", "v10", "v11", "v12", "v13", "v14", "v15", "v16", "v17", "v18", "v19", "v20", "v21", "v22", "v23",
                       "v24", "v25", "v26", "v27", "v28", "v29", "v30", "v31");
#else
#error "this machine's stack is not known here"
#endif
}

static size_t used_by(void (*call)(void))
{
    size_t i;
    for (i = 0; i < SPACE; i++)
        space[i] = PAINT;
    on_own_stack(call);
    for (i = 0; i < SPACE && space[i] == PAINT; i++)
        ;
    return SPACE - i;
}

/* The operands of the next call. They are not static, so that the compiler counts on it that the jump above reads them. */
uint8_t a[FERMION_MAX_RECORD], b[FERMION_MAX_RECORD], out[FERMION_MAX_RECORD], *work;
size_t a_len, b_len, work_len, lists;
uint64_t answer[8], cre[FERMION_MAX_TERMS], ann[FERMION_MAX_TERMS], basis[8];
uint64_t report[FERMION_REPORT], full_report[FERMION_REPORT] = {FERMION_MAX_REPORTED};
int64_t matrix[64];
double re[FERMION_MAX_TERMS], im[FERMION_MAX_TERMS], value[2];
uint8_t text[FERMION_MAX_TEXT], exported[FERMION_MAX_TEXT], *lines_work;
size_t text_len, lines_work_len;
uint8_t shelf[FERMION_SHELF];

static void put(uint8_t *at, uint64_t number, int length)
{
    for (int i = 0; i < length; i++)
        at[i] = (uint8_t)(number >> 8 * i);
}

/* a record on m modes with the words cre[] and ann[] and coefficients 1 */
static size_t record(uint8_t *to, uint64_t m, size_t n)
{
    const uint64_t header[8] = {1, m, n, 32, 32 + 8 * n, 32 + 16 * n, 32 + 24 * n, 0};
    for (int i = 0; i < 8; i++)
        put(to + 4 * i, header[i], 4);
    for (size_t i = 0; i < n; i++) {
        put(to + 32 + 8 * i, ann[i], 8);
        put(to + 32 + 8 * n + 8 * i, cre[i], 8);
        put(to + 32 + 16 * n + 8 * i, 1, 8);
    }
    return 32 + 24 * n;
}

static size_t with_order(uint8_t *to, const uint64_t *order, size_t n)
{
    for (size_t i = 0; i < n; i++) {
        ann[i] = i;
        cre[i] = order[i];
    }
    return record(to, 64, n);
}

static void no_lines(void)
{
    text_len = lines_work_len = 0;
    free(lines_work);
    lines_work = 0;
}

static void put_ladder(unsigned mode, uint8_t kind)
{
    text[text_len++] = ' ';
    if (mode > 9)
        text[text_len++] = (uint8_t)('0' + mode / 10);
    text[text_len++] = (uint8_t)('0' + mode % 10);
    text[text_len++] = kind;
}

/* a line that annihilates the modes of a word, and creates those of another, with coefficient 1 */
static void put_line(uint64_t annihilated, uint64_t created)
{
    size_t rows = 1;
    text[text_len++] = '1';
    for (unsigned side = 0; side < 2; side++)
        for (unsigned mode = 0; mode < 64; mode++)
            if ((side ? created : annihilated) >> mode & 1) {
                put_ladder(mode, side ? '^' : '_');
                rows *= 2;
            }
    text[text_len++] = '\n';
    lines_work_len += 48 * rows;
}

/* a term a line, in an order made against the sort */
static void lines_in_order(const uint64_t *order, size_t n)
{
    no_lines();
    for (size_t i = 0; i < n; i++)
        put_line(order[i], 0);
    lines_work = calloc(lines_work_len, 1);
}

/* lines of 12 ladders, of which as many modes branch as can, each line on other modes than the one before */
static void branching_lines(size_t n)
{
    no_lines();
    for (size_t i = 0; i < n; i++)
        put_line((uint64_t)63 << i % 58, (uint64_t)63 << i % 58);
    lines_work = calloc(lines_work_len, 1);
}

/* {|0..k-1} and {0..k-1|}: all k modes branch in their product, none in the other order */
static void branching(unsigned k)
{
    cre[0] = 0;
    ann[0] = ((uint64_t)1 << k) - 1;
    a_len = record(a, 64, 1);
    cre[0] = ann[0];
    ann[0] = 0;
    b_len = record(b, 64, 1);
    work_len = 2 * ((size_t)24 << k);
    free(work);
    work = calloc(work_len, 1);
}

/* 2,048 terms each, in an order made against the sort, and few branches */
static void long_ones(void)
{
    a_len = with_order(a, against_2048, 2048);
    for (size_t i = 0; i < 2048; i++)
        ann[i] += 2048;
    b_len = record(b, 64, 2048);
    for (size_t i = 0; i < 2048; i++) {
        re[i] = (double)i;
        im[i] = -1.0;
    }
    for (size_t i = 0; i < 8; i++)
        basis[i] = 1023 ^ (1u << i);
    lists = 2048;
    work_len = 0;
}

/* party 1 uses all slots but the first: each record below that of the slot before it, and gaps of 32 bytes up to byte 1,472 */
static void scatter(void)
{
    for (size_t i = 0; i < FERMION_SHELF; i++)
        shelf[i] = (uint8_t)i;
    for (size_t i = 0; i < 512; i++)
        shelf[i] = shelf[FERMION_HALF + i] = 0;
    for (unsigned slot = 1; slot < FERMION_SLOTS; slot++) {
        put(shelf + FERMION_HALF + 32 * slot, 480 + 64 * (FERMION_SLOTS - slot), 4);
        put(shelf + FERMION_HALF + 32 * slot + 4, 32, 4);
    }
}

static void c_apply(void) { fermion_apply(1, 2, ~(uint64_t)0, answer); }
static void c_mul_cmpnts(void) { fermion_mul_cmpnts(0, ann[1], ann[1], 0, work, work_len, answer); }
static void c_check(void) { fermion_check(a, a_len, answer); }
static void c_add(void) { fermion_add(a, a_len, b, b_len, out, sizeof out, answer); }
static void c_sub(void) { fermion_sub(a, a_len, b, b_len, out, sizeof out, answer); }
static void c_mul(void) { fermion_mul(a, a_len, b, b_len, work, work_len, out, sizeof out, answer); }
static void c_commutator(void) { fermion_commutator(a, a_len, b, b_len, work, work_len, out, sizeof out, answer); }
static void c_anticommutator(void) { fermion_anticommutator(a, a_len, b, b_len, work, work_len, out, sizeof out, answer); }
static void c_branches(void) { fermion_branches(a, a_len, b, b_len, answer); }
static void c_adjoint(void) { fermion_adjoint(a, a_len, out, sizeof out, answer); }
static void c_is_hermitian(void) { fermion_is_hermitian(a, a_len, answer); }
static void c_conserves(void) { fermion_conserves_particle_number(a, a_len, answer); }
static void c_max_n_body(void) { fermion_max_n_body(a, a_len, answer); }
static void c_active_modes(void) { fermion_active_modes(a, a_len, answer); }
static void c_report_add(void) { fermion_report_add(a, a_len, report, answer); }
static void c_full_report(void) { fermion_report_add(a, a_len, full_report, answer); }
static void c_import(void)
{
    fermion_import(64, text, text_len, lines_work, lines_work_len, out, sizeof out, answer);
}
static void c_export(void) { fermion_export(a, a_len, exported, sizeof exported, answer); }
static void c_shelf_put(void) { fermion_shelf_put(shelf, sizeof shelf, 1, a, a_len, answer); }
static void c_shelf_get(void) { fermion_shelf_get(shelf, sizeof shelf, 1, 0, out, sizeof out, answer); }
static void c_shelf_drop(void) { fermion_shelf_drop(shelf, sizeof shelf, 1, 0, answer); }
static void c_shelf_clear(void) { fermion_shelf_clear(shelf, sizeof shelf, answer); }
static void c_block(void) { fermion_block(a, a_len, 7, answer); }
static void c_element(void) { fermion_element(a, a_len, 5, 7, answer); }
static void c_matrix(void) { fermion_mat_ortho_projected(a, a_len, basis, 8, matrix, answer); }
static void c_compare(void) { fermion_compare(a, a_len, b, b_len, answer); }
static void c_real(void) { fermion_mat_elem_real(64, cre, lists, ann, lists, re, lists, 3, 7, value, answer); }
static void c_complex(void)
{
    fermion_mat_elem_complex(64, cre, lists, ann, lists, re, lists, im, lists, 3, 7, value, answer);
}
static void nothing(void) {}

static const struct {
    const char *name;
    void (*call)(void);
} calls[] = {
    {"fermion_apply", c_apply}, {"fermion_mul_cmpnts", c_mul_cmpnts}, {"fermion_check", c_check}, {"fermion_add", c_add},
    {"fermion_sub", c_sub}, {"fermion_mul", c_mul}, {"fermion_commutator", c_commutator},
    {"fermion_anticommutator", c_anticommutator}, {"fermion_branches", c_branches}, {"fermion_adjoint", c_adjoint},
    {"fermion_is_hermitian", c_is_hermitian}, {"fermion_conserves_particle_number", c_conserves},
    {"fermion_max_n_body", c_max_n_body}, {"fermion_active_modes", c_active_modes}, {"fermion_report_add", c_report_add},
    {"fermion_report_add, a full report", c_full_report}, {"fermion_import", c_import}, {"fermion_export", c_export},
    {"fermion_shelf_put", c_shelf_put}, {"fermion_shelf_get", c_shelf_get}, {"fermion_shelf_drop", c_shelf_drop},
    {"fermion_shelf_clear", c_shelf_clear}, {"fermion_block", c_block},
    {"fermion_element", c_element}, {"fermion_mat_ortho_projected", c_matrix}, {"fermion_compare", c_compare},
    {"fermion_mat_elem_real", c_real}, {"fermion_mat_elem_complex", c_complex},
};
enum { CALLS = sizeof calls / sizeof calls[0] };

static void judge(const char *name, size_t used, size_t bound)
{
    int good = used <= bound;
    printf("%s: %zu bytes%s\n", name, used, good ? "" : ", ABOVE THE HEADER'S BOUND");
    *(good ? &passed : &failed) += 1;
}

static void expect(const char *name, int good)
{
    if (!good)
        printf("%s: NOT SO\n", name);
    *(good ? &passed : &failed) += 1;
}

static size_t max(size_t x, size_t y) { return x > y ? x : y; }

/* The most that a call used on all the inputs; and that the inputs do what they are for. */
static void measure_all(size_t most[CALLS])
{
    for (int input = 0; input < 4; input++) {
        if (input == 0) { /* nothing that is a record, and no lines */
            branching(4);
            no_lines();
            a_len = b_len = lists = 0;
        } else if (input == 1) {
            long_ones();
            lines_in_order(against_2048, 2048);
        } else {
            branching(input == 2 ? 11 : 18);
            branching_lines(input == 2 ? 1 : 30);
        }
        scatter();
        ann[1] = input > 1 ? ((uint64_t)1 << (input == 2 ? 11 : 18)) - 1 : 0;
        for (int i = 0; i < CALLS; i++)
            most[i] = max(most[i], used_by(calls[i].call));
    }
    expect("18 modes branch: the rows are all gathered and sorted", (c_mul(), answer[0] == FERMION_TOO_MANY_TERMS));
    expect("18 modes branch: the rows are all written", (c_mul_cmpnts(), answer[4] == (uint64_t)1 << 18));
    expect("30 lines of 64 terms, of which 992 differ: they are delivered", (c_import(), answer[3] == 32 + 24 * 992));
    long_ones();
    lines_in_order(against_2048, 2048);
    expect("2,048 lines: the record is delivered", (c_import(), answer[0] == 0 && answer[3] == FERMION_MAX_RECORD));
    expect("2,048 terms: the text is delivered", (c_export(), answer[0] == 0 && answer[3] > 16 * 2048));
    expect("2,048 terms: the adjoint is delivered", (c_adjoint(), answer[0] == 0 && answer[3] == FERMION_MAX_RECORD));
    expect("all but one slot used: a long record is looked through, and finds no gap",
           (scatter(), c_shelf_put(), answer[0] == FERMION_NO_GAP));
    branching(1);
    expect("all but one slot used: a record is put", (c_shelf_put(), answer[0] == 0 && answer[5] == 0));
    expect("it stands past all others", shelf[FERMION_HALF] + 256 * shelf[FERMION_HALF + 1] == 1472);
    expect("all slots used: a copy is delivered", (c_shelf_get(), answer[0] == 0 && answer[3] == 56));
    expect("all slots used: one is dropped", (c_shelf_drop(), answer[0] == 0 && shelf[FERMION_HALF] == 0));
    expect("the report counts the three records, and what is none", report[0] == 3 && report[1] == 1 && report[2] == 2050);
}

/* What one branching mode more and one level of the sort more need, and what that comes to with all the memory there can be. */
static size_t with_all_memory(void)
{
    size_t low, high, branch, level, sorted, product;
    branching(8), ann[1] = 255, low = used_by(c_mul_cmpnts);
    branching(16), ann[1] = 65535, high = used_by(c_mul_cmpnts);
    branch = (high - low) / 8;
    expect("a branching mode more needs more stack", high > low);
    product = high + (MOST_BRANCHING - 16) * branch;
    a_len = with_order(a, against_128, 128), low = used_by(c_adjoint);
    a_len = with_order(a, against_2048, 2048), sorted = used_by(c_adjoint);
    level = (sorted - low) / 4; /* the bits of 2,048 and of 128 */
    expect("a level of the sort more needs more stack", sorted > low);
    sorted += (MOST_DEPTH - 17) * level;
    branching(0), low = used_by(c_mul); /* the product's own, beside the larger of the two */
    printf("a branching mode: %zu bytes, a level of the sort: %zu bytes\n", branch, level);
    return low + max(product, sorted);
}

/* Whether the answer is this refusal with zeros after it. */
static int refused(uint64_t number, uint64_t operand)
{
    uint64_t rest = 0;
    for (int i = 2; i < 8; i++)
        rest |= answer[i];
    return answer[0] == number && answer[1] == operand && rest == 0;
}

typedef void tests(const uint8_t *, size_t, uint64_t *);
typedef void sum(const uint8_t *, size_t, const uint8_t *, size_t, uint8_t *, size_t, uint64_t *);
typedef void product(const uint8_t *, size_t, const uint8_t *, size_t, uint8_t *, size_t, uint8_t *, size_t, uint64_t *);

/* Every slice of every function as a null pointer with length 0; the answers are those of docs/RECORD.md. */
static void null_records(void)
{
    static tests *const one[] = {fermion_check, fermion_is_hermitian, fermion_conserves_particle_number, fermion_max_n_body,
                                 fermion_active_modes};
    static sum *const sums[] = {fermion_add, fermion_sub};
    static product *const products[] = {fermion_mul, fermion_commutator, fermion_anticommutator};
    size_t i;
    a_len = record(a, 64, 0);
    for (i = 0; i < 5; i++)
        expect("a record of nothing", (one[i](0, 0, answer), refused(1, 1)));
    for (i = 0; i < 2; i++) {
        expect("a sum's first record", (sums[i](0, 0, a, a_len, out, sizeof out, answer), refused(1, 1)));
        expect("a sum's second record", (sums[i](a, a_len, 0, 0, out, sizeof out, answer), refused(1, 2)));
        expect("a sum's output", (sums[i](a, a_len, a, a_len, 0, 0, answer), refused(11, 0)));
    }
    for (i = 0; i < 3; i++) {
        expect("a product's first record", (products[i](0, 0, a, a_len, 0, 0, 0, 0, answer), refused(1, 1)));
        expect("a product's second record", (products[i](a, a_len, 0, 0, 0, 0, 0, 0, answer), refused(1, 2)));
        expect("a product's output", (products[i](a, a_len, a, a_len, 0, 0, 0, 0, answer), refused(11, 0)));
        expect("a product's work", (products[i](a, a_len, a, a_len, 0, 0, out, sizeof out, answer), answer[3] == 32));
    }
    branching(1);
    for (i = 0; i < 3; i++)
        expect("a work that is needed", (products[i](a, a_len, b, b_len, 0, 0, out, sizeof out, answer), refused(7, 0)));
    expect("the branches of a first record", (fermion_branches(0, 0, a, a_len, answer), refused(1, 1)));
    expect("the branches of a second record", (fermion_branches(a, a_len, 0, 0, answer), refused(1, 2)));
    expect("a first record compared", (fermion_compare(0, 0, a, a_len, answer), refused(1, 1)));
    expect("a second record compared", (fermion_compare(a, a_len, 0, 0, answer), refused(1, 2)));
}

/* A report's record: refused with 1, and not looked at where the report is full. */
static void null_reported(void)
{
    uint64_t rest = 0;
    for (int i = 0; i < FERMION_REPORT; i++)
        report[i] = 0;
    fermion_report_add(0, 0, report, answer);
    expect("a report's record", answer[6] == 1);
    answer[6] = 0;
    expect("a report's record is no refusal of the call", refused(0, 0));
    for (int i = 0; i < FERMION_REPORT; i++)
        rest |= i == 1 ? 0 : report[i];
    expect("a report with one refused record", report[1] == 1 && rest == 0);
    expect("a full report's record", (fermion_report_add(0, 0, full_report, answer), refused(15, 0)));
    expect("a full report", full_report[0] == FERMION_MAX_REPORTED && full_report[1] == 0);
}

/* A text, its work and its output, and a record's text. */
static void null_texts(void)
{
    const uint8_t line[2] = {'1', '\n'};
    a_len = record(a, 64, 0);
    expect("a text and its output", (fermion_import(1, 0, 0, 0, 0, 0, 0, answer), refused(11, 0)));
    expect("a text on no modes", (fermion_import(0, 0, 0, 0, 0, 0, 0, answer), refused(1, 1)));
    expect("a text and its work", (fermion_import(1, 0, 0, 0, 0, out, sizeof out, answer), answer[3] == 32));
    expect("a text's work that is needed", (fermion_import(1, line, 2, 0, 0, out, sizeof out, answer), refused(7, 0)));
    expect("a text that is broken", (fermion_import(1, line, 1, 0, 0, 0, 0, answer), refused(16, 0)));
    expect("a text of no record", (fermion_export(0, 0, exported, sizeof exported, answer), refused(1, 1)));
    expect("a text of no terms", (fermion_export(a, a_len, 0, 0, answer), refused(0, 0)));
    branching(1);
    expect("a text of one term", (fermion_export(a, a_len, 0, 0, answer), refused(11, 0)));
}

/* A shelf, the record that is put, and the output of a copy. */
static void null_shelves(void)
{
    a_len = record(a, 64, 0);
    expect("nothing cleared", (fermion_shelf_clear(0, 0, answer), refused(0, 0)));
    expect("a shelf that is nothing, put", (fermion_shelf_put(0, 0, 1, a, a_len, answer), refused(19, 0)));
    expect("a shelf that is nothing, got", (fermion_shelf_get(0, 0, 1, 0, out, sizeof out, answer), refused(19, 0)));
    expect("a shelf that is nothing, dropped", (fermion_shelf_drop(0, 0, 1, 0, answer), refused(19, 0)));
    expect("no party and nothing else, put", (fermion_shelf_put(0, 0, 2, 0, 0, answer), refused(18, 0)));
    expect("no party and nothing else, got", (fermion_shelf_get(0, 0, 2, 0, 0, 0, answer), refused(18, 0)));
    expect("no party and nothing else, dropped", (fermion_shelf_drop(0, 0, 2, 0, answer), refused(18, 0)));
    scatter();
    expect("a shelf's record", (fermion_shelf_put(shelf, sizeof shelf, 1, 0, 0, answer), refused(1, 1)));
    expect("a shelf's output", (fermion_shelf_get(shelf, sizeof shelf, 1, 1, 0, 0, answer), refused(11, 0)));
    expect("a shelf's output, and an empty slot", (fermion_shelf_get(shelf, sizeof shelf, 1, 0, 0, 0, answer), refused(22, 0)));
}

static void null_others(void)
{
    int all = 1;
    expect("an adjoint's record", (fermion_adjoint(0, 0, out, sizeof out, answer), refused(1, 1)));
    expect("an adjoint's output", (fermion_adjoint(a, a_len, 0, 0, answer), refused(11, 0)));
    expect("rows that are none", (fermion_mul_cmpnts(1, 0, 1, 0, 0, 0, answer), refused(0, 0)));
    expect("rows that are two", (fermion_mul_cmpnts(0, 1, 1, 0, 0, 0, answer), refused(7, 0)));
    expect("a block's record", (fermion_block(0, 0, 1, answer), refused(0, 0)));
    expect("an element's record", (fermion_element(0, 0, 1, 1, answer), refused(1, 1)));
    expect("a matrix' record", (fermion_mat_ortho_projected(0, 0, basis, 8, matrix, answer), refused(1, 1)));
    matrix[63] = 1;
    expect("a matrix' basis", (fermion_mat_ortho_projected(a, a_len, 0, 0, matrix, answer), refused(0, 0)));
    for (int i = 0; i < 64; i++)
        all &= matrix[i] == 0;
    expect("a matrix without words", all);
    value[0] = value[1] = 1.0;
    expect("real terms", (fermion_mat_elem_real(1, 0, 0, 0, 0, 0, 0, 1, 1, value, answer), refused(0, 0)));
    expect("the real value", value[0] == 0.0 && value[1] == 0.0);
    value[0] = value[1] = 1.0;
    expect("complex terms", (fermion_mat_elem_complex(1, 0, 0, 0, 0, 0, 0, 0, 0, 1, 1, value, answer), refused(0, 0)));
    expect("the complex value", value[0] == 0.0 && value[1] == 0.0);
    expect("one list of three", (fermion_mat_elem_real(1, 0, 0, ann, 1, re, 1, 1, 1, value, answer), refused(1, 1)));
}

int main(void)
{
    static size_t most[CALLS];
    size_t empty = used_by(nothing), before;
    measure_all(most);
    printf("stack of a call, at most %d bytes by the header (a call of nothing: %zu)\n", BOUND, empty);
    for (int i = 0; i < CALLS; i++)
        judge(calls[i].name, most[i], BOUND);
    judge("any call, with as much work and output as can be addressed, worked out from those", with_all_memory(), BOUND);
    before = passed;
    null_records();
    null_reported();
    null_others();
    null_texts();
    null_shelves();
    printf("null pointers with length 0: %u answers as they should be\n", passed - (unsigned)before);
    printf("%u passed, %u failed\n", passed, failed);
    return failed != 0;
}
