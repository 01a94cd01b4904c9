/* What each call of include/fermion.h costs on operators of two-body terms and on the worst input known for it, each the
 * median of several runs. Started by bench/costs.sh and bench/against.sh.
 *
 *   costs LIBRARY            the time of each call
 *   costs OLD.. -- NEW..     the mean of the old libraries' times, of the new ones', and new / old; all of them are loaded
 *                            into this one process and take turns */
#define _POSIX_C_SOURCE 200809L
#include "fermion.h"
#include <dlfcn.h>
#include <stdio.h>
#include <stdlib.h>
#include <string.h>
#include <time.h>

enum { TERMS = 2048, RECORD = 32 + 24 * TERMS, WORK = 1 << 24, MOST_LIBRARIES = 32, TURNS = 17 };
enum { BATCH = 512, IN_TURN = 16 * TERMS }; /* the most records of a batch, and the terms of all of them */

#define CALLS(X)                                                                                                            \
    X(apply) X(mul_cmpnts) X(check) X(add) X(sub) X(branches) X(mul) X(commutator) X(anticommutator) X(adjoint)             \
    X(is_hermitian) X(max_n_body) X(block) X(element) X(mat_ortho_projected) X(compare) X(mat_elem_real)
#define LATER(X) /* what an older library lacks: NULL there, and its lines are left out */                                  \
    X(report_add) X(import) X(export) X(shelf_clear) X(shelf_put) X(shelf_get) X(shelf_drop)

struct library {
#define POINTER(name) __typeof__(fermion_##name) *name;
    CALLS(POINTER)
    LATER(POINTER)
};

static struct library libraries[MOST_LIBRARIES];
static int n_libraries, n_old;                /* n_old: the first of them, 0 where nothing is compared */
static const struct library *lib = libraries; /* the one that is called */

struct term {
    uint64_t cre, ann;
    int64_t coeff;
};

static uint8_t one[RECORD], two[RECORD], out[RECORD], work[WORK];
static size_t one_len, two_len;
static uint64_t words[2][TERMS], answer[8], report[FERMION_REPORT];
static uint8_t batch[32 * BATCH + 24 * IN_TURN]; /* records that are looked at in turn, so that no branch is learnt by heart */
static uint8_t *batched[BATCH];
static size_t batch_len[BATCH];
static int n_batch;
static uint64_t batch_words[IN_TURN / TERMS][2][TERMS]; /* their words, of the longest records */
static double floats[TERMS], value[2];
static uint8_t text[FERMION_MAX_TEXT];
static size_t text_len;
static uint8_t shelf[FERMION_SHELF], entry[32]; /* and the entry of slot 0 of party 0, where the record is */
static int64_t matrix[64];
static uint64_t seed = 20261115;

static void load(const char *path)
{
    void *handle = dlopen(path, RTLD_NOW | RTLD_LOCAL);
    if (handle == NULL || n_libraries == MOST_LIBRARIES) {
        fprintf(stderr, "%s\n", handle == NULL ? dlerror() : "too many libraries");
        exit(1);
    }
    struct library *l = &libraries[n_libraries++];
#define FIND_LATER(name) *(void **)&l->name = dlsym(handle, "fermion_" #name);
#define FIND(name)                                                                                                          \
    FIND_LATER(name)                                                                                                        \
    if (l->name == NULL) {                                                                                                  \
        fprintf(stderr, "%s has no fermion_%s\n", path, #name);                                                             \
        exit(1);                                                                                                            \
    }
    CALLS(FIND)
    LATER(FIND_LATER)
}

static uint64_t next(void) /* splitmix64 */
{
    uint64_t z = seed += 0x9E3779B97F4A7C15;
    z = (z ^ z >> 30) * 0xBF58476D1CE4E5B9;
    z = (z ^ z >> 27) * 0x94D049BB133111EB;
    return z ^ z >> 31;
}

static uint64_t two_modes(unsigned m)
{
    unsigned p = next() % m, q = next() % (m - 1);
    return UINT64_C(1) << p | UINT64_C(1) << (q < p ? q : q + 1);
}

static int by_words(const void *x, const void *y)
{
    const struct term *t = x, *u = y;
    if (t->ann != u->ann)
        return t->ann < u->ann ? -1 : 1;
    return t->cre < u->cre ? -1 : t->cre > u->cre;
}

static void put(uint8_t *to, uint64_t number, int bytes)
{
    for (int i = 0; i < bytes; i++)
        to[i] = (uint8_t)(number >> 8 * i);
}

/* the record of terms that are all different */
static size_t record_of(uint8_t *to, unsigned m, struct term *terms, size_t n)
{
    const uint64_t header[8] = {1, m, n, 32, 32 + 8 * n, 32 + 16 * n, 32 + 24 * n, 0};
    qsort(terms, n, sizeof *terms, by_words);
    for (int i = 0; i < 8; i++)
        put(to + 4 * i, header[i], 4);
    for (size_t i = 0; i < n; i++) {
        put(to + 32 + 8 * i, terms[i].ann, 8);
        put(to + 32 + 8 * (n + i), terms[i].cre, 8);
        put(to + 32 + 8 * (2 * n + i), (uint64_t)terms[i].coeff, 8);
    }
    lib->check(to, 32 + 24 * n, answer);
    if (answer[0] != 0) {
        fprintf(stderr, "a record of this program is refused with %d\n", (int)answer[0]);
        exit(1);
    }
    return 32 + 24 * n;
}

static size_t two_body(uint8_t *to, unsigned m, size_t n)
{
    static struct term terms[TERMS];
    for (size_t i = 0; i < n;) {
        struct term t = {two_modes(m), two_modes(m), (int64_t)(next() % 9) + 1};
        size_t j = 0;
        while (j < i && (terms[j].ann != t.ann || terms[j].cre != t.cre))
            j++;
        if (j == i)
            terms[i++] = t;
    }
    return record_of(to, m, terms, n);
}

/* terms {w|w}, or {|w} or {w|}, w being all modes but at most two */
static size_t nearly_all(uint8_t *to, size_t most, int creates, int annihilates)
{
    static struct term terms[TERMS];
    size_t n = 0;
    for (unsigned p = 0; p < 64 && n < most; p++)
        for (unsigned q = p; q < 64 && n < most; q++) {
            uint64_t w = ~(UINT64_C(1) << p | UINT64_C(1) << q);
            terms[n++] = (struct term){creates ? w : 0, annihilates ? w : 0, 1};
        }
    return record_of(to, 64, terms, n);
}

/* n different terms {|w}, w on 32 modes from `from` on */
static size_t annihilating(uint8_t *to, unsigned from, size_t n)
{
    static struct term terms[TERMS];
    for (size_t i = 0; i < n;) {
        uint64_t w = (next() & 0xFFFFFFFF) << from;
        size_t j = 0;
        while (j < i && terms[j].ann != w)
            j++;
        if (j == i)
            terms[i++] = (struct term){0, w, 1};
    }
    return record_of(to, 64, terms, n);
}

/* terms of random words on all modes, so of many ranks; that two of them are alike is not to be feared */
static size_t any_words(uint8_t *to, size_t n)
{
    static struct term terms[TERMS];
    for (size_t i = 0; i < n; i++)
        terms[i] = (struct term){next(), next(), (int64_t)(next() % 9) + 1};
    return record_of(to, 64, terms, n);
}

/* n different terms {p|q} on 64 modes */
static size_t one_body(uint8_t *to, size_t n)
{
    static struct term terms[TERMS];
    for (size_t i = 0; i < n;) {
        struct term t = {UINT64_C(1) << next() % 64, UINT64_C(1) << next() % 64, 1};
        size_t j = 0;
        while (j < i && (terms[j].ann != t.ann || terms[j].cre != t.cre))
            j++;
        if (j == i)
            terms[i++] = t;
    }
    return record_of(to, 64, terms, n);
}

/* terms {w|w} of random words on all modes */
static size_t any_diagonal(uint8_t *to, size_t n)
{
    static struct term terms[TERMS];
    for (size_t i = 0; i < n; i++) {
        uint64_t w = next();
        terms[i] = (struct term){w, w, 1};
    }
    return record_of(to, 64, terms, n);
}

/* terms of random words, alike but for the first three modes, of which each word has whichever */
static size_t alike_but_three(uint8_t *to, size_t n)
{
    static struct term terms[TERMS];
    for (size_t i = 0; i < n; i++) {
        uint64_t w = next() << 3;
        terms[i] = (struct term){w | next() % 8, w | next() % 8, 1};
    }
    return record_of(to, 64, terms, n);
}

static double now(void)
{
    struct timespec t;
    clock_gettime(CLOCK_MONOTONIC, &t);
    return (double)t.tv_sec * 1e9 + (double)t.tv_nsec;
}

typedef void run_of(void);

/* nanoseconds of one call, over at least a millisecond */
static double once(run_of *run)
{
    long calls = 0;
    double began = now(), passed;
    do {
        run();
        calls++;
        passed = now() - began;
    } while (passed < 1e6);
    return passed / (double)calls;
}

static uint64_t bra, ket, basis[8], kets[1000];
static size_t work_len;

static void run_apply(void)
{
    for (int i = 0; i < 1000; i++)
        lib->apply(words[0][i], words[1][i], ket, answer);
    answer[0] = 0; /* that a term gives Zero is no refusal */
}
static void run_apply_each(void)
{
    for (int i = 0; i < 1000; i++)
        lib->apply(words[0][i], words[1][i], kets[i], answer);
    answer[0] = 0;
}
static void run_mul_cmpnts(void) { lib->mul_cmpnts(bra, ket, ket, bra, work, work_len, answer); }
static void run_check(void) { lib->check(one, one_len, answer); }
static void run_add(void) { lib->add(one, one_len, two, two_len, out, RECORD, answer); }
static void run_sub(void) { lib->sub(one, one_len, two, two_len, out, RECORD, answer); }
static void run_mul(void) { lib->mul(one, one_len, two, two_len, work, work_len, out, RECORD, answer); }
static void run_commutator(void) { lib->commutator(one, one_len, two, two_len, work, work_len, out, RECORD, answer); }
static void run_anticommutator(void)
{
    lib->anticommutator(one, one_len, two, two_len, work, work_len, out, RECORD, answer);
}
static void run_branches(void) { lib->branches(one, one_len, two, two_len, answer); }
static void run_adjoint(void) { lib->adjoint(one, one_len, out, RECORD, answer); }
static void run_is_hermitian(void) { lib->is_hermitian(one, one_len, answer); }
static void run_max_n_body(void) { lib->max_n_body(one, one_len, answer); }
static void run_batch_check(void)
{
    for (int i = 0; i < n_batch; i++)
        lib->check(batched[i], batch_len[i], answer);
}
static void run_batch_report(void)
{
    if (report[0] + report[1] + n_batch > FERMION_MAX_REPORTED) /* it has no room for them: one batch in some begins afresh */
        memset(report, 0, sizeof report);
    for (int i = 0; i < n_batch; i++)
        lib->report_add(batched[i], batch_len[i], report, answer);
}
static void run_batch_element(void)
{
    for (int i = 0; i < n_batch; i++)
        lib->element(batched[i], batch_len[i], kets[i], kets[i], answer);
}
static void run_batch_mat_elem(void)
{
    for (int i = 0; i < n_batch; i++)
        lib->mat_elem_real(64, batch_words[i][0], TERMS, batch_words[i][1], TERMS, floats, TERMS, kets[i], kets[i], value, answer);
}
static void run_batch_matrix(void)
{
    for (int i = 0; i < n_batch; i++)
        lib->mat_ortho_projected(batched[i], batch_len[i], kets + 8 * i, 8, matrix, answer);
}
static void run_import(void) { lib->import(64, text, text_len, work, work_len, out, RECORD, answer); }
static void run_export(void) { lib->export(one, one_len, text, sizeof text, answer); }
static void run_shelf_clear(void) { lib->shelf_clear(shelf, sizeof shelf, answer); }
static void run_shelf_put(void) /* its slot is free again; what stands in its room is not judged */
{
    memset(shelf, 0, sizeof entry);
    lib->shelf_put(shelf, sizeof shelf, 0, one, one_len, answer);
}
static void run_shelf_get(void) { lib->shelf_get(shelf, sizeof shelf, 0, 0, out, RECORD, answer); }
static void run_shelf_drop(void) /* its slot is used again */
{
    memcpy(shelf, entry, sizeof entry);
    lib->shelf_drop(shelf, sizeof shelf, 0, 0, answer);
}
static void run_block(void) { lib->block(one, one_len, ket, answer); }
static void run_element(void) { lib->element(one, one_len, bra, ket, answer); }
static void run_matrix(void) { lib->mat_ortho_projected(one, one_len, basis, 8, matrix, answer); }
static void run_compare(void) { lib->compare(one, one_len, two, two_len, answer); }
static void run_mat_elem(void)
{
    lib->mat_elem_real(64, words[0], TERMS, words[1], TERMS, floats, TERMS, bra, ket, value, answer);
}

static void show(double ns)
{
    if (ns < 1e3)
        printf(" %.1f ns |", ns);
    else if (ns < 1e6)
        printf(" %.1f us |", ns / 1e3);
    else
        printf(" %.1f ms |", ns / 1e6);
}

/* the mean of these libraries' medians */
static double mean(double times[][TURNS], int from, int to)
{
    double sum = 0;
    for (int i = from; i < to; i++)
        sum += times[i][TURNS / 2];
    return sum / (to - from);
}

static int by_size(const void *x, const void *y)
{
    double a = *(const double *)x, b = *(const double *)y;
    return a < b ? -1 : a > b;
}

/* The time of each library, the median of its turns; `calls` of the call make one run. Every other turn goes backwards, so
 * that no library always comes after the same one. The least of the turns would say more of the branch predictor than of
 * the code: for a call of 3 ns it is 2.2 ns in the turns in which one library happens to be remembered whole. */
static void line(const char *call, const char *on, run_of *run, int calls)
{
    double times[MOST_LIBRARIES][TURNS];
    for (int turn = 0; turn < TURNS; turn++)
        for (int k = 0; k < n_libraries; k++) {
            int i = turn % 2 ? n_libraries - 1 - k : k;
            lib = &libraries[i];
            times[i][turn] = once(run) / calls;
        }
    lib = libraries;
    for (int i = 0; i < n_libraries; i++)
        qsort(times[i], TURNS, sizeof times[i][0], by_size);
    printf("| `fermion_%s` | %s%s |", call, on, answer[0] ? ", refused" : "");
    if (n_old) {
        double old = mean(times, 0, n_old), new = mean(times, n_old, n_libraries);
        show(old), show(new);
        printf(" %.2f |\n", new / old);
    } else {
        show(times[0][TURNS / 2]);
        printf("\n");
    }
}

static void columns_of(const uint8_t *record, uint64_t to[2][TERMS])
{
    for (size_t i = 0; i < TERMS; i++) {
        memcpy(&to[1][i], record + 32 + 8 * i, 8);
        memcpy(&to[0][i], record + 32 + 8 * (TERMS + i), 8);
        floats[i] = 1.0 / (double)(i + 1);
    }
}

/* The makers of a batch's records. */
typedef size_t maker(uint8_t *to, size_t n);
static size_t two_body_16(uint8_t *to, size_t n) { return two_body(to, 16, n); }
static size_t two_body_32(uint8_t *to, size_t n) { return two_body(to, 32, n); }
static size_t two_body_64(uint8_t *to, size_t n) { return two_body(to, 64, n); }
static size_t all_but_two(uint8_t *to, size_t n) { return nearly_all(to, n, 1, 1); }
static size_t with_zero(uint8_t *to, size_t n, size_t place) /* refused, since the coefficient of one term is zero */
{
    size_t len = two_body(to, 64, n);
    put(to + 32 + 8 * (2 * n + place), 0, 8);
    return len;
}
static size_t last_zero(uint8_t *to, size_t n) { return with_zero(to, n, n - 1); }
static size_t first_zero(uint8_t *to, size_t n) { return with_zero(to, n, 0); }
static size_t too_few_modes(uint8_t *to, size_t n) /* refused at one of the first terms, since the header has two modes */
{
    size_t len = two_body(to, 64, n);
    put(to + 4, 2, 4);
    return len;
}

static void make_batch(size_t n, maker *make)
{
    uint8_t *to = batch;
    n_batch = n > IN_TURN / BATCH ? (int)(IN_TURN / n) : BATCH;
    for (int i = 0; i < n_batch; i++) {
        batched[i] = to;
        to += batch_len[i] = make(to, n);
    }
}

/* The checks of a batch, and the report that counts it, where every library has it. */
static void count_batch(size_t n, const char *of, maker *make)
{
    char on[128];
    int all = 1;
    make_batch(n, make);
    snprintf(on, sizeof on, "%d records in turn, %s", n_batch, of);
    for (int i = 0; i < n_libraries; i++)
        all = all && libraries[i].report_add != NULL;
    line("check", on, run_batch_check, n_batch);
    memset(report, 0, sizeof report);
    if (all)
        line("report_add", on, run_batch_report, n_batch);
}

static void count_batches(void)
{
    count_batch(TERMS, "2,048 two-body terms, 16 modes", two_body_16);
    count_batch(TERMS, "2,048 two-body terms, 32 modes", two_body_32);
    count_batch(TERMS, "2,048 two-body terms, 64 modes", two_body_64);
    count_batch(1024, "1,024 two-body terms, 64 modes", two_body_64);
    count_batch(256, "256 two-body terms, 64 modes", two_body_64);
    count_batch(64, "64 two-body terms, 64 modes", two_body_64);
    count_batch(0, "no terms", two_body_64);
    count_batch(TERMS, "2,048 two-body terms, 64 modes, the last of them zero", last_zero);
    count_batch(TERMS, "2,048 two-body terms, 64 modes, the first of them zero", first_zero);
    count_batch(TERMS, "2,048 two-body terms, 64 modes, the header has 2", too_few_modes);
    count_batch(TERMS, "2,048 terms of random words, 64 modes", any_words);
    count_batch(TERMS, "2,048 terms {w\\|w} of 62 or 63 modes", all_but_two);
}

/* Elements of a batch of the longest records, each on eight kets of its own. */
static void elements_in_turn(const char *on, maker *make)
{
    make_batch(TERMS, make);
    for (int i = 0; i < n_batch; i++)
        columns_of(batched[i], batch_words[i]);
    line("element", on, run_batch_element, n_batch);
    line("mat_elem_real", on, run_batch_mat_elem, n_batch);
    line("mat_ortho_projected", on, run_batch_matrix, n_batch);
}

static void all_elements_in_turn(void)
{
    for (int i = 0; i < 1000; i++)
        kets[i] = next();
    elements_in_turn("16 records in turn, 2,048 one-body terms, 64 modes, drawn kets", one_body);
    for (int i = 0; i < 1000; i++)
        kets[i] = UINT64_MAX ^ (i % 8 ? UINT64_C(1) << i % 64 : 0);
    elements_in_turn("16 records in turn, 2,048 terms {w\\|w} of random words, nearly all modes occupied", any_diagonal);
    for (int i = 0; i < 1000; i++)
        kets[i] = UINT64_MAX << 3 | (uint64_t)(i % 8);
    elements_in_turn("16 records in turn, 2,048 terms of random words, alike but for three modes, all others occupied", alike_but_three);
}

static void read_one(const char *on)
{
    columns_of(one, words);
    line("apply", on, run_apply, 1000);
    line("check", on, run_check, 1);
    line("max_n_body", on, run_max_n_body, 1);
    line("block", on, run_block, 1);
    line("is_hermitian", on, run_is_hermitian, 1);
    line("adjoint", on, run_adjoint, 1);
    line("element", on, run_element, 1);
    line("mat_elem_real", on, run_mat_elem, 1);
    line("mat_ortho_projected", on, run_matrix, 1);
}

/* Terms of two-body records on kets that they act on, then on the empty word and on the full one, which block nearly all. */
static void apply_each(void)
{
    for (int i = 0; i < 1000; i++)
        kets[i] = (ket | words[1][i]) & ~(words[0][i] & ~words[1][i]);
    line("apply", "two-body terms, 64 modes, that act", run_apply_each, 1000);
    memset(kets, 0, sizeof kets);
    line("apply", "two-body terms, 64 modes, a mode is missing", run_apply_each, 1000);
    memset(kets, 255, sizeof kets);
    line("apply", "two-body terms, 64 modes, a mode is occupied", run_apply_each, 1000);
}

/* The record as text, and, where that is named, back from the text. */
static void through_text(const char *out_on, const char *in_on)
{
    for (int i = 0; i < n_libraries; i++)
        if (libraries[i].import == NULL || libraries[i].export == NULL)
            return;
    line("export", out_on, run_export, 1);
    run_export();
    text_len = answer[3];
    if (in_on != NULL)
        line("import", in_on, run_import, 1);
}

/* Lines of 12 ladders whose 6 modes all branch, as many as a work of 2^24 bytes holds. */
static void branching_lines(void)
{
    for (int i = 0; i < n_libraries; i++)
        if (libraries[i].import == NULL)
            return;
    text_len = 0;
    for (int i = 0; i < 85; i++)
        text_len += (size_t)sprintf((char *)text + text_len, "1 %d_ 0_ 1_ 2_ 3_ 4_ %d^ 0^ 1^ 2^ 3^ 4^\n", 5 + i % 50, 5 + i % 50);
    line("import", "85 lines of 12 ladders, 64 terms each, a work of 2^24 bytes", run_import, 1);
}

/* The record on a shelf: put, got and dropped, first alone, then with 15 short ones below it, which leave no gap for it. */
static void on_shelf(const char *alone, const char *with_others)
{
    for (int i = 0; i < n_libraries; i++)
        if (libraries[i].shelf_put == NULL)
            return;
    line("shelf_clear", "a shelf", run_shelf_clear, 1);
    for (unsigned others = 0; others < FERMION_SLOTS; others += FERMION_SLOTS - 1) {
        for (unsigned i = 1; i <= others; i++) {
            put(shelf + 32 * i, 480 + 64 * (FERMION_SLOTS - i), 4);
            put(shelf + 32 * i + 4, 32, 4);
        }
        line("shelf_put", others ? with_others : alone, run_shelf_put, 1);
        memcpy(entry, shelf, sizeof entry);
        line("shelf_get", others ? with_others : alone, run_shelf_get, 1);
        line("shelf_drop", others ? with_others : alone, run_shelf_drop, 1);
    }
}

static void merge_two(const char *on)
{
    line("compare", on, run_compare, 1);
    line("add", on, run_add, 1);
    line("sub", on, run_sub, 1);
}

static void multiply_two(const char *on)
{
    line("branches", on, run_branches, 1);
    line("mul", on, run_mul, 1);
    line("commutator", on, run_commutator, 1);
    line("anticommutator", on, run_anticommutator, 1);
}

static void load_all(int argc, char **argv)
{
    for (int i = 1; i < argc; i++)
        if (strcmp(argv[i], "--") == 0)
            n_old = n_libraries;
        else
            load(argv[i]);
    if (n_libraries == n_old || (n_old == 0 && n_libraries != 1)) {
        fprintf(stderr, "usage: costs LIBRARY, or costs OLD.. -- NEW..\n");
        exit(2);
    }
    printf(n_old ? "| Call | On | Old | New | New / old |\n|---|---|---|---|---|\n" : "| Call | On | Time |\n|---|---|---|\n");
}

int main(int argc, char **argv)
{
    load_all(argc, argv);
    work_len = 65520;
    ket = 0x5555555555555555, bra = ket;
    for (int i = 0; i < 8; i++)
        basis[i] = UINT64_C(0x5555555555555555) ^ UINT64_C(3) << 2 * i;
    one_len = two_body(one, 64, TERMS);
    read_one("2,048 two-body terms, 64 modes");
    apply_each();
    work_len = WORK;
    through_text("2,048 two-body terms, 64 modes", "2,048 two-body lines, 64 modes, a work of 2^24 bytes");
    work_len = 65520;
    memcpy(two, one, two_len = one_len);
    merge_two("2,048 two-body terms each, alike");
    one_len = two_body(one, 64, 1024), two_len = two_body(two, 64, 1024);
    merge_two("1,024 two-body terms each, different ones");
    on_shelf("1,024 two-body terms, an empty half", "1,024 two-body terms, 15 others");
    one_len = two_body(one, 64, 30), two_len = two_body(two, 64, 30);
    on_shelf("30 two-body terms, an empty half", "30 two-body terms, 15 others");
    merge_two("30 two-body terms each, 64 modes");
    multiply_two("30 two-body terms each, 64 modes, a work of 65,520 bytes");

    ket = UINT64_MAX, bra = ket;
    for (int i = 0; i < 8; i++)
        basis[i] = UINT64_MAX ^ (i ? UINT64_C(1) << 8 * i : 0);
    one_len = nearly_all(one, TERMS, 1, 1);
    memcpy(two, one, two_len = one_len);
    read_one("worst: 2,048 terms {w\\|w} of 62 or 63 modes");
    through_text("worst: 2,048 terms {w\\|w} of 62 or 63 modes", NULL);
    merge_two("worst: these twice");
    multiply_two("worst: these twice, a work of 65,520 bytes");
    work_len = WORK;
    one_len = nearly_all(one, TERMS, 1, 0), two_len = nearly_all(two, TERMS, 1, 0);
    multiply_two("2,048 terms {w\\|} each, all products empty, a work of 2^24 bytes");
    struct term diagonal[835];
    for (unsigned i = 0; i < 835; i++)
        diagonal[i] = (struct term){i, i, 1};
    one_len = record_of(one, 10, diagonal, 835);
    memcpy(two, one, two_len = one_len);
    line("mul", "697,225 rows in a work of 2^24 bytes, many alike", run_mul, 1);
    one_len = nearly_all(one, 835, 1, 1), two_len = nearly_all(two, 835, 1, 1);
    line("mul", "697,225 rows in a work of 2^24 bytes, most of them the last of all", run_mul, 1);
    one_len = annihilating(one, 0, TERMS), two_len = annihilating(two, 32, 341);
    line("mul", "698,368 rows, all different, a work of 2^24 bytes", run_mul, 1);
    one_len = record_of(one, 19, (struct term[]){{0, (1 << 19) - 1, 1}}, 1);
    two_len = record_of(two, 19, (struct term[]){{(1 << 19) - 1, 0, 1}}, 1);
    line("mul", "524,288 rows, all different, a work of 2^24 bytes", run_mul, 1);
    bra = 0, ket = (1 << 19) - 1;
    line("mul_cmpnts", "524,288 rows", run_mul_cmpnts, 1);
    bra = 3, ket = 12;
    line("mul_cmpnts", "two two-body terms, 4 rows, an output of 2^24 bytes", run_mul_cmpnts, 1);
    work_len = 96;
    line("mul_cmpnts", "two two-body terms, 4 rows, an output of 96 bytes", run_mul_cmpnts, 1);

    work_len = WORK;
    branching_lines();
    all_elements_in_turn();
    count_batches();
    return 0;
}
