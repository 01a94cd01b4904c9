/* Ladder text, in and out: how long it takes, for each byte of it, and how that grows with the text. Every line is the median
 * of several runs. Started by bench/text.sh.
 *
 *   text LIBRARY */
#define _POSIX_C_SOURCE 200809L
#include "fermion.h"
#include <dlfcn.h>
#include <stdio.h>
#include <stdlib.h>
#include <string.h>
#include <time.h>

enum { TEXT = 1 << 21, TURNS = 9, NEAR = 8, PAIRS = 6 }; /* NEAR modes give at most 784 terms, so that no text has too many */
static const size_t WORK = (size_t)1 << 27;

static __typeof__(fermion_import) *import;
static __typeof__(fermion_export) *export;
static uint8_t text[TEXT], record[FERMION_MAX_RECORD], exported[FERMION_MAX_TEXT], *work;
static size_t text_len, record_len, work_len;
static uint64_t modes = 64, answer[8], seed = 20270104;

static uint64_t next(void) /* splitmix64 */
{
    uint64_t z = seed += 0x9E3779B97F4A7C15;
    z = (z ^ z >> 30) * 0xBF58476D1CE4E5B9;
    z = (z ^ z >> 27) * 0x94D049BB133111EB;
    return z ^ z >> 31;
}

static void *find(void *handle, const char *name)
{
    void *found = handle == NULL ? NULL : dlsym(handle, name);
    if (found == NULL) {
        fprintf(stderr, "%s\n", dlerror());
        exit(1);
    }
    return found;
}

/* The lines of the text at hand. */

static void begin(void) { text_len = work_len = 0; }

static void put(const char *format, unsigned long long number)
{
    text_len += (size_t)sprintf((char *)text + text_len, format, number);
}

static void end_line(int ladders)
{
    text[text_len++] = '\n';
    work_len += (size_t)48 << ladders;
}

/* two creations and two annihilations on a few modes; in the order of a term, or with the annihilations first */
static void two_body(int turned)
{
    put(next() % 2 ? "-%llu" : "%llu", next() % 1000000 + 1);
    for (int i = 0; i < 4; i++)
        put((i < 2) != turned ? " %llu^" : " %llu_", 7 * (next() % NEAR));
    end_line(4);
}

/* 12 ladders, of which all 6 modes branch: each beside its own, or all annihilations before all creations */
static void branching(int apart)
{
    put("%llu", 1);
    for (unsigned i = 0; i < 2 * PAIRS; i++)
        put((apart ? i >= PAIRS : i % 2) ? " %llu^" : " %llu_", apart ? i % PAIRS : i / 2);
    end_line(2 * PAIRS);
}

static void digits(size_t n)
{
    text[text_len++] = '9';
    memset(text + text_len, '7', n - 1);
    text_len += n - 1;
}

/* Times. */

static double now(void)
{
    struct timespec t;
    clock_gettime(CLOCK_MONOTONIC, &t);
    return (double)t.tv_sec * 1e9 + (double)t.tv_nsec;
}

typedef void run_of(void);
static void run_import(void) { import(modes, text, text_len, work, work_len, record, sizeof record, answer); }
static void run_export(void) { export(record, record_len, exported, sizeof exported, answer); }

/* nanoseconds of one call, over at least a millisecond */
static double once(run_of *run)
{
    long calls = 0;
    double began = now(), passed;
    do {
        run();
        calls++;
        passed = now() - began;
    } while (passed < 1e6);
    return passed / (double)calls;
}

static int by_size(const void *x, const void *y)
{
    double a = *(const double *)x, b = *(const double *)y;
    return a < b ? -1 : a > b;
}

static void line(const char *call, const char *on, run_of *run)
{
    double times[TURNS], bytes;
    for (int i = 0; i < TURNS; i++)
        times[i] = once(run);
    qsort(times, TURNS, sizeof times[0], by_size);
    bytes = (double)(run == run_export ? answer[3] : text_len);
    printf("| `fermion_%s` | %s", call, on);
    if (answer[0] != 0)
        printf(", refused with %d", (int)answer[0]);
    printf(" | %.0f | %.1f us | %.2f ns | %.1f MB |\n", bytes, times[TURNS / 2] / 1e3, times[TURNS / 2] / bytes,
           bytes * 1e3 / times[TURNS / 2]);
}

static void import_line(const char *on)
{
    char said[128];
    if (work_len > WORK) {
        fprintf(stderr, "a text of this program needs %zu bytes of work\n", work_len);
        exit(1);
    }
    snprintf(said, sizeof said, "%s; work %zu", on, work_len);
    line("import", said, run_import);
}

/* Lines of two-body products, 1 KB to 1 MB of them. */
static void growth(int turned, const char *on)
{
    for (size_t bytes = 1 << 10; bytes <= 1 << 20; bytes *= 4) {
        for (begin(); text_len < bytes;)
            two_body(turned);
        import_line(on);
    }
}

/* Lines that branch most; 85 are the most that a work of 2^24 bytes holds. */
static void ladders(void)
{
    static const int counts[] = {1, 10, 85};
    for (int i = 0; i < 6; i++) {
        char on[64];
        begin();
        for (int j = 0; j < counts[i / 2]; j++)
            branching(i % 2);
        snprintf(on, sizeof on, "12 ladders a line, %d of them, pairs %s", counts[i / 2], i % 2 ? "apart" : "side by side");
        import_line(on);
    }
}

/* Long numbers, which are refused: a coefficient once all is read, a mode at its line. */
static void numbers(void)
{
    for (size_t n = 10; n <= 100000; n *= 10) {
        begin();
        digits(n);
        end_line(0);
        import_line("a coefficient of this length");
    }
    for (size_t n = 10; n <= 100000; n *= 10) {
        begin();
        put("%llu ", 1);
        digits(n);
        text[text_len++] = '^';
        end_line(1);
        import_line("a mode of this length");
    }
    for (begin(); text_len < 1 << 20;)
        put("%llu", 0), end_line(0);
    import_line("lines that are 0");
}

static void write_u64(uint8_t *to, uint64_t number, int bytes)
{
    for (int i = 0; i < bytes; i++)
        to[i] = (uint8_t)(number >> 8 * i);
}

/* n terms: of these modes in both words but for those of a number, which each term has another of */
static void fill_record(size_t n, uint64_t word, int shift, uint64_t coeff)
{
    const uint64_t header[8] = {1, 64, n, 32, 32 + 8 * n, 32 + 16 * n, 32 + 24 * n, 0};
    for (int i = 0; i < 8; i++)
        write_u64(record + 4 * i, header[i], 4);
    for (size_t i = 0; i < n; i++) {
        write_u64(record + 32 + 8 * i, word ^ (uint64_t)(word >> 63 ? n - 1 - i : i) << shift, 8);
        write_u64(record + 32 + 8 * (n + i), word, 8);
        write_u64(record + 32 + 8 * (2 * n + i), coeff, 8);
    }
    record_len = header[6];
}

static void exports(void)
{
    for (begin(); text_len < 1 << 17;)
        two_body(0);
    run_import();
    record_len = answer[3];
    line("export", "two-body terms, an output of 2^20 bytes", run_export);
    fill_record(2048, 3, 20, 5);
    line("export", "2,048 terms of few modes, an output of 2^20 bytes", run_export);
    for (size_t n = 2; n <= 2048; n *= 4) {
        fill_record(n, UINT64_MAX, 20, (uint64_t)-(INT64_C(1) << 49));
        line("export", "terms of nearly all modes, an output of 2^20 bytes", run_export);
    }
}

int main(int argc, char **argv)
{
    if (argc != 2) {
        fprintf(stderr, "usage: text LIBRARY\n");
        return 2;
    }
    void *handle = dlopen(argv[1], RTLD_NOW | RTLD_LOCAL);
    *(void **)&import = find(handle, "fermion_import");
    *(void **)&export = find(handle, "fermion_export");
    work = calloc(WORK, 1);
    if (work == NULL)
        return 1;
    printf("| Call | On | Bytes of text | Time | A byte | A second |\n|---|---|---|---|---|---|\n");
    growth(0, "two-body lines, creations first");
    growth(1, "two-body lines, annihilations first");
    ladders();
    numbers();
    exports();
    free(work);
    return 0;
}
