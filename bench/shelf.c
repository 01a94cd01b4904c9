/* The shelf: how long its calls take, for each byte of a record, and how that grows with the records that a half holds. Every
 * line is the median of several runs. Started by bench/shelf.sh.
 *
 *   shelf LIBRARY */
#define _POSIX_C_SOURCE 200809L
#include "fermion.h"
#include <dlfcn.h>
#include <stdio.h>
#include <stdlib.h>
#include <string.h>
#include <time.h>

enum { ENTRY = 32, FIRST = ENTRY * FERMION_SLOTS, LARGEST = 1342, TURNS = 9, IN_TURN = 64, LONGER = 1 << 20 };

static __typeof__(fermion_shelf_clear) *clear;
static __typeof__(fermion_shelf_put) *put;
static __typeof__(fermion_shelf_get) *get;
static __typeof__(fermion_shelf_drop) *drop;
static uint8_t shelves[IN_TURN][FERMION_SHELF]; /* called on in turn, so that no branch is learnt by heart */
static uint8_t entries[IN_TURN][ENTRY];         /* of the record that is put, on each of them */
static uint8_t record[FERMION_MAX_RECORD], lent[LONGER];
static size_t record_len, lent_len;
static int n_shelves;
static unsigned slot; /* the one that is put, got and dropped */
static uint64_t answer[8], seed = 20270211;

static uint64_t next(void) /* splitmix64 */
{
    uint64_t z = seed += 0x9E3779B97F4A7C15;
    z = (z ^ z >> 30) * 0xBF58476D1CE4E5B9;
    z = (z ^ z >> 27) * 0x94D049BB133111EB;
    return z ^ z >> 31;
}

static void *find(void *handle, const char *name)
{
    void *found = handle == NULL ? NULL : dlsym(handle, name);
    if (found == NULL) {
        fprintf(stderr, "%s\n", dlerror());
        exit(1);
    }
    return found;
}

static void write_number(uint8_t *to, uint64_t number, int bytes)
{
    for (int i = 0; i < bytes; i++)
        to[i] = (uint8_t)(number >> 8 * i);
}

/* n terms with drawn creation words */
static void make_record(size_t n)
{
    const uint64_t header[8] = {1, 64, n, 32, 32 + 8 * n, 32 + 16 * n, 32 + 24 * n, 0};
    for (int i = 0; i < 8; i++)
        write_number(record + 4 * i, header[i], 4);
    for (size_t i = 0; i < n; i++) {
        write_number(record + 32 + 8 * i, i << 20, 8);
        write_number(record + 32 + 8 * (n + i), next(), 8);
        write_number(record + 32 + 8 * (2 * n + i), next() % 9 + 1, 8);
    }
    record_len = header[6];
}

/* How the records of a half stand: the slots in order of place, the other way round, or drawn. */
enum order { ASCENDING, DESCENDING, DRAWN };

/* 15 records of 32 bytes in all slots but the last, with gaps of the same length, which leave the rest of the half; or none */
static void lay_out(uint8_t *half, int filled, enum order order)
{
    unsigned at[FERMION_SLOTS - 1];
    memset(half, 0, FERMION_HALF);
    for (unsigned i = 0; filled && i < FERMION_SLOTS - 1; i++)
        at[i] = FIRST + 32 + 64 * (order == DESCENDING ? FERMION_SLOTS - 2 - i : i);
    for (unsigned i = 0; filled && i < FERMION_SLOTS - 1; i++) {
        unsigned j = order == DRAWN ? i + next() % (FERMION_SLOTS - 1 - i) : i, start = at[j];
        at[j] = at[i];
        write_number(half + ENTRY * i, start, 4);
        write_number(half + ENTRY * i + 4, 32, 4);
    }
}

/* `count` shelves whose upper half is laid out so, and whose lower half is none */
static void prepare(int count, int filled, enum order order)
{
    n_shelves = count;
    slot = filled ? FERMION_SLOTS - 1 : 0;
    for (int i = 0; i < count; i++) {
        memset(shelves[i], 255, FERMION_HALF);
        lay_out(shelves[i] + FERMION_HALF, filled, order);
    }
}

/* Runs. A put finds its slot free and its room as the last put left it, which nothing judges; a drop finds the slot used. */

static uint8_t *entry_on(int i) { return shelves[i] + FERMION_HALF + ENTRY * slot; }

typedef void run_of(void);
static void run_clear(void) { clear(lent, lent_len, answer); }
static void run_put(void)
{
    for (int i = 0; i < n_shelves; i++) {
        memset(entry_on(i), 0, ENTRY);
        put(shelves[i], FERMION_SHELF, 1, record, record_len, answer);
    }
}
static void run_get(void)
{
    for (int i = 0; i < n_shelves; i++)
        get(shelves[i], FERMION_SHELF, 1, slot, lent, lent_len, answer);
}
static void run_drop(void)
{
    for (int i = 0; i < n_shelves; i++) {
        memcpy(entry_on(i), entries[i], ENTRY);
        drop(shelves[i], FERMION_SHELF, 1, slot, answer);
    }
}

static double now(void)
{
    struct timespec t;
    clock_gettime(CLOCK_MONOTONIC, &t);
    return (double)t.tv_sec * 1e9 + (double)t.tv_nsec;
}

/* nanoseconds of one run, over at least a millisecond */
static double once(run_of *run)
{
    long runs = 0;
    double began = now(), passed;
    do {
        run();
        runs++;
        passed = now() - began;
    } while (passed < 1e6);
    return passed / (double)runs;
}

static int by_size(const void *x, const void *y)
{
    double a = *(const double *)x, b = *(const double *)y;
    return a < b ? -1 : a > b;
}

static void line(const char *call, const char *on, size_t bytes, run_of *run)
{
    double times[TURNS], one;
    for (int i = 0; i < TURNS; i++)
        times[i] = once(run) / (run == run_clear ? 1 : n_shelves);
    qsort(times, TURNS, sizeof times[0], by_size);
    one = times[TURNS / 2];
    printf("| `fermion_shelf_%s` | %s", call, on);
    if (answer[0] != 0)
        printf(", refused with %d", (int)answer[0]);
    printf(" | %zu | %.1f ns | %.2f ns |\n", bytes, one, one / (double)bytes);
}

/* The record put, got with an output of its length and a longer one, and dropped. */
static void through(const char *on)
{
    char longer[128];
    line("put", on, record_len, run_put);
    if (answer[0] != 0)
        return;
    for (int i = 0; i < n_shelves; i++)
        memcpy(entries[i], entry_on(i), ENTRY);
    lent_len = record_len;
    line("get", on, record_len, run_get);
    lent_len = FERMION_HALF;
    snprintf(longer, sizeof longer, "%s, an output of 32,768 bytes", on);
    line("get", longer, record_len, run_get);
    line("drop", on, record_len, run_drop);
}

static void growth(int count, int filled, const char *on)
{
    static const size_t terms[] = {0, 2, 20, 200, 1250, LARGEST};
    for (size_t i = 0; i < sizeof terms / sizeof terms[0] - (filled != 0); i++) { /* the largest fits an empty half alone */
        make_record(terms[i]);
        prepare(count, filled, DRAWN);
        through(on);
    }
}

/* A short record that fits no gap but the last; and what is refused late: after all entries, after the whole record. */
static void worst(void)
{
    make_record(2);
    prepare(1, 1, ASCENDING);
    line("put", "15 others, in order of place", record_len, run_put);
    prepare(1, 1, DESCENDING);
    line("put", "15 others, in the opposite order", record_len, run_put);
    shelves[0][FERMION_HALF + ENTRY * slot - 1] = 1;
    line("put", "15 others, a byte of the last entry is not zero", record_len, run_put);
    make_record(FERMION_MAX_TERMS);
    prepare(1, 1, DESCENDING);
    line("put", "the longest record, 15 others", record_len, run_put);
    write_number(record + record_len - 8, 0, 8);
    line("put", "the longest record, its last coefficient zero, 15 others", record_len, run_put);
}

int main(int argc, char **argv)
{
    if (argc != 2) {
        fprintf(stderr, "usage: shelf LIBRARY\n");
        return 2;
    }
    void *handle = dlopen(argv[1], RTLD_NOW | RTLD_LOCAL);
    *(void **)&clear = find(handle, "fermion_shelf_clear");
    *(void **)&put = find(handle, "fermion_shelf_put");
    *(void **)&get = find(handle, "fermion_shelf_get");
    *(void **)&drop = find(handle, "fermion_shelf_drop");
    printf("| Call | On | Bytes | Time | A byte |\n|---|---|---|---|---|\n");
    for (lent_len = 1 << 12; lent_len <= LONGER; lent_len *= 16)
        line("clear", lent_len == FERMION_SHELF ? "a shelf" : "so many bytes", lent_len, run_clear);
    growth(1, 0, "an empty half");
    growth(IN_TURN, 1, "64 shelves in turn, 15 others in a drawn order");
    worst();
    return 0;
}
