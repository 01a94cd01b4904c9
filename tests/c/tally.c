/* How often each function was compared and gave each number, and which numbers it can give. */
#include "test.h"
#include <stdio.h>

enum { NUMBERS = 15, OPERANDS = 5 };
#define N(number) (1u << (number))
#define RECORD (N(1) | N(2) | N(3) | N(4) | N(5))
#define RESULT (N(6) | N(9) | N(10) | N(11))
#define ONE N(0), RECORD
#define LISTS N(0), N(1) | N(2) | N(13), 0, N(12), N(12)
#define FUNCTION(id, name, either, ...) [id] = {#name, {__VA_ARGS__}, either},

static const struct {
    const char *name;
    unsigned can[OPERANDS]; /* by operand, the numbers that can occur; 0 is no refusal */
    bool yes_or_no;         /* [5] may be 0 or not: Zero or applied, no or yes, nothing or something */
} face[FUNCTIONS] = {FACE(FUNCTION)};

static struct {
    long compared, differ, met[OPERANDS][NUMBERS], value[2]; /* answers not refused whose [5] is 0, and others */
} tally[FUNCTIONS];

static struct lent numbers; /* the answer of the call at hand */

uint64_t *lend_answer(void)
{
    return (uint64_t *)lend_aligned(&numbers, 64);
}

static void print_answer(const char *what, const uint64_t n[8])
{
    printf("  %s:", what);
    for (int i = 0; i < 8; i++)
        printf(" %llu", (unsigned long long)n[i]);
    printf("\n");
}

/* the first of a function is shown */
static void fault(enum face f, const char *what)
{
    if (tally[f].differ++ == 0) {
        printf("%s: comparison %ld: %s\n", face[f].name, tally[f].compared, what);
        print_answer("got", (const uint64_t *)(numbers.whole + numbers.start));
        print_answer("right", (const uint64_t *)(numbers.right + numbers.start));
    }
}

/* One call has been made: its answer, and whether everything else that it was lent is as it must be. */
void judge(enum face f, const struct answer *right, bool rest_is_right)
{
    must_hold(&numbers, right->n, 64);
    tally[f].compared++;
    if (!holds(&numbers))
        fault(f, "another answer");
    else if (!rest_is_right)
        fault(f, "a buffer, a guard or what is only read was left otherwise");
    else {
        tally[f].met[right->n[1]][right->n[0]]++;
        tally[f].value[right->n[5] != 0] += right->n[0] == 0;
    }
}

/* A boundary input must come to what it was made for, so that it cannot miss its boundary unseen. */
void must(enum face f, bool so)
{
    if (!so)
        fault(f, "the input just compared is not at the boundary that it was made for");
}

void require(enum face f, const struct answer *right, uint64_t number, uint64_t operand, uint64_t place)
{
    must(f, right->n[0] == number && right->n[1] == operand && right->n[2] == place);
}

static long met(int f, int number)
{
    long sum = 0;
    for (int operand = 0; operand < OPERANDS; operand++)
        sum += tally[f].met[operand][number];
    return sum;
}

static bool can(int f, int number)
{
    unsigned all = 0;
    for (int operand = 0; operand < OPERANDS; operand++)
        all |= face[f].can[operand];
    return all & N(number);
}

/* one function's part of a table, '-' where the number cannot occur; a 0 is a failure */
static void print_row(int f, int from, int to, int operand)
{
    printf("%-34s", face[f].name);
    for (int number = from; number <= to; number++) {
        bool possible = operand < 0 ? can(f, number) : (face[f].can[operand] & N(number)) != 0;
        long count = operand < 0 ? met(f, number) : tally[f].met[operand][number];
        if (possible)
            printf("%8ld", count);
        else
            printf("%8s", count ? "?" : "-");
    }
    printf("\n");
}

static void print_head(const char *title, int from, int to)
{
    printf("%s\n%-34s", title, "");
    for (int number = from; number <= to; number++)
        printf("%8d", number);
    printf("\n");
}

static void print_tables(void)
{
    print_head("calls by number, 0 where not refused, '-' where it cannot occur:", 0, NUMBERS - 1);
    for (int f = 0; f < FUNCTIONS; f++)
        print_row(f, 0, NUMBERS - 1, -1);
    print_head("of these, by the second record:", 1, 5);
    for (int f = 0; f < FUNCTIONS; f++)
        if (face[f].can[2])
            print_row(f, 1, 5, 2);
    print_head("of these, by the ket:", 12, 12);
    for (int f = 0; f < FUNCTIONS; f++)
        if (face[f].can[4])
            print_row(f, 12, 12, 4);
    printf("of those not refused, by answer[5]:\n%-34s%8s%8s\n", "", "0", "not 0");
    for (int f = 0; f < FUNCTIONS; f++)
        if (face[f].yes_or_no)
            printf("%-34s%8ld%8ld\n", face[f].name, tally[f].value[0], tally[f].value[1]);
}

/* every number that can occur was met at its operand, and no other; and not always the same answer */
static bool all_met(int f)
{
    bool right = !face[f].yes_or_no || (tally[f].value[0] > 0 && tally[f].value[1] > 0);
    for (int operand = 0; operand < OPERANDS; operand++)
        for (int number = 0; number < NUMBERS; number++)
            right = right && (tally[f].met[operand][number] > 0) == ((face[f].can[operand] & N(number)) != 0);
    return right;
}

/* Two tests a function: nothing differs in at least CASES comparisons, and every number that can occur was met. */
void report(int *passed, int *failed)
{
    print_tables();
    for (int f = 0; f < FUNCTIONS; f++) {
        bool same = tally[f].differ == 0 && tally[f].compared >= CASES, every = all_met(f);
        printf("%s: %ld compared, %ld differ; %s\n", face[f].name, tally[f].compared, tally[f].differ,
               every ? "every number that can occur was met" : "NUMBERS MISSED");
        *passed += same + every;
        *failed += !same + !every;
    }
}
