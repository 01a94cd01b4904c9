/* A commutator from C: of a hop from mode 1 to mode 0 and the hop back. With the library installed by tools/install.sh:
 *
 *     cc example.c $(pkg-config --cflags --libs fermion) && ./a.out
 *
 * It prints the answer's terms, 1 {0|0} and -1 {1|1}, the words as numbers. docs/RECORD.md says what the bytes are. */
#include <fermion.h>
#include <inttypes.h>
#include <stdio.h>
#include <stdlib.h>

static void put(uint8_t *at, uint64_t number, int length) /* little-endian */
{
    for (int i = 0; i < length; i++)
        at[i] = (uint8_t)(number >> 8 * i);
}

static uint64_t get(const uint8_t *at, int length)
{
    uint64_t number = 0;
    for (int i = length; i-- > 0;)
        number = number << 8 | at[i];
    return number;
}

/* the record of one term {cre|ann} with coefficient 1, on two modes: 56 bytes */
static void one_term(uint8_t *record, uint64_t cre, uint64_t ann)
{
    const uint64_t header[8] = {1, 2, 1, 32, 40, 48, 56, 0};
    for (int i = 0; i < 8; i++)
        put(record + 4 * i, header[i], 4);
    put(record + 32, ann, 8);
    put(record + 40, cre, 8);
    put(record + 48, 1, 8);
}

static void stop_if_refused(const uint64_t answer[8], const char *what)
{
    if (answer[0] == FERMION_OK)
        return;
    fprintf(stderr, "%s: refused with %d, operand %d, place %d\n", what, (int)answer[0], (int)answer[1],
            (int)answer[2]);
    exit(1);
}

int main(void)
{
    static uint8_t hop[56], back[56], out[FERMION_MAX_RECORD];
    uint64_t answer[8];
    one_term(hop, 1, 2);  /* creates mode 0, annihilates mode 1 */
    one_term(back, 2, 1); /* and the other way round */

    fermion_branches(hop, sizeof hop, back, sizeof back, answer); /* how much work memory the commutator needs */
    stop_if_refused(answer, "the branches");
    size_t work_len = (size_t)(FERMION_ROW * (answer[4] + answer[5]));
    uint8_t *work = (uint8_t *)malloc(work_len);
    if (work == NULL && work_len > 0)
        return 1;

    fermion_commutator(hop, sizeof hop, back, sizeof back, work, work_len, out, sizeof out, answer);
    free(work); /* it is all zero: nothing of the operators is left in it */
    stop_if_refused(answer, "the commutator");

    uint64_t n = get(out + 8, 4);
    printf("fermion %s: %d bytes, %d terms\n", FERMION_VERSION, (int)answer[3], (int)n);
    for (uint64_t i = 0; i < n; i++)
        printf("%3" PRId64 " creates %" PRIu64 ", annihilates %" PRIu64 "\n",
               (int64_t)get(out + 32 + 16 * n + 8 * i, 8), get(out + 32 + 8 * n + 8 * i, 8), get(out + 32 + 8 * i, 8));
    return 0;
}
