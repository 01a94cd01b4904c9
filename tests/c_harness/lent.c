/* A function with every kind of argument, for check_harness.py. It does what the model there says; then, where `mask` is not
 * 0, it changes one byte, at `place` of the memory that `which` names, inside or outside. It leaves the memory that `left`
 * names as it was; of the output and the answer what is to be zero. */
#include <stddef.h>
#include <stdint.h>
#include <string.h>

enum { A, B, WORDS, REPORT, SHELF, OUT, TABLE, ANSWER }; /* which, and left */

void harness_all(const uint8_t *a, size_t a_len, const uint8_t *b, size_t b_len, const uint64_t *words, size_t words_len,
                 uint64_t report[201], uint8_t *shelf, size_t shelf_len, uint8_t *out, size_t out_len, uint64_t table[3],
                 uint64_t which, uint64_t place, uint64_t mask, uint64_t left, uint64_t answer[8])
{
    uint8_t *at[] = {(uint8_t *)a,     (uint8_t *)b, (uint8_t *)words, (uint8_t *)report,
                     (uint8_t *)shelf, out,          (uint8_t *)table, (uint8_t *)answer};
    size_t copied = a_len < out_len ? a_len : out_len;
    for (size_t i = 0; left != REPORT && i < words_len && i < 200; i++) /* the last is not touched */
        report[i] += words[i];
    for (size_t i = 0; left != SHELF && i < b_len && i + 1 < shelf_len; i++)
        shelf[i] ^= b[i];
    if (left != OUT)
        memset(out, 0, out_len);
    memcpy(out, a, copied);
    if (left != TABLE)
        table[0] = a_len, table[1] = b_len, table[2] = words_len;
    if (left != ANSWER)
        memset(answer, 0, 64);
    answer[3] = copied;
    answer[5] = a == b;
    answer[6] = ((uintptr_t)words | (uintptr_t)report | (uintptr_t)table | (uintptr_t)answer) % 8;
    if (mask)
        at[which][(ptrdiff_t)place] ^= (uint8_t)mask;
}
