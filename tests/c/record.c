/* The record: written, read and checked as the specification lays it out. */
#include "plain.h"
#include <string.h>

static void write_little(uint8_t *to, uint64_t number, int bytes)
{
    for (int i = 0; i < bytes; i++)
        to[i] = (uint8_t)(number >> 8 * i);
}

static uint64_t read_little(const uint8_t *from, int bytes)
{
    uint64_t number = 0;
    for (int i = 0; i < bytes; i++)
        number |= (uint64_t)from[i] << 8 * i;
    return number;
}

void write_u64(uint8_t *to, uint64_t number)
{
    write_little(to, number, 8);
}

static void write_header(uint8_t *to, uint64_t m, uint64_t n)
{
    const uint64_t fields[8] = {1, m, n, HEADER, HEADER + 8 * n, HEADER + 16 * n, HEADER + ROW * n, 0};
    for (int i = 0; i < 8; i++)
        write_little(to + 4 * i, fields[i], 4);
}

/* the record of these terms as they stand, and its length: nothing is checked, sorted or joined */
size_t encode(uint8_t *to, const struct terms *t)
{
    write_header(to, t->m, t->n);
    for (size_t i = 0; i < t->n; i++) {
        uint8_t *entry = to + HEADER + 8 * i;
        write_u64(entry, t->at[i].ann);
        write_u64(entry + 8 * t->n, t->at[i].cre);
        write_u64(entry + 16 * t->n, (uint64_t)t->at[i].c);
    }
    return HEADER + ROW * t->n;
}

static bool header_is_right(struct bytes record)
{
    uint8_t right[HEADER];
    if (record.len < HEADER)
        return false;
    uint64_t m = read_little(record.at + 4, 4), n = read_little(record.at + 8, 4);
    if (m < 1 || m > 64 || n > MAX_TERMS || record.len != HEADER + ROW * n)
        return false;
    write_header(right, m, n);
    return memcmp(right, record.at, HEADER) == 0;
}

static void read_terms(struct terms *to, struct bytes record)
{
    size_t n = read_little(record.at + 8, 4);
    to->m = (unsigned)read_little(record.at + 4, 4);
    to->n = 0;
    for (size_t i = 0; i < n; i++) {
        const uint8_t *entry = record.at + HEADER + 8 * i;
        int64_t c = (int64_t)read_little(entry + 16 * n, 8);
        put(to, read_little(entry, 8), read_little(entry + 8 * n, 8), c);
    }
}

static bool ascends(const struct term *x, const struct term *y)
{
    return x->ann != y->ann ? x->ann < y->ann : x->cre < y->cre;
}

struct answer refused(uint64_t number, uint64_t operand, uint64_t place)
{
    return (struct answer){{number, operand, place}};
}

/* Reads the terms of a record, or says why not: 1; then per term 2, 3, 4; then 5. */
bool accepted(struct answer *why_not, struct bytes record, uint64_t operand, struct terms *to)
{
    *why_not = refused(1, operand, 0);
    if (!header_is_right(record))
        return false;
    read_terms(to, record);
    for (size_t i = 0; i < to->n; i++) {
        const struct term *t = &to->at[i];
        uint64_t number = outside(t->ann, to->m) || outside(t->cre, to->m) ? 2
                          : i > 0 && !ascends(t - 1, t)                    ? 3
                          : t->c == 0                                      ? 4
                                                                           : 0;
        *why_not = refused(number, operand, i);
        if (number != 0)
            return false;
    }
    *why_not = refused(5, operand, 0);
    return weight(to) <= MAX_WEIGHT;
}
