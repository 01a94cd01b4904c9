/* The shelf: calls of both parties one after the other, with what each must answer and leave worked out by hand. */
#include "examples.h"
#include <string.h>

enum { CLEAR, PUT, GET, DROP, CALLS };

static struct tally tallies[CALLS] = {
    {"fermion_shelf_clear", 0, 0}, {"fermion_shelf_put", 0, 0}, {"fermion_shelf_get", 0, 0}, {"fermion_shelf_drop", 0, 0}};

/* a shelf and a byte more, between guards */
struct shelf {
    uint8_t before[16], bytes[FERMION_SHELF + 1], after[16];
};

static struct shelf lent, right; /* what the calls change, and what it must then be */
static size_t lent_len = FERMION_SHELF;

struct output {
    uint8_t before[16], bytes[FERMION_HALF], after[16];
};

/* What must be there. */

static void put_u32(uint8_t *to, uint32_t number)
{
    for (int i = 0; i < 4; i++)
        to[i] = (uint8_t)(number >> 8 * i);
}

static uint8_t *half(struct shelf *s, uint64_t party)
{
    return s->bytes + party * FERMION_HALF;
}

static void stands(struct shelf *s, uint64_t party, uint64_t slot, uint32_t start, uint32_t len)
{
    put_u32(half(s, party) + 32 * slot, start);
    put_u32(half(s, party) + 32 * slot + 4, len);
}

/* everything lent is garbage, and is known */
static void soil(void)
{
    for (size_t i = 0; i < sizeof lent; i++)
        ((uint8_t *)&lent)[i] = (uint8_t)next();
    right = lent;
}

/* The calls, each with the number that it must come to, and compared with all that it must leave. */

static struct guarded refused_with(uint64_t number)
{
    return answer_of(number, number >= 1 && number <= 5, 0, 0, 0, 0, 0);
}

static void same_shelf(int call, struct guarded answer, struct guarded told)
{
    same_answer(&tallies[call], answer, told);
    compare(&tallies[call], &lent, &right, sizeof lent);
}

static void clear(size_t len)
{
    struct guarded answer = dirty();
    memset(right.bytes, 0, len);
    fermion_shelf_clear(len ? lent.bytes : NULL, len, answer.answer);
    same_shelf(CLEAR, answer, refused_with(0));
}

static void put_record(uint64_t party, const uint8_t *a, size_t len, uint64_t slot, uint32_t start)
{
    struct guarded answer = dirty();
    memcpy(half(&right, party) + start, a, len);
    stands(&right, party, slot, start, (uint32_t)len);
    fermion_shelf_put(lent.bytes, lent_len, party, a, len, answer.answer);
    same_shelf(PUT, answer, answer_of(0, 0, 0, 0, slot, 0, 0));
}

static void put_refused(uint64_t party, const uint8_t *a, size_t len, uint64_t number)
{
    struct guarded answer = dirty();
    fermion_shelf_put(lent_len ? lent.bytes : NULL, lent_len, party, a, len, answer.answer);
    same_shelf(PUT, answer, refused_with(number));
}

/* an output of `room` bytes, in which so many bytes must stand, or none where it is refused */
static void get(uint64_t party, uint64_t slot, size_t room, const uint8_t *bytes, size_t len, uint64_t number)
{
    static struct output out, told;
    struct guarded answer = dirty();
    for (size_t i = 0; i < sizeof out; i++)
        ((uint8_t *)&out)[i] = (uint8_t)next();
    told = out;
    memset(told.bytes, 0, room);
    if (number == 0)
        memcpy(told.bytes, bytes, len);
    fermion_shelf_get(lent_len ? lent.bytes : NULL, lent_len, party, slot, room ? out.bytes : NULL, room, answer.answer);
    same_shelf(GET, answer, number ? refused_with(number) : answer_of(0, 0, len, 0, 0, 0, 0));
    compare(&tallies[GET], &out, &told, sizeof out);
}

static void drop(uint64_t party, uint64_t slot, uint32_t start, size_t len, uint64_t number)
{
    struct guarded answer = dirty();
    if (number == 0) {
        memset(half(&right, party) + start, 0, len);
        memset(half(&right, party) + 32 * slot, 0, 32);
    }
    fermion_shelf_drop(lent_len ? lent.bytes : NULL, lent_len, party, slot, answer.answer);
    same_shelf(DROP, answer, refused_with(number));
}

/* every call that names a party is refused with this number, whatever else it names */
static void all_refused(uint64_t party, uint64_t number)
{
    put_refused(party, example, 80, number);
    put_refused(party, example, 79, number);
    get(party, 0, 100, NULL, 0, number);
    get(party, 16, 0, NULL, 0, number);
    drop(party, 0, 0, 0, number);
    drop(party, UINT64_MAX, 0, 0, number);
}

/* Two parties, as docs/RECORD.md has it and then further. 80 bytes that two drops free one by one hold the example. */
static void two_parties(void)
{
    soil();
    clear(FERMION_SHELF);
    put_record(0, example, 80, 0, 512);
    put_record(0, none, 32, 1, 592);
    put_record(1, example, 80, 0, 512);
    put_record(0, example, 80, 2, 624);
    drop(0, 0, 512, 80, 0);
    put_record(0, none, 32, 0, 512);
    put_record(0, example, 80, 3, 704);
    put_record(0, none, 32, 4, 544);
    get(0, 3, 80, example, 80, 0);
    drop(0, 1, 592, 32, 0);
    drop(0, 4, 544, 32, 0);
    put_record(0, example, 80, 1, 544);
    get(0, 1, 81, example, 80, 0);
    get(0, 0, 99, none, 32, 0);
    get(1, 0, FERMION_HALF, example, 80, 0);
    get(0, 2, 79, NULL, 0, 11);
    get(0, 2, 0, NULL, 0, 11);
    put_refused(1, example, 79, 1);
    put_refused(1, NULL, 0, 1);
    get(0, 4, 0, NULL, 0, 22);
    get(1, 15, 80, NULL, 0, 22);
    get(1, 16, 80, NULL, 0, 22);
    drop(0, 4, 0, 0, 22);
    drop(0, 16, 0, 0, 22);
    for (int bit = 32; bit < 64; bit++) { /* 32 times 2^59 is 2^64 */
        get(0, UINT64_C(1) << bit, 80, NULL, 0, 22);
        drop(0, UINT64_C(1) << bit, 0, 0, 22);
    }
    drop(1, 0, 512, 80, 0);
    all_refused(2, 18);
    all_refused(UINT64_C(1) << 32, 18);
    all_refused(UINT64_MAX, 18);
}

/* 32 bytes are put into the lower gap, of 80, though the upper one is just as long; 16 that are left are too few */
static void lowest_gaps(void)
{
    soil();
    clear(FERMION_SHELF);
    put_record(1, example, 80, 0, 512);
    put_record(1, example, 80, 1, 592);
    put_record(1, example, 80, 2, 672);
    put_record(1, none, 32, 3, 752);
    put_record(1, example, 80, 4, 784);
    drop(1, 1, 592, 80, 0);
    drop(1, 3, 752, 32, 0);
    put_record(1, none, 32, 1, 592);
    put_record(1, none, 32, 3, 624);
    put_record(1, none, 32, 5, 752);
    put_record(1, none, 32, 6, 864);
}

/* 16 records of each party, then 20, also where there is no room; then a record that leaves none */
static void all_slots(void)
{
    static struct terms t;
    static struct record longest;
    draw_many(&t, 64, 1342); /* 32,240 of 32,256 bytes */
    write_record(&longest, &t);
    soil();
    clear(FERMION_SHELF);
    for (uint32_t i = 0; i < 2 * FERMION_SLOTS; i++)
        put_record(i % 2, none, 32, i / 2, 512 + 32 * (i / 2));
    put_refused(0, none, 32, 20);
    for (uint32_t slot = 0; slot < FERMION_SLOTS; slot++)
        drop(0, slot, 512 + 32 * slot, 32, 0);
    put_refused(1, none, 32, 20);
    put_refused(1, longest.bytes, longest.len, 20);
    put_refused(1, none, 31, 1);
    put_record(0, longest.bytes, longest.len, 0, 512);
    put_refused(0, none, 32, 21);
    get(0, 0, longest.len, longest.bytes, longest.len, 0);
    drop(1, 15, 992, 32, 0);
    put_refused(1, longest.bytes, longest.len, 21);
    put_record(1, example, 80, 15, 992);
    drop(0, 0, 512, longest.len, 0);
    draw_many(&t, 64, 1343);
    write_record(&longest, &t);
    put_refused(0, longest.bytes, longest.len, 21);
}

/* Start and length of party 0's slot 2, which is free where the start is 0, and of its slot 9. No other is used, and all else is
 * garbage: what stands there is no record, and nothing judges it. */
static void lay_out(const uint32_t entries[4])
{
    soil();
    memset(half(&lent, 0), 0, 512);
    memset(half(&lent, 1), 0, 512);
    if (entries[0] != 0)
        stands(&lent, 0, 2, entries[0], entries[1]);
    stands(&lent, 0, 9, entries[2], entries[3]);
    right = lent;
}

static void sound_entries(void)
{
    static const uint32_t sound[][4] = {
        {0, 0, 512, 32},       {0, 0, 32736, 32},     {0, 0, 512, 32256},
        {1000, 100, 1100, 32}, {1100, 32, 1000, 100}, {544, 33, 577, 50},
    };
    for (size_t i = 0; i < sizeof sound / sizeof sound[0]; i++) {
        const uint32_t *p = sound[i];
        lay_out(p);
        get(0, 9, p[3], lent.bytes + p[2], p[3], 0);
        get(0, 9, p[3] - 1, NULL, 0, 11);
        get(0, 2, p[1], lent.bytes + p[0], p[1], p[0] ? 0 : 22);
        drop(0, 9, p[2], p[3], 0);
        drop(0, 9, 0, 0, 22);
    }
}

/* party 0's half is damaged, and party 1, which has nothing yet, does not notice */
static void damaged_half(void)
{
    all_refused(0, 19);
    put_record(1, example, 80, 0, 512);
    get(1, 0, 80, example, 80, 0);
    drop(1, 0, 512, 80, 0);
}

/* Past a limit by a byte, by sums of 2^32 and more, by bytes in common; and each byte of a free entry that is not zero, and of
 * the last 24 of a used one. */
static void damaged_entries(void)
{
    static const uint32_t free[4] = {0}, used[4] = {0, 0, 600, 80};
    static const uint32_t damaged[][4] = {
        {0, 0, 512, 31},        {0, 0, 511, 32},         {0, 0, 32737, 32},     {0, 0, 512, 32257},
        {0, 0, 0, 32},          {0, 0, 512, 0},          {0, 0, UINT32_MAX, 33}, {0, 0, 512, UINT32_MAX},
        {0, 0, 4294967264, 544}, {0, 0, 66048, 32},      {1000, 100, 1099, 32}, {1000, 100, 969, 32},
        {1000, 100, 1000, 100}, {1000, 100, 1010, 32},   {1000, 100, 512, 32256},
    };
    for (size_t i = 0; i < sizeof damaged / sizeof damaged[0]; i++) {
        lay_out(damaged[i]);
        damaged_half();
    }
    for (size_t i = 0; i < 56; i++) {
        lay_out(i < 32 ? free : used);
        lent.bytes[32 * 9 + (i < 32 ? i : i - 24)] = 32;
        right = lent;
        damaged_half();
    }
}

/* shelves of another length, whatever they hold; and all bytes random */
static void other_lengths(void)
{
    static const size_t lengths[] = {0, 1, 512, FERMION_HALF, FERMION_SHELF - 1, FERMION_SHELF + 1};
    for (size_t i = 0; i < sizeof lengths / sizeof lengths[0]; i++) {
        soil();
        lent_len = FERMION_SHELF;
        all_refused(0, 19);
        all_refused(1, 19);
        lent_len = lengths[i];
        all_refused(1, 19);
        clear(lengths[i]);
        all_refused(0, 19);
        all_refused(1, 19);
        all_refused(2, 18);
    }
    lent_len = FERMION_SHELF;
}

void check_shelf(int *passed, int *failed)
{
    two_parties();
    lowest_gaps();
    all_slots();
    sound_entries();
    damaged_entries();
    other_lengths();
    print_tallies(tallies, CALLS, passed, failed);
}
