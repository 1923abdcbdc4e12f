/*
 * Filters of unequal size, over the archive: where the counters of each length lie and which of them a prefix has,
 * worked out from the rules; what is refused of the list and of its sizes; and that equal values are nothing new.
 */
#include "check.h"

#include <gateway.h>

#include <stdlib.h>
#include <string.h>

/* The counters of length 1 begin at byte 0, of 2 at 32, of 8 at 128, of 9 at 384, of 16 at 496, of 17 at 2544, of 24
   at 2656, of 25 at 3680, of 31 at 3776, of 32 at 3792, and end before 3856. */
#define WORKED                                                                                     \
    5, 4, 4, 4, 4, 4, 4, 8, 4, 4, 4, 4, 4, 4, 4, 11, 4, 4, 4, 4, 4, 4, 4, 10, 4, 4, 4, 4, 4, 4, 4, 6

/* Eight lengths have 16 + 32 + ... + 2048 = 4080 counters, all of them four times as many. */
#define STAIRS                                                                                     \
    4, 5, 6, 7, 8, 9, 10, 11, 4, 5, 6, 7, 8, 9, 10, 11, 4, 5, 6, 7, 8, 9, 10, 11, 4, 5, 6, 7, 8, 9, 10, 11

enum { WORKED_BYTES = 3856, STAIRS_BYTES = 16320, SLOTS = GATEWAY_SLOTS_WORDS(1, 2) };

/* With more of the same behind the 32 values, so that longer lists can be lent. */
static const uint8_t worked[] = {WORKED, WORKED}, stairs[] = {STAIRS, STAIRS};

/* Withdraws 10.1.0.0/16, and announces 192.0.2.0/24 and the default with the next hop 10.9.9.1. */
#define MESSAGE                                                                                    \
    {                                                                                              \
        255, 255, 255, 255, 255, 255, 255, 255, 255, 255, 255, 255, 255, 255, 255, 255, 0, 45, 2, 0, 3, 16, 10, 1, 0, \
            14, 64, 1, 1, 0, 64, 2, 0, 64, 3, 4, 10, 9, 9, 1, 24, 192, 0, 2, 0                     \
    }

/* All that a call may be lent but the list, and what should be left there: room for each size that is told. */
struct memory {
    uint8_t counters[131072];
    uint32_t slots[SLOTS + 1];
    uint32_t address, hops[1];
    struct gateway_result result;
    uint8_t message[45];
};

static struct memory lent, left;
static const struct memory empty = {{0}, {0}, 0x0a010203, {0x0a090901}, {0, 0, 0, 0}, MESSAGE};

static int is_left(void)
{
    return memcmp(&lent, &left, sizeof lent) == 0;
}

/* A cleared table of so many steps, slots and bytes of counters. */
static struct gateway_table cleared(uint32_t k, const uint8_t *d, size_t bytes, uint32_t e, uint32_t s, uint32_t a,
                                    uint32_t b, uint32_t c)
{
    struct gateway_table table = {{k, {0}, e, s, a, b, c}, lent.counters, bytes, lent.slots, gateway_slots_words(e, s),
                                  0};
    memcpy(table.settings.d, d, sizeof table.settings.d);
    lent = left = empty;
    CHECK(gateway_table_clear(&table) == GATEWAY_OK);
    CHECK(is_left());
    return table;
}

/* The routes of the worked table, under K 2, E 1, S 2, A 1, B 2, C 1: the first position has the top bits of the
   prefix, the second those of three times the prefix, as many as the d of the length says. */
static const struct {
    uint32_t prefix, length, hop;
    size_t first, second; /* the bytes of its counters */
    size_t word;          /* its slot's first word */
} routes[] = {
    {0x80000000, 1, 1, 0 + 16, 0 + 16, 4},
    {0x0a000000, 8, 2, 128 + 10, 128 + 30, 56},
    {0x0a000000, 9, 3, 384 + 0, 384 + 1, 64},
    {0x0a010000, 16, 4, 496 + 80, 496 + 240, 120},
    {0x0a010200, 24, 5, 2656 + 40, 2656 + 120, 184},
    {0xc0000200, 24, 6, 2656 + 768, 2656 + 256, 188},
    {0x0a010202, 31, 7, 3776 + 0, 3776 + 1, 240},
    {0x0a010203, 32, 8, 3792 + 2, 3792 + 7, 248},
    {0xffffffff, 32, 9, 3792 + 63, 3792 + 63, 252},
};
enum { ROUTES = sizeof routes / sizeof routes[0] };

static void leave(size_t i, int stored)
{
    left.counters[routes[i].first] = (uint8_t)(left.counters[routes[i].first] + (stored ? 1 : -1));
    left.counters[routes[i].second] = (uint8_t)(left.counters[routes[i].second] + (stored ? 1 : -1));
    left.slots[routes[i].word] = stored ? routes[i].prefix : 0;
    left.slots[routes[i].word + 1] = stored ? routes[i].hop + 1 : 0;
}

static struct gateway_table filled(void)
{
    struct gateway_table table = cleared(2, worked, WORKED_BYTES, 1, 2, 1, 2, 1);
    for (size_t i = 0; i < ROUTES; i++) {
        CHECK(gateway_table_add(&table, routes[i].prefix, routes[i].length, routes[i].hop) == GATEWAY_OK);
        leave(i, 1);
        CHECK(is_left());
    }
    return table;
}

/* What addresses give on that table. The filters of 31 and 32 are too small to tell most of 10.0.0.0/8 apart, that of
   8 is large enough to know that 8.1.2.3 is not in it, and those of 16 and 24 that 10.64.0.0 is not in theirs. */
static const struct {
    uint32_t address, vector;
    struct gateway_result result;
} asked[] = {
    {0x0a010203, 0xc0808180, {1, 8, 32, 1}},
    {0x0a0102c8, 0xc0808180, {1, 5, 24, 3}},
    {0x0a020000, 0xc0808180, {1, 3, 9, 5}},
    {0x0a400000, 0xc0000180, {1, 3, 9, 3}},
    {0x08010203, 0x40000100, {0, 0, 0, 2}},
    {0xc8000000, 0x00000001, {1, 1, 1, 1}},
    {0xc000024d, 0x00800001, {1, 6, 24, 1}},
    {0xffffffff, 0x80000001, {1, 9, 32, 1}},
    {0xfffffffe, 0x80000001, {1, 1, 1, 2}},
};
enum { ASKED = sizeof asked / sizeof asked[0] };

static void run_worked(void)
{
    struct gateway_table table = filled();
    uint32_t addresses[ASKED];
    struct gateway_result results[ASKED];
    CHECK(gateway_counters_bytes(worked, 32) == WORKED_BYTES && GATEWAY_COUNTERS_BYTES_OF(WORKED) == WORKED_BYTES);
    for (size_t i = 0; i < ASKED; i++) {
        const struct gateway_claims claims = gateway_table_match_vector(&table, asked[i].address);
        const struct gateway_answer answer = gateway_table_lookup(&table, asked[i].address);
        const struct gateway_result result = {answer.found, answer.hop, answer.length, answer.probes};
        CHECK(claims.refusal == GATEWAY_OK && claims.vector == asked[i].vector);
        CHECK(answer.refusal == GATEWAY_OK && memcmp(&result, &asked[i].result, sizeof result) == 0);
        addresses[i] = asked[i].address;
    }
    CHECK(gateway_table_lookup_list(&table, addresses, ASKED, results) == GATEWAY_OK);
    for (size_t i = 0; i < ASKED; i++)
        CHECK(memcmp(&results[i], &asked[i].result, sizeof results[i]) == 0);

    /* A change and an add of what is stored write the mark alone. */
    CHECK(gateway_table_change(&table, 0x0a010000, 16, 65535) == GATEWAY_OK);
    left.slots[121] = 65536;
    CHECK(is_left() && gateway_table_add(&table, 0x0a010000, 16, 4) == GATEWAY_OK);
    left.slots[121] = 5;
    CHECK(is_left());
    for (size_t i = 0; i < ROUTES; i++) {
        CHECK(gateway_table_withdraw(&table, routes[i].prefix, routes[i].length) == GATEWAY_OK);
        leave(i, 0);
        CHECK(is_left());
    }
    CHECK(memcmp(&lent, &empty, sizeof lent) == 0);
}

/* A message does what the single calls do. */
static void run_message(void)
{
    struct gateway_table table = cleared(2, worked, WORKED_BYTES, 1, 2, 1, 2, 1);
    CHECK(gateway_table_add(&table, 0x0a010000, 16, 4) == GATEWAY_OK);
    const struct gateway_report report = gateway_table_update(&table, lent.message, sizeof lent.message, lent.hops, 1);
    CHECK(report.refusal == GATEWAY_OK && report.accepted == 3 && report.refused == 0);
    left.counters[2656 + 768] = left.counters[2656 + 256] = 1;
    left.slots[188] = 0xc0000200;
    left.slots[189] = left.slots[256] = 1;
    CHECK(is_left());
}

/* Where the counters of a length begin under STAIRS. */
static size_t start_of(uint32_t length)
{
    static const size_t starts[] = {0, 16, 48, 112, 240, 496, 1008, 2032};
    return 4080 * ((length - 1) / 8) + starts[(length - 1) % 8];
}

/* Multipliers of 0 put every prefix on the first counter of its length, eight times here: a second one of the same
   length is refused, those of other lengths are not. */
static void run_starts(void)
{
    struct gateway_table table = cleared(8, stairs, STAIRS_BYTES, 0, 2, 0, 0, 0);
    for (uint32_t length = 1; length <= 32; length++) {
        CHECK(gateway_table_add(&table, 0, length, 6) == GATEWAY_OK);
        left.counters[start_of(length)] = 8;
        left.slots[4 * (length - 1) + 1] = 7;
        CHECK(is_left());
        CHECK(gateway_table_add(&table, (uint32_t)1 << (32 - length), length, 6) == GATEWAY_COUNTER_FULL && is_left());
        CHECK(gateway_table_match_vector(&table, 0xffffffff).vector == 0xffffffff >> (32 - length));
    }
    CHECK(gateway_table_lookup(&table, 0xffffffff).probes == 32);
    for (uint32_t length = 1; length <= 32; length++) {
        lent.counters[start_of(length)] = left.counters[start_of(length)] = 7;
        CHECK(gateway_table_withdraw(&table, 0, length) == GATEWAY_COUNTER_SHORT && is_left());
        lent.counters[start_of(length)] = 8;
        CHECK(gateway_table_withdraw(&table, 0, length) == GATEWAY_OK);
        left.counters[start_of(length)] = 0;
        left.slots[4 * (length - 1) + 1] = 0;
        CHECK(is_left());
    }
}

/* With A 1 and B 0 a prefix of ones alone has the last counter of its length, if that has as many bits as d. The
   first eight lengths have three bits less: their prefixes end in three zeros. */
static void run_ends(void)
{
    struct gateway_table table = cleared(3, stairs, STAIRS_BYTES, 0, 1, 1, 0, 0);
    for (uint32_t length = 1; length <= 32; length++) {
        const uint32_t prefix = 0xffffffff << (32 - length);
        const size_t last = ((size_t)16 << (length - 1) % 8) - 1;
        CHECK(gateway_table_add(&table, prefix, length, length) == GATEWAY_OK);
        left.counters[start_of(length) + last - (length <= 8 ? 7 : 0)] = 3;
        left.slots[2 * (length - 1)] = prefix;
        left.slots[2 * (length - 1) + 1] = length + 1;
        CHECK(is_left());
        CHECK(gateway_table_lookup(&table, 0xffffffff).length == length);
    }
    CHECK(lent.counters[STAIRS_BYTES - 1] == 3);
}

/* The calls that take settings, each such that it gives or writes something where it is accepted. */
enum call { CLEAR, ADD, WITHDRAW, CHANGE, LOOKUP, VECTOR, LIST, UPDATE, CALLS };

struct told {
    const uint8_t *d;
    size_t d_count, counters_bytes, slots_words;
};

#define SETTINGS 2, t.d, t.d_count, 1, 2, 1, 2, 1
#define WORDS SETTINGS, lent.counters, t.counters_bytes, lent.slots, t.slots_words
#define BYTES SETTINGS, lent.counters, t.counters_bytes, (const uint8_t *)lent.slots, 4 * t.slots_words

static uint64_t answer(int call, struct told t)
{
    switch (call) {
    case CLEAR: return gateway_clear(WORDS);
    case ADD: return gateway_add(WORDS, 0, 0x0a020000, 16, 1);
    case WITHDRAW: return gateway_withdraw(WORDS, 0, 0x0a000000, 8);
    case CHANGE: return gateway_change(WORDS, 0, 0x0a000000, 8, 9);
    case LOOKUP: return gateway_lookup(BYTES, 0, lent.address);
    case VECTOR: return gateway_match_vector(BYTES, lent.address);
    case LIST:
        return gateway_lookup_list(BYTES, 0, (const uint8_t *)&lent.address, sizeof lent.address,
                                   (uint8_t *)&lent.result, sizeof lent.result);
    default: return gateway_update(WORDS, 0, lent.message, sizeof lent.message, lent.hops, 1);
    }
}

/* Whether each call on the worked table refuses what it is told with this number, and changes nothing. */
static int refuse(struct told t, uint64_t refusal)
{
    int all = 1;
    for (int call = 0; call < CALLS; call++)
        all &= answer(call, t) == refusal << 48 && is_left();
    return all;
}

static int accept(struct told t)
{
    int all = 1;
    for (int call = 0; call < CALLS; call++) {
        const uint64_t number = answer(call, t);
        all &= gateway_refusal(number) == GATEWAY_OK && (number != 0 || !is_left());
        lent = left;
    }
    return all;
}

static struct told with_bytes(struct told t, size_t counters_bytes)
{
    t.counters_bytes = counters_bytes;
    return t;
}

/* A list of another count than 32, and of no values; sizes that would do for so many, or for 32, change nothing. */
static void run_counts(void)
{
    static const size_t counts[] = {0, 1, 16, 31, 33, 48, 63, 64};
    const struct told right = {worked, 32, WORKED_BYTES, SLOTS};
    struct told t = right;
    for (size_t i = 0; i < sizeof counts / sizeof counts[0]; i++) {
        size_t sum = 0;
        for (size_t place = 0; place < counts[i]; place++)
            sum += (size_t)1 << worked[place];
        t.d_count = counts[i];
        CHECK(refuse(t, GATEWAY_BAD_SETTINGS));
        CHECK(refuse(with_bytes(t, sum), GATEWAY_BAD_SETTINGS));
        CHECK(refuse(with_bytes(t, 0), GATEWAY_BAD_SETTINGS));
    }
    t.d = NULL;
    t.d_count = 0;
    CHECK(refuse(t, GATEWAY_BAD_SETTINGS) && refuse(with_bytes(t, 0), GATEWAY_BAD_SETTINGS));
    CHECK(accept(right));
}

/* One value out of its range, at either end and between. */
static void run_values(void)
{
    static const uint8_t values[] = {3, 12, 0, 13, 132, 255};
    uint8_t d[32];
    const struct told t = {d, 32, WORKED_BYTES, SLOTS};
    memcpy(d, worked, sizeof d);
    for (size_t place = 0; place < 32; place++) {
        for (size_t i = 0; i < sizeof values / sizeof values[0]; i++) {
            const size_t power = values[i] > 13 ? 0 : (size_t)1 << values[i];
            d[place] = values[i];
            CHECK(refuse(t, GATEWAY_BAD_SETTINGS));
            CHECK(refuse(with_bytes(t, WORKED_BYTES - ((size_t)1 << worked[place]) + power), GATEWAY_BAD_SETTINGS));
        }
        d[place] = worked[place];
        CHECK(accept(t));
    }
    memset(d, 3, sizeof d);
    CHECK(refuse(with_bytes(t, 256), GATEWAY_BAD_SETTINGS));
    memset(d, 12, sizeof d);
    CHECK(refuse(with_bytes(t, 131072), GATEWAY_BAD_SETTINGS));

    /* It comes before all else that may be wrong, also where other settings are. */
    d[31] = 12;
    memcpy(d, worked, 31);
    const struct told less = {d, 32, WORKED_BYTES - 1, SLOTS - 1};
    CHECK(refuse(less, GATEWAY_BAD_SETTINGS));
    CHECK(gateway_add(2, d, 32, 1, 2, 1, 2, 1, lent.counters, WORKED_BYTES, lent.slots, SLOTS, 2, 1, 33, 65536) ==
          (uint64_t)GATEWAY_BAD_SETTINGS << 48);
    CHECK(gateway_update(2, d, 32, 1, 2, 1, 2, 1, lent.counters, WORKED_BYTES, lent.slots, SLOTS, 2, NULL, 0, NULL,
                         0) == (uint64_t)GATEWAY_BAD_SETTINGS << 48);
    CHECK(gateway_lookup_list(2, d, 32, 1, 2, 1, 2, 1, lent.counters, WORKED_BYTES, (const uint8_t *)lent.slots,
                              4 * SLOTS, 2, NULL, 0, (uint8_t *)&lent.result, sizeof lent.result) ==
          (uint64_t)GATEWAY_BAD_SETTINGS << 48);
    CHECK(gateway_clear(9, d, 31, 9, 9, 1, 2, 1, NULL, 0, NULL, 0) == (uint64_t)GATEWAY_BAD_SETTINGS << 48);
    CHECK(is_left());
}

/* The counters have the sum of the 32 powers, and neither one more or less nor what one of the values would ask of
   equal filters. */
static void run_sizes(void)
{
    static const struct {
        const uint8_t *d;
        size_t sum;
    } lists[] = {{worked, WORKED_BYTES},     {worked + 1, WORKED_BYTES}, {worked + 8, WORKED_BYTES},
                 {stairs, STAIRS_BYTES},     {stairs + 7, STAIRS_BYTES}};
    for (size_t i = 0; i < sizeof lists / sizeof lists[0]; i++) {
        const size_t sum = lists[i].sum;
        const struct told t = {lists[i].d, 32, sum, SLOTS};
        struct told other = t;
        CHECK(gateway_refusal(answer(VECTOR, t)) == GATEWAY_OK);
        CHECK(refuse(with_bytes(t, sum - 1), GATEWAY_BAD_SIZE) && refuse(with_bytes(t, sum + 1), GATEWAY_BAD_SIZE));
        CHECK(refuse(with_bytes(t, 0), GATEWAY_BAD_SIZE));
        for (size_t d = 4; d <= 11; d++)
            CHECK(refuse(with_bytes(t, GATEWAY_COUNTERS_BYTES(d)), GATEWAY_BAD_SIZE));
        CHECK(refuse(with_bytes(t, sum - ((size_t)1 << t.d[31])), GATEWAY_BAD_SIZE));
        CHECK(refuse(with_bytes(t, sum - ((size_t)1 << t.d[0])), GATEWAY_BAD_SIZE));
        other.slots_words = SLOTS - 1;
        CHECK(refuse(other, GATEWAY_BAD_SIZE));
        other.slots_words = SLOTS + 1;
        CHECK(refuse(other, GATEWAY_BAD_SIZE));
    }
}

/* Settings T, whose values are all 4: length 8 has bytes 112 to 127, as it always had. */
static void run_equal(void)
{
    static const uint8_t fours[] = GATEWAY_EQUAL(4);
    struct gateway_table table = cleared(2, fours, 512, 1, 2, 1, 2, 1);
    CHECK(gateway_table_add(&table, 0x0a000000, 8, 7) == GATEWAY_OK); /* P1 */
    left.counters[112] = left.counters[113] = 1;
    left.slots[56] = 0x0a000000;
    left.slots[57] = 8;
    CHECK(is_left());
    CHECK(gateway_table_match_vector(&table, 0x08010203).vector == 128);
    CHECK(gateway_table_add(&table, 0xc0000000, 8, 5) == GATEWAY_OK); /* P2 */
    left.counters[124] = left.counters[116] = 1;
    left.slots[60] = 0xc0000000;
    left.slots[61] = 6;
    CHECK(is_left());
    CHECK(gateway_table_add(&table, 0, 8, 3) == GATEWAY_OK); /* P3 */
    left.counters[112] = 3;
    left.slots[59] = 4;
    CHECK(is_left());
    for (size_t d = 4; d <= 11; d++) {
        gateway_settings_fill(&table.settings, (uint32_t)d);
        table.counters_bytes = GATEWAY_COUNTERS_BYTES(d);
        CHECK(gateway_table_clear(&table) == GATEWAY_OK);
        CHECK(gateway_table_add(&table, 0xffffffff, 32, 1) == GATEWAY_OK);
        CHECK(lent.counters[GATEWAY_COUNTERS_BYTES(d) - 1] == 2); /* the last, twice */
    }
}

int main(void)
{
    run_worked();
    run_message();
    run_starts();
    run_ends();
    (void)filled();
    run_counts();
    run_values();
    run_sizes();
    run_equal();
    return wrong ? EXIT_FAILURE : EXIT_SUCCESS;
}
