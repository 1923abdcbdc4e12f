/*
 * The calls of gateway.h on a table, over the archive: worked cases of docs/TABLE.md, every refusal
 * as the plain number that it is, adds of what is stored, what docs/SETTINGS.md says of ninety routes, and the
 * header's example of filters of unequal size. All of it is done for each party.
 */
#include "check.h"

#include <gateway.h>

#include <stdlib.h>
#include <string.h>

static int is(struct gateway_answer answer, uint32_t found, uint32_t hop, uint32_t length, uint32_t probes)
{
    return answer.refusal == GATEWAY_OK && answer.found == found && answer.hop == hop &&
           answer.length == length && answer.probes == probes;
}

static int is_refused(struct gateway_answer answer, uint32_t refusal)
{
    return answer.refusal == refusal && answer.found == 0 && answer.hop == 0 && answer.length == 0 &&
           answer.probes == 0;
}

static uint8_t counters[GATEWAY_COUNTERS_BYTES(11)];
static uint32_t slots[GATEWAY_SLOTS_WORDS(8, 8)];

/* Whose table it is. */
static uint32_t party;

/* The mark of a hop: from 1 on for party 0, from 65537 on for party 1. */
static uint32_t mark_of(uint32_t hop)
{
    return (party == 0 ? 1 : 65537) + hop;
}

/* A cleared table whose filters are all of one size, in as much of that memory as its settings ask. */
static struct gateway_table cleared(uint32_t k, uint32_t d, uint32_t e, uint32_t s, uint32_t a, uint32_t b,
                                    uint32_t c)
{
    struct gateway_table table = {{k, {0}, e, s, a, b, c}, counters, GATEWAY_COUNTERS_BYTES(d), slots,
                                  gateway_slots_words(e, s), party};
    gateway_settings_fill(&table.settings, d);
    CHECK(gateway_table_clear(&table) == GATEWAY_OK);
    return table;
}

static void run_worked(void)
{
    struct gateway_table table = cleared(2, 4, 1, 2, 1, 2, 1);
    CHECK(gateway_table_add(&table, 0x0a000000, 8, 7) == GATEWAY_OK);
    CHECK(is(gateway_table_lookup(&table, 0x08010203), 0, 0, 0, 1));
    CHECK(gateway_table_match_vector(&table, 0x08010203).vector == 128);
    CHECK(gateway_table_add(&table, 0x0a010000, 16, 9) == GATEWAY_OK);
    CHECK(is(gateway_table_lookup(&table, 0x0a010203), 1, 9, 16, 1));
    CHECK(is(gateway_table_lookup(&table, 0x0a020203), 1, 7, 8, 2));
    CHECK(gateway_table_match_vector(&table, 0x0a020203).vector == 32896);
    CHECK(gateway_table_add(&table, 0, 0, 3) == GATEWAY_OK);
    CHECK(is(gateway_table_lookup(&table, 0x0b000001), 1, 3, 0, 0));
    CHECK(gateway_table_change(&table, 0x0a010000, 16, 65535) == GATEWAY_OK);
    CHECK(is(gateway_table_lookup(&table, 0x0a010203), 1, 65535, 16, 1));
    CHECK(gateway_table_withdraw(&table, 0x0a010000, 16) == GATEWAY_OK);
    CHECK(is(gateway_table_lookup(&table, 0x0a010203), 1, 7, 8, 1));
}

static void run_refusals(void)
{
    struct gateway_table table = cleared(5, 4, 0, 4, 0, 0, 0), other = table;
    int refusal = (int)gateway_table_add(&table, 0x0a000001, 8, 7);
    CHECK(refusal == GATEWAY_HOST_BIT);
    CHECK(gateway_table_add(&table, 0x0a000000, 33, 7) == GATEWAY_BAD_LENGTH);
    CHECK(gateway_table_add(&table, 0x0a000000, 8, 65536) == GATEWAY_BAD_HOP);
    CHECK(gateway_table_withdraw(&table, 0x0a000000, 8) == GATEWAY_NOT_STORED);
    CHECK(gateway_table_change(&table, 0x0a000000, 8, 7) == GATEWAY_NOT_STORED);
    for (uint32_t host = 1; host <= 3; host++)
        CHECK(gateway_table_add(&table, host, 32, 7) == GATEWAY_OK);
    CHECK(gateway_table_add(&table, 4, 32, 7) == GATEWAY_COUNTER_FULL);
    counters[GATEWAY_COUNTERS_BYTES(4) - 16] = 0;
    CHECK(gateway_table_withdraw(&table, 3, 32) == GATEWAY_COUNTER_SHORT);

    other.slots_words--;
    CHECK(gateway_table_clear(&other) == GATEWAY_BAD_SIZE);
    CHECK(is_refused(gateway_table_lookup(&other, 0), GATEWAY_BAD_SIZE));
    CHECK(gateway_table_match_vector(&other, 0).refusal == GATEWAY_BAD_SIZE);
    other.settings.k = 9;
    CHECK(gateway_table_clear(&other) == GATEWAY_BAD_SETTINGS);
    CHECK(is_refused(gateway_table_lookup(&other, 0), GATEWAY_BAD_SETTINGS));
    CHECK(gateway_table_match_vector(&other, 0).refusal == GATEWAY_BAD_SETTINGS);

    /* Four times so many words wraps round to the bytes of the right size. */
    for (size_t times = 1; times <= 3; times++) {
        other = table;
        other.slots_words += times * ((size_t)-1 / 4 + 1);
        CHECK(gateway_table_add(&other, 0x0a000000, 8, 7) == GATEWAY_BAD_SIZE);
        CHECK(is_refused(gateway_table_lookup(&other, 0), GATEWAY_BAD_SIZE));
        CHECK(gateway_table_match_vector(&other, 0).refusal == GATEWAY_BAD_SIZE);
        CHECK(gateway_table_lookup_list(&other, NULL, 0, NULL) == GATEWAY_BAD_SIZE);
        other.settings.k = 9;
        CHECK(is_refused(gateway_table_lookup(&other, 0), GATEWAY_BAD_SETTINGS));
    }
}

/* Adds a route, and tells whether that gives this number and leaves all memory as it was, but for this word where
   it is accepted: there is the mark of the hop then. */
static int adds_in(struct gateway_table *table, uint32_t prefix, uint32_t length, uint32_t hop, uint32_t refusal,
                   size_t word)
{
    static uint8_t same[sizeof counters];
    static uint32_t left[sizeof slots / sizeof slots[0]];
    memcpy(same, counters, sizeof counters);
    memcpy(left, slots, sizeof slots);
    if (refusal == GATEWAY_OK)
        left[word] = mark_of(hop);
    return gateway_table_add(table, prefix, length, hop) == refusal &&
           memcmp(counters, same, sizeof counters) == 0 && memcmp(slots, left, sizeof slots) == 0;
}

static int replaces(struct gateway_table *table, uint32_t prefix, uint32_t length, uint32_t hop, size_t word)
{
    return slots[word] != mark_of(hop) && adds_in(table, prefix, length, hop, GATEWAY_OK, word);
}

static int refuses(struct gateway_table *table, uint32_t prefix, uint32_t length, uint32_t hop, uint32_t refusal)
{
    return adds_in(table, prefix, length, hop, refusal, 0);
}

/* Whether an address goes to this route after so many probes, by itself and in a list. */
static int goes_to(const struct gateway_table *table, uint32_t address, uint32_t hop, uint32_t length,
                   uint32_t probes)
{
    struct gateway_result result;
    return is(gateway_table_lookup(table, address), 1, hop, length, probes) &&
           gateway_table_lookup_list(table, &address, 1, &result) == GATEWAY_OK && result.found == 1 &&
           result.hop == hop && result.length == length && result.probes == probes;
}

static int is_empty(const struct gateway_table *table)
{
    size_t used = 0;
    for (size_t i = 0; i < table->counters_bytes; i++)
        used += table->counters[i] != 0;
    for (size_t i = 0; i < table->slots_words; i++)
        used += table->slots[i] != 0;
    return used == 0;
}

/* 11: what lies wholly in 127.0.0.0/8 or 224.0.0.0/4, after 4 and before 5, and in an add alone. */
static void run_odd(void)
{
    struct gateway_table table = cleared(2, 4, 1, 2, 1, 2, 1);
    const uint32_t odd[][2] = {{0x7f000000, 8}, {0x7f000000, 9}, {0x7f800000, 9}, {0x7fffffff, 32}, {0x7f000001, 32},
                               {0xe0000000, 4}, {0xe0000000, 5}, {0xe8000000, 5}, {0xefffffff, 32}, {0xe0000001, 32}};
    for (size_t i = 0; i < sizeof odd / sizeof odd[0]; i++) {
        CHECK(refuses(&table, odd[i][0], odd[i][1], 7, GATEWAY_ODD_PREFIX));
        CHECK(refuses(&table, odd[i][0], odd[i][1], 65536, GATEWAY_ODD_PREFIX));
    }
    CHECK(refuses(&table, 0x7f000001, 8, 65536, GATEWAY_HOST_BIT));
    CHECK(refuses(&table, 0x7f000000, 33, 7, GATEWAY_BAD_LENGTH));
    CHECK(is_empty(&table));

    const uint32_t even[][2] = {{0x7efffffe, 31}, {0x7effffff, 32}, {0x7e000000, 7}, {0x80000000, 8},  {0x80000000, 32},
                                {0xdfffffff, 32}, {0xe0000000, 3},  {0xf0000000, 4}, {0xffffffff, 32}, {0, 0}};
    for (size_t i = 0; i < sizeof even / sizeof even[0]; i++) {
        CHECK(gateway_table_add(&table, even[i][0], even[i][1], 7) == GATEWAY_OK);
        CHECK(gateway_table_withdraw(&table, even[i][0], even[i][1]) == GATEWAY_OK);
    }
    CHECK(is_empty(&table));

    /* An entry from before: bucket 0 of length 8 begins at word 56. It is changed, not replaced, and withdrawn. */
    slots[56] = 0x7f000000;
    slots[57] = mark_of(5);
    CHECK(refuses(&table, 0x7f000000, 8, 7, GATEWAY_ODD_PREFIX));
    CHECK(gateway_table_change(&table, 0x7f000000, 8, 7) == GATEWAY_OK && slots[57] == mark_of(7));
    memset(counters, 15, table.counters_bytes);
    CHECK(gateway_table_withdraw(&table, 0x7f000000, 8) == GATEWAY_OK && slots[57] == 0);
}

/* An add of a stored prefix, under settings T: bucket 0 of length 8 has words 56 to 59, the default of party 0 is
   word 256, that of party 1 the next. */
static void run_replaced(void)
{
    struct gateway_table table = cleared(2, 4, 1, 2, 1, 2, 1);
    const size_t default_word = 256 + party;
    CHECK(gateway_table_add(&table, 0x0a000000, 8, 7) == GATEWAY_OK);
    CHECK(replaces(&table, 0x0a000000, 8, 8, 57));
    CHECK(goes_to(&table, 0x0a020203, 8, 8, 1));
    CHECK(replaces(&table, 0x0a000000, 8, 65535, 57) && replaces(&table, 0x0a000000, 8, 0, 57));
    CHECK(goes_to(&table, 0x0a020203, 0, 8, 1));
    CHECK(adds_in(&table, 0x0a000000, 8, 0, GATEWAY_OK, 57)); /* the hop that it has: nothing changes */
    CHECK(refuses(&table, 0x0a000000, 8, 65536, GATEWAY_BAD_HOP));
    CHECK(refuses(&table, 0x0a000000, 8, UINT32_MAX, GATEWAY_BAD_HOP));
    CHECK(refuses(&table, 0x0a000001, 8, 8, GATEWAY_HOST_BIT));

    /* 8.0.0.0/8 fills the bucket. */
    CHECK(gateway_table_add(&table, 0x08000000, 8, 5) == GATEWAY_OK);
    CHECK(replaces(&table, 0x08000000, 8, 6, 59) && replaces(&table, 0x0a000000, 8, 9, 57));
    CHECK(goes_to(&table, 0x08010203, 6, 8, 1) && goes_to(&table, 0x0a020203, 9, 8, 1));
    CHECK(refuses(&table, 0x09000000, 8, 6, GATEWAY_BUCKET_FULL));
    CHECK(refuses(&table, 0x09000000, 8, 65536, GATEWAY_BAD_HOP));

    CHECK(replaces(&table, 0, 0, 3, default_word) && replaces(&table, 0, 0, 4, default_word));
    CHECK(goes_to(&table, 0x0b000001, 4, 0, 0));
    CHECK(refuses(&table, 0, 0, 65536, GATEWAY_BAD_HOP));

    /* The slot before it is free, and stays so. One withdrawal takes out what was added three times. */
    CHECK(gateway_table_withdraw(&table, 0x0a000000, 8) == GATEWAY_OK);
    CHECK(replaces(&table, 0x08000000, 8, 7, 59));
    CHECK(gateway_table_withdraw(&table, 0x08000000, 8) == GATEWAY_OK);
    CHECK(gateway_table_withdraw(&table, 0x08000000, 8) == GATEWAY_NOT_STORED);
    CHECK(gateway_table_withdraw(&table, 0, 0) == GATEWAY_OK);
    CHECK(is_empty(&table));

    /* Damaged memory, with 10.0.0.0/8 in both slots: the lower one is written, if its mark is the party's. */
    slots[56] = slots[58] = 0x0a000000;
    slots[57] = slots[59] = mark_of(5);
    CHECK(replaces(&table, 0x0a000000, 8, 8, 57));
    slots[57] = 131073;
    CHECK(replaces(&table, 0x0a000000, 8, 8, 59));
}

/* The same where one more hit would pass 15: on the table of P9, whose length 32 has words 248 to 255, and on
   that of P10 whose only slot, words 62 and 63, is occupied besides. */
static void run_replaced_at_15(void)
{
    struct gateway_table table = cleared(5, 4, 0, 4, 0, 0, 0);
    for (uint32_t host = 1; host <= 3; host++)
        CHECK(gateway_table_add(&table, host, 32, 1) == GATEWAY_OK);
    CHECK(counters[496] == 15);
    CHECK(replaces(&table, 1, 32, 4, 249) && replaces(&table, 2, 32, 5, 251) && replaces(&table, 3, 32, 6, 253));
    CHECK(goes_to(&table, 1, 4, 32, 1) && goes_to(&table, 2, 5, 32, 1) && goes_to(&table, 3, 6, 32, 1));
    CHECK(refuses(&table, 4, 32, 1, GATEWAY_COUNTER_FULL));
    for (uint32_t host = 1; host <= 3; host++)
        CHECK(gateway_table_withdraw(&table, host, 32) == GATEWAY_OK);
    CHECK(is_empty(&table));

    table = cleared(8, 4, 0, 1, 0, 0, 0);
    CHECK(gateway_table_add(&table, 1, 32, 1) == GATEWAY_OK);
    CHECK(replaces(&table, 1, 32, 4, 63));
    CHECK(refuses(&table, 2, 32, 1, GATEWAY_BUCKET_FULL));
}

/* The addresses of P4 to P7, and what they give on the table of P5 to P7. */
static const uint32_t asked[] = {0x08010203, 0x0a010203, 0x0a020203, 0x0b000001};
static const struct gateway_result given[] = {{0, 0, 0, 2}, {1, 9, 16, 1}, {1, 7, 8, 2}, {0, 0, 0, 0}};

/* Lends so many bytes of a list, which lies on no word's boundary, and checks that the results hold what is
   given or, where the list is refused, what they held, and that no byte after them is written. */
static uint32_t list_refusal(const struct gateway_table *table, size_t addresses_bytes, size_t results_bytes)
{
    uint8_t addresses[1 + 2 * sizeof asked], results[1 + 2 * sizeof given], left[sizeof results];
    memcpy(addresses + 1, asked, sizeof asked);
    memcpy(addresses + 1 + sizeof asked, asked, sizeof asked);
    memset(results, 0xa5, sizeof results);
    memset(left, 0xa5, sizeof left);
    const struct gateway_settings t = table->settings;
    const uint64_t answer = gateway_lookup_list(
        t.k, t.d, sizeof t.d, t.e, t.s, t.a, t.b, t.c, table->counters, table->counters_bytes,
        (const uint8_t *)table->slots, 4 * table->slots_words, table->party, addresses + 1, addresses_bytes,
        results + 1, results_bytes);
    if (answer == 0)
        memcpy(left + 1, given, results_bytes);
    CHECK(memcmp(results, left, sizeof results) == 0);
    CHECK(answer == (uint64_t)gateway_refusal(answer) << 48);
    return gateway_refusal(answer);
}

static void run_list(void)
{
    struct gateway_table table = cleared(2, 4, 1, 2, 1, 2, 1), other = table;
    struct gateway_result results[4];
    CHECK(gateway_table_add(&table, 0x0a000000, 8, 7) == GATEWAY_OK);
    CHECK(gateway_table_add(&table, 0x0a010000, 16, 9) == GATEWAY_OK);
    CHECK(gateway_table_lookup_list(&table, asked, 4, results) == GATEWAY_OK);
    CHECK(memcmp(results, given, sizeof given) == 0);
    CHECK(gateway_table_lookup_list(&table, asked, 0, results) == GATEWAY_OK);
    CHECK(gateway_table_lookup_list(&table, NULL, 0, NULL) == GATEWAY_OK);
    /* Their bytes are more than a size can say. */
    CHECK(gateway_table_lookup_list(&table, asked, (size_t)-1, results) == GATEWAY_BAD_LIST);
    CHECK(gateway_table_lookup_list(&table, asked, (size_t)1 << 62, results) == GATEWAY_BAD_LIST);

    for (size_t many = 0; many <= 4; many++)
        CHECK(list_refusal(&table, 4 * many, 16 * many) == GATEWAY_OK);
    for (size_t off = 1; off <= 16; off++) {
        CHECK(list_refusal(&table, 16, 64 - off) == GATEWAY_BAD_LIST);
        CHECK(list_refusal(&table, 16, 64 + off) == GATEWAY_BAD_LIST);
        CHECK(list_refusal(&table, 16 - off, 64) == GATEWAY_BAD_LIST);
        CHECK(list_refusal(&table, 16 + off, 64) == GATEWAY_BAD_LIST);
    }
    for (size_t stray = 1; stray <= 3; stray++) {
        CHECK(list_refusal(&table, stray, 4 * stray) == GATEWAY_BAD_LIST);
        CHECK(list_refusal(&table, 16 + stray, 4 * (16 + stray)) == GATEWAY_BAD_LIST);
        CHECK(list_refusal(&table, 16 + stray, 64) == GATEWAY_BAD_LIST);
    }

    other.party = 2;
    CHECK(list_refusal(&other, 16, 64) == GATEWAY_BAD_PARTY);
    CHECK(list_refusal(&other, 15, 63) == GATEWAY_BAD_PARTY);
    CHECK(list_refusal(&other, 0, 0) == GATEWAY_BAD_PARTY);
    CHECK(gateway_table_lookup_list(&other, asked, 4, results) == GATEWAY_BAD_PARTY);
    CHECK(gateway_table_lookup_list(&other, asked, (size_t)-1, results) == GATEWAY_BAD_PARTY);
    other.slots_words--;
    CHECK(list_refusal(&other, 16, 64) == GATEWAY_BAD_SIZE);
    CHECK(list_refusal(&other, 15, 63) == GATEWAY_BAD_SIZE);
    CHECK(list_refusal(&other, 0, 0) == GATEWAY_BAD_SIZE);
    CHECK(gateway_table_lookup_list(&other, asked, 4, results) == GATEWAY_BAD_SIZE);
    other.settings.k = 9;
    CHECK(list_refusal(&other, 16, 64) == GATEWAY_BAD_SETTINGS);
    CHECK(list_refusal(&other, 15, 63) == GATEWAY_BAD_SETTINGS);
    CHECK(gateway_table_lookup_list(&other, asked, 4, results) == GATEWAY_BAD_SETTINGS);
    CHECK(memcmp(results, given, sizeof given) == 0);
}

/* A long list gives what each of its addresses gives by itself, in its place. */
static void run_long_list(void)
{
    enum { MANY = 3000 };
    static uint32_t addresses[MANY];
    static struct gateway_result results[MANY];
    struct gateway_table table = cleared(4, 10, 7, 8, GATEWAY_GOOD_A, GATEWAY_GOOD_B, GATEWAY_GOOD_C);
    for (uint32_t i = 0; i < 90; i++)
        CHECK(gateway_table_add(&table, 0x0a000000 + (i << 16), 16, 65535 - 700 * i) == GATEWAY_OK);
    for (uint32_t i = 0; i < MANY; i++)
        addresses[i] = 0x0a000000 + i * 0x9e3779b1 % (100 << 16);
    CHECK(gateway_table_lookup_list(&table, addresses, MANY, results) == GATEWAY_OK);
    for (uint32_t i = 0; i < MANY; i++)
        CHECK(is(gateway_table_lookup(&table, addresses[i]), results[i].found, results[i].hop,
                 results[i].length, results[i].probes));
}

/* How many of the routes 10.0.0.0/24 to 10.0.89.0/24 are stored. */
static uint32_t ninety(struct gateway_table table, uint32_t refusal)
{
    uint32_t stored = 0;
    for (uint32_t i = 0; i < 90; i++) {
        uint32_t given = gateway_table_add(&table, 0x0a000000 + (i << 8), 24, i);
        CHECK(given == GATEWAY_OK || given == refusal);
        stored += given == GATEWAY_OK;
    }
    return stored;
}

/* The sum of the counters from one byte up to before another. */
static uint32_t raised(size_t from, size_t to)
{
    uint32_t sum = 0;
    for (size_t i = from; i < to; i++)
        sum += counters[i];
    return sum;
}

/* Sixty routes /24 and twelve /16 under the list that the header makes of them: each raises four counters, which lie
   where it says. */
static void run_unequal(void)
{
    struct gateway_table table = cleared(4, 4, 7, 8, GATEWAY_GOOD_A, GATEWAY_GOOD_B, GATEWAY_GOOD_C);
    table.settings.d[16 - 1] = 8;
    table.settings.d[24 - 1] = 10;
    table.counters_bytes = gateway_counters_bytes(table.settings.d, GATEWAY_LENGTHS);
    CHECK(table.counters_bytes == 1760);
    CHECK(gateway_table_clear(&table) == GATEWAY_OK);
    for (uint32_t i = 0; i < 12; i++)
        CHECK(gateway_table_add(&table, 0x0a000000 + (i << 16), 16, 100 + i) == GATEWAY_OK);
    CHECK(raised(240, 496) == 4 * 12 && raised(0, 1760) == 4 * 12);
    for (uint32_t i = 0; i < 60; i++)
        CHECK(gateway_table_add(&table, 0x0a000000 + (i << 8), 24, i) == GATEWAY_OK);
    CHECK(raised(608, 1632) == 4 * 60 && raised(0, 1760) == 4 * 72);
    for (uint32_t i = 0; i < 60; i++)
        CHECK(goes_to(&table, 0x0a000001 + (i << 8), i, 24, 1));
    for (uint32_t i = 1; i < 12; i++)
        CHECK(gateway_table_lookup(&table, 0x0a000001 + (i << 16)).hop == 100 + i);
}

int main(void)
{
    for (party = 0; party <= 1; party++) {
        run_worked();
        run_refusals();
        run_odd();
        run_replaced();
        run_replaced_at_15();
        run_list();
        run_long_list();
        CHECK(ninety(cleared(4, 10, 7, 8, GATEWAY_GOOD_A, GATEWAY_GOOD_B, GATEWAY_GOOD_C), GATEWAY_OK) == 90);
        CHECK(ninety(cleared(4, 11, 8, 8, 1, 2, 1), GATEWAY_BUCKET_FULL) == 8);
        CHECK(ninety(cleared(4, 11, 8, 8, 0, 0, 0), GATEWAY_COUNTER_FULL) == 3);
        run_unequal();
    }
    return wrong ? EXIT_FAILURE : EXIT_SUCCESS;
}
