/* Every function of gateway.h that needs no library, as C and as C++. Silent if all is well. */
#include "gateway.h"
#include "gateway.h" /* twice, as it happens in a large program */

#include "check.h"

#include <stddef.h>
#include <string.h>

/* The list of the header's own example: 256 counters to length 16, 1,024 to length 24, 16 to the others. */
#define FILTERS                                                                                    \
    4, 4, 4, 4, 4, 4, 4, 4, 4, 4, 4, 4, 4, 4, 4, 8, 4, 4, 4, 4, 4, 4, 4, 10, 4, 4, 4, 4, 4, 4, 4, 4

/* The bytes of a list whose values are all 4, but for this one. */
static size_t bytes_with(size_t place, uint8_t value)
{
    uint8_t d[GATEWAY_LENGTHS] = GATEWAY_EQUAL(4);
    d[place] = value;
    return gateway_counters_bytes(d, sizeof d);
}

static void run_lists(void)
{
    enum { D = 11 };
    const uint8_t equal[] = GATEWAY_EQUAL(D), unequal[] = {FILTERS}, longer[] = {FILTERS, 4};
    uint8_t counters[GATEWAY_COUNTERS_BYTES_OF(FILTERS)];
    CHECK(GATEWAY_LENGTHS == 32 && sizeof equal == 32 && sizeof unequal == 32);
    CHECK(sizeof counters == 1760 && gateway_counters_bytes(unequal, 32) == 1760);
    CHECK(gateway_counters_bytes(equal, 32) == 65536 && GATEWAY_COUNTERS_BYTES(D) == 65536);
    for (size_t i = 0; i < sizeof equal; i++)
        CHECK(equal[i] == 11);

    /* 2^0 + 2^1 + ... + 2^31: each place is counted, and once. */
    CHECK(GATEWAY_COUNTERS_BYTES_OF(0, 1, 2, 3, 4, 5, 6, 7, 8, 9, 10, 11, 12, 13, 14, 15, 16, 17, 18, 19, 20, 21,
                                    22, 23, 24, 25, 26, 27, 28, 29, 30, 31) == UINT32_MAX);
    CHECK(2 * GATEWAY_COUNTERS_BYTES_OF(FILTERS) == 3520);

    CHECK(gateway_counters_bytes(unequal, 31) == 0 && gateway_counters_bytes(longer, 33) == 0);
    CHECK(gateway_counters_bytes(longer, 32) == 1760 && gateway_counters_bytes(longer + 1, 32) == 1760);
    CHECK(gateway_counters_bytes(unequal, 0) == 0 && gateway_counters_bytes(NULL, 0) == 0);
    for (size_t place = 0; place < 32; place++) {
        CHECK(bytes_with(place, 3) == 0 && bytes_with(place, 12) == 0);
        CHECK(bytes_with(place, 0) == 0 && bytes_with(place, 255) == 0);
        CHECK(bytes_with(place, 4) == 512 && bytes_with(place, 5) == 528 && bytes_with(place, 11) == 2544);
    }

    struct gateway_settings settings = {4, {FILTERS}, 7, 8, GATEWAY_GOOD_A, GATEWAY_GOOD_B, GATEWAY_GOOD_C};
    CHECK(settings.d[15] == 8 && settings.d[23] == 10 && settings.d[22] == 4 && settings.d[24] == 4);
    CHECK(settings.c == GATEWAY_GOOD_C);
    gateway_settings_fill(&settings, 11);
    CHECK(memcmp(settings.d, equal, sizeof equal) == 0);
    CHECK(settings.k == 4 && settings.e == 7 && settings.s == 8 && settings.a == GATEWAY_GOOD_A);
    /* What is out of its range does not come into it. */
    const uint32_t out[] = {0, 3, 12, 255, 256, 260, 267, 0x10000 + 10, UINT32_MAX};
    for (size_t i = 0; i < sizeof out / sizeof out[0]; i++) {
        gateway_settings_fill(&settings, out[i]);
        CHECK(gateway_counters_bytes(settings.d, sizeof settings.d) == 0);
        for (size_t place = 0; place < 32; place++)
            CHECK(settings.d[place] < 4 || settings.d[place] > 11);
    }
}

int main(void)
{
    run_lists();

    /* Settings T: 512 counters, 258 words. */
    uint8_t counters[GATEWAY_COUNTERS_BYTES(4)], both[GATEWAY_TABLE_BYTES(4, 1, 2)];
    uint32_t slots[GATEWAY_SLOTS_WORDS(1, 2)];
    const uint8_t fours[] = GATEWAY_EQUAL(4);
    CHECK(sizeof counters == 512 && gateway_counters_bytes(fours, sizeof fours) == 512);
    CHECK(sizeof slots == 4 * 258 && gateway_slots_words(1, 2) == 258);
    CHECK(gateway_slots_bytes(1, 2) == sizeof slots && GATEWAY_SLOTS_BYTES(1, 2) == sizeof slots);
    CHECK(sizeof both == sizeof counters + sizeof slots);

    CHECK(gateway_slots_words(8, 8) == 131074 && gateway_slots_words(0, 1) == 66);
    CHECK(gateway_slots_words(UINT32_MAX, 1) == 0);
    CHECK(gateway_slots_words(9, 1) == 0 && gateway_slots_words(0, 0) == 0);
    CHECK(gateway_slots_words(0, 9) == 0 && gateway_slots_bytes(0, 9) == 0);

    /* A withdrawal has 23 bytes, a length and the octets of its prefix. */
    const uint8_t longest[GATEWAY_WITHDRAWAL_BYTES(32)] = {0};
    CHECK(sizeof longest == 28 && gateway_withdrawal_bytes(32) == 28 && gateway_withdrawal_bytes(25) == 28);
    CHECK(gateway_withdrawal_bytes(24) == 27 && gateway_withdrawal_bytes(17) == 27);
    CHECK(gateway_withdrawal_bytes(16) == 26 && gateway_withdrawal_bytes(9) == 26);
    CHECK(gateway_withdrawal_bytes(8) == 25 && gateway_withdrawal_bytes(1) == 25);
    CHECK(gateway_withdrawal_bytes(0) == 24 && GATEWAY_WITHDRAWAL_BYTES(0) == 24);
    CHECK(gateway_withdrawal_bytes(33) == 0 && gateway_withdrawal_bytes(UINT32_MAX) == 0);
    CHECK(GATEWAY_MESSAGE_BYTES == 4096);

    /* refusal * 2^48 + found * 2^40 + hop * 2^16 + length * 2^8 + probes */
    const uint64_t found = ((uint64_t)1 << 40) + ((uint64_t)65535 << 16) + (32 << 8) + 31;
    CHECK(gateway_refusal(found) == GATEWAY_OK && gateway_found(found) == 1);
    CHECK(gateway_hop(found) == 65535 && gateway_length(found) == 32 && gateway_probes(found) == 31);
    const uint64_t none = 2;
    CHECK(gateway_refusal(none) == GATEWAY_OK && !gateway_found(none));
    CHECK(gateway_hop(none) == 0 && gateway_length(none) == 0 && gateway_probes(none) == 2);
    const uint64_t refused = (uint64_t)10 << 48;
    CHECK(gateway_refusal(refused) == GATEWAY_COUNTER_SHORT && !gateway_found(refused));
    CHECK(gateway_vector(refused) == 0);

    /* refusal * 2^48 + vector */
    CHECK(gateway_vector(32896) == 32896 && gateway_vector(UINT32_MAX) == UINT32_MAX);

    /* refusal * 2^48 + count */
    CHECK(gateway_count(131073) == 131073 && gateway_refusal(131073) == GATEWAY_OK && gateway_count(0) == 0);
    CHECK(gateway_count((uint64_t)18 << 48) == 0 && gateway_refusal((uint64_t)18 << 48) == GATEWAY_BAD_LIST);

    /* refusal * 2^48 + refused * 2^12 + accepted, whatever the bits between may come to hold */
    const uint64_t counted = ((uint64_t)4072 << 12) + 1;
    CHECK(gateway_refusal(counted) == GATEWAY_OK);
    CHECK(gateway_refused(counted) == 4072 && gateway_accepted(counted) == 1);
    const uint64_t full = (uint64_t)0xffffff << 24;
    CHECK(gateway_refusal(full) == GATEWAY_OK && gateway_refused(full) == 0 && gateway_accepted(full) == 0);
    CHECK(gateway_refused(full + 4095) == 0 && gateway_accepted(full + 4095) == 4095);
    const uint64_t no_message = (uint64_t)12 << 48;
    CHECK(gateway_refusal(no_message) == GATEWAY_BAD_MESSAGE && gateway_accepted(no_message) == 0);
    CHECK(gateway_refusal((uint64_t)13 << 48) == GATEWAY_BAD_NEXT_HOP && gateway_refused(no_message) == 0);

    /* Each number that is given has a text of its own. */
    const uint32_t numbers[] = {0, 1, 2, 3, 4, 5, 6, 7, 8, 9, 10, 11, 12, 13, 14, 15, 17, 18, 19};
    const size_t many = sizeof numbers / sizeof numbers[0];
    for (size_t i = 0; i < many; i++) {
        CHECK(strcmp(gateway_refusal_text(numbers[i]), gateway_refusal_text(UINT32_MAX)) != 0);
        for (size_t j = 0; j < i; j++)
            CHECK(strcmp(gateway_refusal_text(numbers[i]), gateway_refusal_text(numbers[j])) != 0);
    }
    const uint32_t unused[] = {16, 20, 65535};
    for (size_t i = 0; i < sizeof unused / sizeof unused[0]; i++)
        CHECK(strcmp(gateway_refusal_text(unused[i]), gateway_refusal_text(UINT32_MAX)) == 0);
    CHECK(GATEWAY_STORED == 6); /* given by no call, and not used anew */
    CHECK(GATEWAY_ODD_PREFIX == 11 && GATEWAY_BAD_MESSAGE == 12 && GATEWAY_LONG_RECORD == 14 && GATEWAY_INSIDE_RECORD == 17);
    CHECK(GATEWAY_BAD_PARTY == 15 && GATEWAY_BAD_LIST == 18 && GATEWAY_BAD_CHUNK == 19);

    /* A table of zeros is party 0's, and the party is the last field: nothing but padding lies behind it. */
    static struct gateway_table table;
    CHECK(table.party == 0);
    CHECK(offsetof(struct gateway_table, party) > offsetof(struct gateway_table, slots_words));
    CHECK(sizeof table - offsetof(struct gateway_table, party) - sizeof table.party < sizeof(size_t));

    /* A stream is three words and room for a header of 12 bytes and a body, with nothing between them. */
    CHECK(GATEWAY_CHUNK_BYTES == 65536 && GATEWAY_RECORD_BYTES == 12 + 65536);
    CHECK(sizeof(struct gateway_stream) == 12 + 65548 && offsetof(struct gateway_stream, room) == 12);
    CHECK(sizeof(struct gateway_counts) == 12);
    CHECK(sizeof(struct gateway_tally) == 4 * 23 && offsetof(struct gateway_tally, refused) == 12);
    CHECK(offsetof(struct gateway_tally, applied) == 4 && offsetof(struct gateway_tally, accepted) == 8);
    static struct gateway_stream stream;
    CHECK(stream.words[0] == 0 && stream.words[1] == 0 && stream.words[2] == 0);
    const struct gateway_tally tally = {0, 0, 0, {0}};
    CHECK(sizeof tally.refused / sizeof tally.refused[0] == GATEWAY_BAD_CHUNK + 1); /* the highest number */

    /* Four words to a result, with nothing between them. */
    const struct gateway_result results[2] = {{1, 2, 3, 4}, {5, 6, 7, 8}};
    const uint32_t words[8] = {1, 2, 3, 4, 5, 6, 7, 8};
    CHECK(sizeof results == sizeof words && memcmp(results, words, sizeof words) == 0);

    /* And four to a difference: length, prefix, and what the first and the second table have. */
    const struct gateway_difference differences[2] = {{1, 2, 3, 4}, {5, 6, 7, 8}};
    CHECK(sizeof differences == sizeof words && memcmp(differences, words, sizeof words) == 0);
    CHECK(differences[0].length == 1 && differences[0].prefix == 2);
    CHECK(differences[0].first == 3 && differences[0].second == 4);

    /* One to each slot of both, and one more. */
    const struct gateway_difference room[GATEWAY_MOST_DIFFERENCES(0, 1, 1, 2)] = {{0, 0, 0, 0}};
    CHECK(sizeof room == (32 + 128 + 1) * sizeof room[0] && GATEWAY_MOST_DIFFERENCES(8, 8, 8, 8) == 131073);
    CHECK(2 * GATEWAY_MOST_DIFFERENCES(1 + 1, 1 + 2, 0, 3 - 1) == 2 * (384 + 64 + 1));
    return wrong;
}
