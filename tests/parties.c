/*
 * Two parties on one table, over the archive: what each finds and changes, what they share, every mark at which a slot
 * or a default comes to mean something else, and what is refused of a party; worked out from the rules. What a refused
 * call leaves is compared whole.
 */
#include "check.h"
#include "records.h"

#include <gateway.h>

#include <stdlib.h>
#include <string.h>

enum { COUNTERS = GATEWAY_COUNTERS_BYTES(4), SLOTS = GATEWAY_SLOTS_WORDS(1, 2), MARGIN = 16 };

/* A dump or a day as far as it has come. */
struct progress {
    struct gateway_counts counts;
    struct gateway_tally tally;
    struct gateway_stream stream;
};

/* All that a call may write to, and what should be left there. */
struct memory {
    uint8_t first[MARGIN], counters[COUNTERS];
    uint8_t second[MARGIN];
    uint32_t slots[SLOTS + 1];
    struct gateway_result result;
    struct progress file;
    uint8_t last[MARGIN];
};

static struct memory lent, left;

static int is_left(void)
{
    return memcmp(&lent, &left, sizeof lent) == 0;
}

enum { LIBRARY, SCHOOL, PARTIES };

/* A table of settings T, as a party sees it: length 8 has counters 112 to 127; its bucket 0, of all prefixes up to
   127.0.0.0, has words 56 to 59, and its bucket 1 words 60 to 63. */
static struct gateway_table table_of(uint32_t party)
{
    const struct gateway_settings t = {2, GATEWAY_EQUAL(4), 1, 2, 1, 2, 1};
    const struct gateway_table table = {t, lent.counters, COUNTERS, lent.slots, SLOTS, party};
    return table;
}

static struct gateway_table library, school;

/* Clears the table; the words behind it are a margin. */
static void clear(void)
{
    library = table_of(LIBRARY);
    school = table_of(SCHOOL);
    memset(&lent, 0, sizeof lent);
    memset(lent.first, 0xa5, sizeof lent.first);
    memset(lent.second, 0xa5, sizeof lent.second);
    memset(lent.last, 0xa5, sizeof lent.last);
    lent.slots[SLOTS] = 0xa5a5a5a5;
    left = lent;
    memset(lent.counters, 0x5a, sizeof lent.counters);
    memset(lent.slots, 0x5a, SLOTS * sizeof lent.slots[0]);
    CHECK(gateway_table_clear(&library) == GATEWAY_OK && is_left());
}

/* 65,536 marks for each party, from 1 on: the n-th is that of hop n, counted from 0. */
static uint32_t mark_of(uint32_t party, uint32_t hop)
{
    return party == LIBRARY ? 1 + hop : 65537 + hop;
}

/* Words and counters that are to be there from here on. */
static void leave_slot(size_t word, uint32_t prefix, uint32_t mark)
{
    left.slots[word] = prefix;
    left.slots[word + 1] = mark;
}

static void leave_counters(size_t one, size_t other, uint8_t times)
{
    left.counters[one] = left.counters[other] = times;
}

/* 10.0.0.0/8 has positions 0 and 1, the top four bits of 10 and of 30. */
static void leave_ten(uint8_t times)
{
    leave_counters(112, 113, times);
}

/* The number that a lookup answers. */
static uint64_t number_of(const struct gateway_table *table, uint32_t address)
{
    const struct gateway_settings *const t = &table->settings;
    return gateway_lookup(t->k, t->d, sizeof t->d, t->e, t->s, t->a, t->b, t->c, table->counters, table->counters_bytes,
                          (const uint8_t *)table->slots, 4 * table->slots_words, table->party, address);
}

/* Whether a lookup gives this to an address, by itself and in a list, and changes nothing else. */
static int gives(struct gateway_table table, uint32_t address, uint32_t found, uint32_t hop, uint32_t length,
                 uint32_t probes)
{
    const struct gateway_answer answer = gateway_table_lookup(&table, address);
    const int right = answer.refusal == GATEWAY_OK && answer.found == found && answer.hop == hop &&
                      answer.length == length && answer.probes == probes;
    const struct gateway_result result = {found, hop, length, probes};
    const uint32_t refusal = gateway_table_lookup_list(&table, &address, 1, &lent.result);
    left.result = result;
    return right && refusal == GATEWAY_OK && is_left() &&
           number_of(&table, address) == ((uint64_t)found << 40 | (uint64_t)hop << 16 | length << 8 | probes);
}

static int finds(struct gateway_table table, uint32_t address, uint32_t hop, uint32_t length, uint32_t probes)
{
    return gives(table, address, 1, hop, length, probes);
}

static int finds_none(struct gateway_table table, uint32_t address, uint32_t probes)
{
    return gives(table, address, 0, 0, 0, probes);
}

/* Whether an update gives this number, and leaves what is to be left. */
static int adds(struct gateway_table table, uint32_t prefix, uint32_t length, uint32_t hop, uint32_t refusal)
{
    return gateway_table_add(&table, prefix, length, hop) == refusal && is_left();
}

static int withdraws(struct gateway_table table, uint32_t prefix, uint32_t length, uint32_t refusal)
{
    return gateway_table_withdraw(&table, prefix, length) == refusal && is_left();
}

static int changes(struct gateway_table table, uint32_t prefix, uint32_t length, uint32_t hop, uint32_t refusal)
{
    return gateway_table_change(&table, prefix, length, hop) == refusal && is_left();
}

/* The same prefix for both: each has its own hop, and a slot and counters of its own. */
static void run_same_prefix(void)
{
    clear();
    leave_slot(56, 0x0a000000, 8);
    leave_ten(1);
    CHECK(adds(library, 0x0a000000, 8, 7, GATEWAY_OK));
    CHECK(finds(library, 0x0a010203, 7, 8, 1) && finds_none(school, 0x0a010203, 1));
    CHECK(changes(school, 0x0a000000, 8, 9, GATEWAY_NOT_STORED));
    CHECK(withdraws(school, 0x0a000000, 8, GATEWAY_NOT_STORED));

    leave_slot(58, 0x0a000000, 65546);
    leave_ten(2);
    CHECK(adds(school, 0x0a000000, 8, 9, GATEWAY_OK));
    CHECK(finds(library, 0x0a010203, 7, 8, 1) && finds(school, 0x0a010203, 9, 8, 1));

    /* Replaced and changed, each keeps its slot. */
    left.slots[59] = 131072;
    CHECK(adds(school, 0x0a000000, 8, 65535, GATEWAY_OK) && finds(school, 0x0a010203, 65535, 8, 1));
    left.slots[57] = 65536;
    CHECK(adds(library, 0x0a000000, 8, 65535, GATEWAY_OK) && finds(library, 0x0a010203, 65535, 8, 1));
    left.slots[59] = 65537;
    CHECK(changes(school, 0x0a000000, 8, 0, GATEWAY_OK) && finds(school, 0x0a010203, 0, 8, 1));
    left.slots[57] = 1;
    CHECK(changes(library, 0x0a000000, 8, 0, GATEWAY_OK) && finds(library, 0x0a010203, 0, 8, 1));

    /* The bucket is full for either, and the other bucket is not. */
    CHECK(adds(library, 0x08000000, 8, 1, GATEWAY_BUCKET_FULL) && adds(school, 0x08000000, 8, 1, GATEWAY_BUCKET_FULL));
    leave_slot(60, 0xc0000000, 65538);
    leave_counters(124, 116, 1);
    CHECK(adds(school, 0xc0000000, 8, 1, GATEWAY_OK) && finds_none(library, 0xc0000001, 1));

    /* What one withdraws is gone for it alone. Its slot is free for either. */
    leave_slot(56, 0, 0);
    leave_ten(1);
    CHECK(withdraws(library, 0x0a000000, 8, GATEWAY_OK) && withdraws(library, 0x0a000000, 8, GATEWAY_NOT_STORED));
    CHECK(finds_none(library, 0x0a010203, 1) && finds(school, 0x0a010203, 0, 8, 1));
    leave_slot(56, 0x08000000, 65540);
    leave_ten(2); /* the top four bits of 8 and of 24 are the same */
    CHECK(adds(school, 0x08000000, 8, 3, GATEWAY_OK) && finds(school, 0x08010203, 3, 8, 1));
    CHECK(adds(library, 0x0a000000, 8, 1, GATEWAY_BUCKET_FULL));
    leave_slot(58, 0, 0);
    leave_ten(1);
    CHECK(withdraws(school, 0x0a000000, 8, GATEWAY_OK));
    leave_slot(58, 0x0a000000, 2);
    leave_ten(2);
    CHECK(adds(library, 0x0a000000, 8, 1, GATEWAY_OK) && finds_none(school, 0x0a010203, 1));
}

/* A longer route of one is none for the other; it costs that a probe. */
static void run_longer(void)
{
    clear();
    CHECK(gateway_table_add(&library, 0x0a000000, 8, 7) == GATEWAY_OK);
    CHECK(gateway_table_add(&school, 0x0a000000, 8, 9) == GATEWAY_OK);
    CHECK(gateway_table_add(&school, 0x0a010000, 16, 5) == GATEWAY_OK);
    left = lent;
    CHECK(finds(library, 0x0a010203, 7, 8, 2) && finds(school, 0x0a010203, 5, 16, 1));
    CHECK(gateway_table_match_vector(&library, 0x0a010203).vector == 0x8080);
    CHECK(gateway_table_match_vector(&school, 0x0a010203).vector == 0x8080);
}

/* Each counter is the sum of both: P9's, where every step lands on one counter, takes three routes. */
static void run_counters(void)
{
    clear();
    library.settings.k = school.settings.k = 5;
    library.settings.a = library.settings.b = school.settings.a = school.settings.b = 0;
    CHECK(gateway_table_add(&library, 1, 32, 1) == GATEWAY_OK && gateway_table_add(&school, 1, 32, 2) == GATEWAY_OK);
    CHECK(gateway_table_add(&school, 0x80000001, 32, 3) == GATEWAY_OK);
    left = lent;
    CHECK(lent.counters[496] == 15);
    CHECK(adds(library, 0x80000001, 32, 4, GATEWAY_COUNTER_FULL));
    CHECK(adds(school, 0x80000002, 32, 4, GATEWAY_COUNTER_FULL));
    left.slots[249] = 65536;
    CHECK(adds(library, 1, 32, 65535, GATEWAY_OK)); /* what it has stored needs no room */
    CHECK(gateway_table_withdraw(&school, 1, 32) == GATEWAY_OK && lent.counters[496] == 10);
    CHECK(gateway_table_add(&library, 0x80000001, 32, 4) == GATEWAY_OK && lent.counters[496] == 15);
}

/* The marks at which something changes, and whose they are; PARTIES is nobody's. */
static const struct {
    uint32_t mark, party, hop;
} marks[] = {
    {0, PARTIES, 0},          {1, LIBRARY, 0},      {65536, LIBRARY, 65535},   {65537, SCHOOL, 0},
    {131072, SCHOOL, 65535},  {131073, PARTIES, 0}, {UINT32_MAX, PARTIES, 0},
};
enum { MARKS = sizeof marks / sizeof marks[0] };

/* 10.0.0.0/8 in the first slot of its bucket with a mark, with its counters, and another prefix in the second with
   another. */
static void lay_slots(uint32_t mark, uint32_t second_mark)
{
    clear();
    leave_slot(56, 0x0a000000, mark);
    leave_slot(58, 0x10000000, second_mark);
    leave_ten(1);
    lent = left;
}

static void run_slot_marks(void)
{
    for (size_t i = 0; i < MARKS; i++) {
        for (size_t j = 0; j < MARKS; j++) {
            for (uint32_t party = 0; party < PARTIES; party++) {
                const uint32_t mark = marks[i].mark, second = marks[j].mark, hop = marks[i].hop;
                const int own = marks[i].party == party, taken = marks[i].party != PARTIES;
                const int full = taken && marks[j].party != PARTIES;
                const struct gateway_table table = table_of(party);

                lay_slots(mark, second);
                CHECK(own ? finds(table, 0x0a010203, hop, 8, 1) : finds_none(table, 0x0a010203, 1));
                CHECK(gateway_table_match_vector(&table, 0x0a010203).vector == 128);

                if (own)
                    left.slots[57] = mark_of(party, 5);
                CHECK(changes(table, 0x0a000000, 8, 5, own ? GATEWAY_OK : GATEWAY_NOT_STORED));

                lay_slots(mark, second);
                if (own) {
                    leave_slot(56, 0, 0);
                    leave_ten(0);
                }
                CHECK(withdraws(table, 0x0a000000, 8, own ? GATEWAY_OK : GATEWAY_NOT_STORED));

                lay_slots(mark, second);
                if (own)
                    left.slots[57] = mark_of(party, 6);
                else if (!full) {
                    leave_slot(taken ? 58 : 56, 0x0a000000, mark_of(party, 6));
                    leave_ten(2);
                }
                CHECK(adds(table, 0x0a000000, 8, 6, own || !full ? GATEWAY_OK : GATEWAY_BUCKET_FULL));
            }
        }
    }
}

/* Both defaults, word 256 for party 0 and word 257 for party 1, with every mark in either. */
static void run_default_marks(void)
{
    for (size_t i = 0; i < MARKS; i++) {
        for (size_t j = 0; j < MARKS; j++) {
            for (uint32_t party = 0; party < PARTIES; party++) {
                const size_t mine = party == LIBRARY ? i : j, word = 256 + party;
                const int own = marks[mine].party == party;
                const struct gateway_table table = table_of(party);
                clear();
                left.slots[256] = marks[i].mark;
                left.slots[257] = marks[j].mark;
                const struct memory laid = lent = left;
                CHECK(own ? finds(table, 0x0b000001, marks[mine].hop, 0, 0) : finds_none(table, 0x0b000001, 0));
                CHECK(gateway_table_match_vector(&table, 0x0b000001).vector == 0);

                lent = left = laid;
                if (own)
                    left.slots[word] = mark_of(party, 5);
                CHECK(changes(table, 0, 0, 5, own ? GATEWAY_OK : GATEWAY_NOT_STORED));
                lent = left = laid;
                if (own)
                    left.slots[word] = 0;
                CHECK(withdraws(table, 0, 0, own ? GATEWAY_OK : GATEWAY_NOT_STORED));
                lent = left = laid;
                left.slots[word] = mark_of(party, 6);
                CHECK(adds(table, 0, 0, 6, GATEWAY_OK) && finds(table, 0x0b000001, 6, 0, 0));
            }
        }
    }
}

/* Of a party's equals the lowest slot counts, whatever lies before and between: one bucket of eight slots, words 112 to
   127 of length 8. */
static void run_lowest(void)
{
    static const uint32_t laid[8] = {131073, 65540, 3, 0, 4, 65541, 5, 65542};
    static uint32_t wide[GATEWAY_SLOTS_WORDS(0, 8)];
    struct gateway_table tables[PARTIES] = {table_of(LIBRARY), table_of(SCHOOL)};
    for (uint32_t party = 0; party < PARTIES; party++) {
        tables[party].settings.e = 0;
        tables[party].settings.s = 8;
        tables[party].slots = wide;
        tables[party].slots_words = sizeof wide / sizeof wide[0];
    }
    CHECK(gateway_table_clear(&tables[0]) == GATEWAY_OK);
    memset(lent.counters + 112, 15, 2);
    for (size_t i = 0; i < 8; i++) {
        wide[112 + 2 * i] = 0x0a000000;
        wide[113 + 2 * i] = laid[i];
    }
    for (uint32_t hop = 2; hop <= 4; hop++) {
        CHECK(gateway_table_lookup(&tables[LIBRARY], 0x0a010203).hop == hop);
        CHECK(gateway_table_lookup(&tables[SCHOOL], 0x0a010203).hop == hop + 1);
        CHECK(gateway_table_withdraw(&tables[LIBRARY], 0x0a000000, 8) == GATEWAY_OK);
        CHECK(gateway_table_lookup(&tables[SCHOOL], 0x0a010203).hop == hop + 1);
        CHECK(gateway_table_withdraw(&tables[SCHOOL], 0x0a000000, 8) == GATEWAY_OK);
    }
    CHECK(!gateway_table_lookup(&tables[LIBRARY], 0x0a010203).found);
    CHECK(!gateway_table_lookup(&tables[SCHOOL], 0x0a010203).found);
    CHECK(wide[113] == 131073 && wide[112] == 0x0a000000);
}

/* A table that holds something of both in every way, and what is left of it. */
static void fill(void)
{
    clear();
    for (uint32_t party = 0; party < PARTIES; party++) {
        struct gateway_table table = table_of(party);
        CHECK(gateway_table_add(&table, 0, 0, 3 + party) == GATEWAY_OK);
        CHECK(gateway_table_add(&table, 0x0a000000, 8, 7 + party) == GATEWAY_OK);
    }
    left = lent;
}

/* Clear and match vector do not look at the party. */
static void run_unnamed(void)
{
    static const uint32_t parties[] = {0, 1, 2, 7, 65536, UINT32_MAX};
    for (size_t i = 0; i < sizeof parties / sizeof parties[0]; i++) {
        struct gateway_table table = table_of(parties[i]);
        fill();
        const struct gateway_claims claims = gateway_table_match_vector(&table, 0x0a010203);
        CHECK(claims.refusal == GATEWAY_OK && claims.vector == 128 && is_left());
        CHECK(finds(library, 0x0a010203, 7, 8, 1) && finds(school, 0x0a010203, 8, 8, 1));
        CHECK(finds(library, 0x0b000001, 3, 0, 0) && finds(school, 0x0b000001, 4, 0, 0));
        memset(left.counters, 0, sizeof left.counters);
        memset(left.slots, 0, SLOTS * sizeof left.slots[0]);
        CHECK(gateway_table_clear(&table) == GATEWAY_OK && is_left());
        CHECK(finds_none(library, 0x0a010203, 0) && finds_none(school, 0x0a010203, 0));
    }
}

/* Takes a chunk of a day or of a dump. */
static uint32_t take(int day, struct gateway_table table, struct progress *of, const uint8_t *chunk, size_t size)
{
    return day ? gateway_table_replay(&table, &of->stream, &of->tally, hops, HOPS, chunk, size)
               : gateway_table_import(&table, &of->stream, &of->counts, hops, HOPS, chunk, size);
}

/* The calls that name a party. Each gives or writes something where it is accepted; a bad one has wrong besides what is
   checked after the party. */
enum call { ADD, WITHDRAW, CHANGE, LOOKUP, LIST, UPDATE, IMPORT, REPLAY, CALLS };

static uint64_t answer(int which, const struct gateway_table *table, int bad)
{
    const struct gateway_settings *const t = &table->settings;
    const uint32_t prefix = bad ? 0x7f000001 : 0x0a000000, length = bad ? 33 : 8, hop = bad ? 65536 : 9;
    const uint8_t address[4] = {3, 2, 1, 10};
#define WORDS                                                                                      \
    t->k, t->d, GATEWAY_LENGTHS, t->e, t->s, t->a, t->b, t->c, table->counters, table->counters_bytes, table->slots, \
        table->slots_words, table->party
#define BYTES                                                                                      \
    t->k, t->d, GATEWAY_LENGTHS, t->e, t->s, t->a, t->b, t->c, table->counters, table->counters_bytes, \
        (const uint8_t *)table->slots, 4 * table->slots_words, table->party
    switch (which) {
    case ADD: return gateway_add(WORDS, prefix, length, hop);
    case WITHDRAW: return gateway_withdraw(WORDS, prefix, length);
    case CHANGE: return gateway_change(WORDS, prefix, length, hop);
    case LOOKUP: return number_of(table, 0x0a010203);
    case LIST:
        return gateway_lookup_list(BYTES, address, sizeof address, (uint8_t *)&lent.result,
                                   sizeof lent.result - (bad ? 1 : 0));
    case UPDATE: return gateway_update(WORDS, file.bytes, bad ? 22 : 45, hops, bad ? 0 : HOPS);
    default: {
        const size_t record = (which == IMPORT ? 0 : 2) + (bad ? 1 : 0);
        return (uint64_t)take(which == REPLAY, *table, &lent.file, file.bytes + file.starts[record],
                              file.starts[record + 1] - file.starts[record])
               << 48;
    }
    }
#undef WORDS
#undef BYTES
}

#define UPDATE_BYTES                                                                               \
    "ff ff ff ff ff ff ff ff ff ff ff ff ff ff ff ff 00 2d 02 00 03 10 0a 01 00 0e 40 01 01 00 40 02 00 " NEXT_HOP   \
    "18 c0 00 02 00"

/* A message, which withdraws 10.1.0.0/16 and announces 192.0.2.0/24 and the default; then the record of a dump, which
   adds 12.0.0.0/8, and one that is not well-formed; then two of a day with that message, the second with a marker that
   is wrong. */
static void make_bytes(void)
{
    empty_file();
    put(UPDATE_BYTES);
    put_record("00 0d 00 02", "00 00 00 09 08 0c 00 01 00 01 65 00 00 00 00 07 " NEXT_HOP);
    put_record("00 0d 00 02", "00 00 00 09 08 0c 00 01 00 01 65 00 00 00 00 06 " NEXT_HOP);
    put_record("00 10 00 04", "00 00 fd e8 00 00 fd e9 00 00 00 01 0a 09 09 01 0a 09 09 fe " UPDATE_BYTES);
    put_record("00 10 00 04", "00 00 fd e8 00 00 fd e9 00 00 00 01 0a 09 09 01 0a 09 09 fe " UPDATE_BYTES);
    file.bytes[file.size - 45] = 0;
}

static int refuses(const struct gateway_table *table, uint64_t refusal)
{
    int all = 1;
    for (int which = 0; which < CALLS; which++)
        for (int bad = 0; bad < 2; bad++)
            all &= answer(which, table, bad) == refusal << 48 && is_left();
    return all;
}

/* 15 comes after 1 and 2 and before all else, and changes nothing. */
static void run_refusals(void)
{
    static const uint32_t parties[] = {2, 3, 7, 255, 256, 65535, 65536, 0x80000000u, UINT32_MAX};
    make_bytes();
    for (size_t i = 0; i < sizeof parties / sizeof parties[0]; i++) {
        struct gateway_table table = table_of(parties[i]);
        fill();
        CHECK(refuses(&table, GATEWAY_BAD_PARTY));
        CHECK(gateway_table_lookup(&table, 0x0a010203).refusal == GATEWAY_BAD_PARTY);
        CHECK(gateway_table_update(&table, file.bytes, 45, hops, HOPS).refusal == GATEWAY_BAD_PARTY && is_left());
        table.slots_words--;
        CHECK(refuses(&table, GATEWAY_BAD_SIZE));
        table.slots_words += 2;
        CHECK(refuses(&table, GATEWAY_BAD_SIZE));
        table.slots_words--;
        table.counters_bytes--;
        CHECK(refuses(&table, GATEWAY_BAD_SIZE));
        table.settings.d[31] = 12;
        CHECK(refuses(&table, GATEWAY_BAD_SETTINGS));

        /* 19 comes before 1, and an end before that. */
        lent.file.counts.refused = lent.file.tally.refused[15] = 4000000001u;
        left = lent;
        CHECK(answer(IMPORT, &table, 0) == (uint64_t)GATEWAY_BAD_CHUNK << 48 && is_left());
        CHECK(answer(REPLAY, &table, 0) == (uint64_t)GATEWAY_BAD_CHUNK << 48 && is_left());
        lent.file.stream.words[0] = 15;
        left = lent;
        CHECK(answer(IMPORT, &table, 0) == (uint64_t)GATEWAY_LONG_RECORD << 48 && is_left());
        CHECK(answer(REPLAY, &table, 0) == (uint64_t)GATEWAY_LONG_RECORD << 48 && is_left());
    }

    /* The two that there are, and what was wrong besides: each call does or gives something, or its own number. */
    static const uint32_t numbers[CALLS] = {3, 3, 3, 0, 18, 12, 12, 12};
    for (uint32_t party = 0; party < PARTIES; party++) {
        for (int which = 0; which < CALLS; which++) {
            const struct gateway_table table = table_of(party);
            fill();
            const uint64_t number = answer(which, &table, 0);
            CHECK(gateway_refusal(number) == GATEWAY_OK && (number != 0 || !is_left()));
            fill();
            CHECK(gateway_refusal(answer(which, &table, 1)) == numbers[which]);
        }
    }
}

/* A message for one party, beside what the other has of the same prefixes. 10.1.0.0/16 has counters 240 and 241 and
   words 120 to 123; 192.0.2.0/24 has counters 380 and 372 and words 188 to 191. */
static void run_messages(void)
{
    for (uint32_t party = 0; party < PARTIES; party++) {
        const uint32_t other = 1 - party;
        struct gateway_table mine = table_of(party), theirs = table_of(other);
        make_bytes();
        clear();
        leave_slot(120, 0x0a010000, mark_of(other, 4));
        leave_slot(122, 0x0a010000, mark_of(party, 5));
        leave_counters(240, 241, 2);
        CHECK(gateway_table_add(&theirs, 0x0a010000, 16, 4) == GATEWAY_OK && adds(mine, 0x0a010000, 16, 5, GATEWAY_OK));

        leave_slot(122, 0, 0);
        leave_counters(240, 241, 1);
        leave_slot(188, 0xc0000200, mark_of(party, 1));
        leave_counters(380, 372, 1);
        left.slots[256 + party] = mark_of(party, 1);
        struct gateway_report report = gateway_table_update(&mine, file.bytes, 45, hops, HOPS);
        CHECK(report.refusal == GATEWAY_OK && report.accepted == 3 && report.refused == 0 && is_left());
        report = gateway_table_update(&mine, file.bytes, 45, hops, HOPS);
        CHECK(report.refusal == GATEWAY_OK && report.accepted == 2 && report.refused == 1 && is_left());
        CHECK(finds(mine, 0x0a010203, 1, 0, 1) && finds(theirs, 0x0a010203, 4, 16, 1));
        CHECK(finds(mine, 0xc0000207, 1, 24, 1) && finds_none(theirs, 0xc0000207, 1));

        leave_slot(120, 0, 0);
        leave_counters(240, 241, 0);
        leave_slot(190, 0xc0000200, mark_of(other, 1));
        leave_counters(380, 372, 2);
        left.slots[256 + other] = mark_of(other, 1);
        report = gateway_table_update(&theirs, file.bytes, 45, hops, HOPS);
        CHECK(report.refusal == GATEWAY_OK && report.accepted == 3 && report.refused == 0 && is_left());
    }
}

/* Takes a record in two chunks, cut at each place in turn. Between the two a wrong party is refused, and the other
   party takes the same record from a stream of its own. 12.0.0.0/8 has counters 112 and 114, by the top four bits of 12
   and of 36. */
static void run_streams(void)
{
    static struct progress others;
    make_bytes();
    for (size_t which = 0; which < 2 * PARTIES; which++) {
        const int day = which / 2 == 1;
        const uint32_t party = which % 2, other = 1 - party;
        const uint8_t *const from = file.bytes + file.starts[day ? 2 : 0];
        const size_t size = file.starts[day ? 3 : 1] - file.starts[day ? 2 : 0];
        for (size_t cut = 0; cut <= size; cut++) {
            clear();
            memset(&others, 0, sizeof others);
            CHECK(take(day, table_of(party), &lent.file, from, cut) == GATEWAY_OK);
            left = lent;
            CHECK(take(day, table_of(2), &lent.file, from + cut, size - cut) == GATEWAY_BAD_PARTY && is_left());
            CHECK(take(day, table_of(other), &others, from, size) == GATEWAY_OK);
            CHECK(take(day, table_of(party), &lent.file, from + cut, size - cut) == GATEWAY_OK);
            CHECK(memcmp(&lent.file.counts, &others.counts, sizeof others.counts) == 0);
            CHECK(memcmp(&lent.file.tally, &others.tally, sizeof others.tally) == 0);

            /* The other party came first, unless the first chunk had the whole record. */
            const size_t word = day ? 188 : 56, later = cut == size ? 0 : 2;
            const uint32_t prefix = day ? 0xc0000200 : 0x0c000000;
            const struct memory taken = lent;
            clear();
            lent = taken;
            left.file = taken.file;
            leave_slot(word + later, prefix, mark_of(party, 1));
            leave_slot(word + 2 - later, prefix, mark_of(other, 1));
            leave_counters(day ? 380 : 112, day ? 372 : 114, 2);
            left.slots[256] = day ? mark_of(LIBRARY, 1) : 0;
            left.slots[257] = day ? mark_of(SCHOOL, 1) : 0;
            CHECK(is_left());
            CHECK(gateway_stream_end(&lent.file.stream) == GATEWAY_OK);
            CHECK(gateway_stream_end(&others.stream) == GATEWAY_OK);
        }
        CHECK(day ? others.tally.seen == 1 && others.tally.applied == 1 && others.tally.accepted == 2 &&
                        others.tally.refused[GATEWAY_NOT_STORED] == 1
                  : others.counts.accepted == 1 && others.counts.refused == 0 && others.counts.without_hop == 0);
    }
}

int main(void)
{
    run_same_prefix();
    run_longer();
    run_counters();
    run_slot_marks();
    run_default_marks();
    run_lowest();
    run_unnamed();
    run_refusals();
    run_messages();
    run_streams();
    return wrong ? EXIT_FAILURE : EXIT_SUCCESS;
}
