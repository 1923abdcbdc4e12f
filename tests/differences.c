/*
 * Two tables compared, over the archive: what is listed, in which order and with how much room, for each party, of
 * routes that were added and of memory that no add leaves, and what is refused in which order; worked out from the
 * rules. What a call may write to is compared whole with what it should leave.
 */
#include "check.h"

#include <gateway.h>

#include <stdlib.h>
#include <string.h>

enum { COUNTERS = GATEWAY_COUNTERS_BYTES(4), SLOTS = GATEWAY_SLOTS_WORDS(1, 2) };
enum { OTHER_COUNTERS = GATEWAY_COUNTERS_BYTES(5), OTHER_SLOTS = GATEWAY_SLOTS_WORDS(2, 3) };
enum { MARGIN = 16, ROOM = 24 };

/* Both tables, the list, and margins. */
struct memory {
    uint8_t before[MARGIN], counters[COUNTERS];
    uint32_t slots[SLOTS + 1];
    uint8_t between[MARGIN], other_counters[OTHER_COUNTERS];
    uint32_t other_slots[OTHER_SLOTS + 1];
    struct gateway_difference list[ROOM];
    uint8_t after[MARGIN];
};

static struct memory lent, left;

/* A list for more room than that: a room above what any two tables can need is taken as that. */
static struct gateway_difference large[GATEWAY_MOST_DIFFERENCES(8, 8, 8, 8)];

/* Settings T, and others: at length 8 of T bucket 0, of all prefixes up to 127.0.0.0, has words 56 to 59, and bucket 1
   words 60 to 63; its defaults are words 256 and 257. */
static struct gateway_table first, second;

static void clear(void)
{
    const struct gateway_settings t = {2, GATEWAY_EQUAL(4), 1, 2, 1, 2, 1}, u = {3, GATEWAY_EQUAL(5), 2, 3, 7, 3, 5};
    const struct gateway_table one = {t, lent.counters, COUNTERS, lent.slots, SLOTS, 0};
    const struct gateway_table other = {u, lent.other_counters, OTHER_COUNTERS, lent.other_slots, OTHER_SLOTS, 0};
    memset(&lent, 0xa5, sizeof lent);
    first = one;
    second = other;
    CHECK(gateway_table_clear(&first) == GATEWAY_OK && gateway_table_clear(&second) == GATEWAY_OK);
}

static void add(struct gateway_table table, uint32_t party, uint32_t prefix, uint32_t length, uint32_t hop)
{
    table.party = party;
    CHECK(gateway_table_add(&table, prefix, length, hop) == GATEWAY_OK);
}

/* The exported function on the parts of two tables, with so many bytes of a list. */
static uint64_t number_of(const struct gateway_table *one, const struct gateway_table *other, uint32_t party,
                          uint8_t *list, size_t bytes)
{
    const struct gateway_settings *const t = &one->settings, *const u = &other->settings;
    return gateway_list_differences(
        t->k, t->d, GATEWAY_LENGTHS, t->e, t->s, t->a, t->b, t->c, one->counters, one->counters_bytes,
        (const uint8_t *)one->slots, 4 * one->slots_words, u->k, u->d, GATEWAY_LENGTHS, u->e, u->s, u->a, u->b, u->c,
        other->counters, other->counters_bytes, (const uint8_t *)other->slots, 4 * other->slots_words, party, list,
        bytes);
}

/* Whether a comparison with so much room gives this, and changes nothing else. */
static int answers(const struct gateway_table *one, const struct gateway_table *other, uint32_t party, size_t room,
                   uint32_t refusal, const struct gateway_difference *wanted, uint32_t count)
{
    struct gateway_difference *const list = room > ROOM ? large : lent.list;
    memset(lent.list, 0xa5, sizeof lent.list);
    memset(list, 0xa5, sizeof lent.list);
    left = lent;
    const struct gateway_differences given = gateway_table_difference(one, other, party, list, room);
    memmove(lent.list, list, sizeof lent.list);
    if (count != 0)
        memcpy(left.list, wanted, count * sizeof *wanted);
    return given.refusal == refusal && given.count == count && memcmp(&lent, &left, sizeof lent) == 0;
}

/* The same of the exported function, with any bytes of a list that begins so far after a word. */
static int answers_bytes(const struct gateway_table *one, const struct gateway_table *other, uint32_t party,
                         size_t offset, size_t bytes, uint32_t refusal, const struct gateway_difference *wanted,
                         uint32_t count)
{
    memset(lent.list, 0xa5, sizeof lent.list);
    left = lent;
    const uint64_t number = number_of(one, other, party, (uint8_t *)lent.list + offset, bytes);
    if (count != 0)
        memcpy((uint8_t *)left.list + offset, wanted, count * sizeof *wanted);
    return number == ((uint64_t)refusal << 48) + count && memcmp(&lent, &left, sizeof lent) == 0;
}

/* Whether these are the differences: with exactly enough room and with more, and refused with less. */
static int differ(const struct gateway_table *one, const struct gateway_table *other, uint32_t party,
                  const struct gateway_difference *wanted, uint32_t count)
{
    int right = answers(one, other, party, count, GATEWAY_OK, wanted, count) &&
                answers(one, other, party, count + 1, GATEWAY_OK, wanted, count) &&
                answers(one, other, party, ROOM, GATEWAY_OK, wanted, count);
    for (uint32_t room = 0; room < count; room++)
        right &= answers(one, other, party, room, GATEWAY_BAD_LIST, NULL, 0);
    for (size_t offset = 0; offset < 4; offset++) {
        for (size_t more = 0; more < 20; more++)
            right &= answers_bytes(one, other, party, offset, 16 * count + more, GATEWAY_OK, wanted, count);
        for (size_t bytes = count < 2 ? 0 : 16 * count - 20; bytes < 16 * count; bytes++)
            right &= answers_bytes(one, other, party, offset, bytes, GATEWAY_BAD_LIST, NULL, 0);
    }
    return right;
}

static int same(const struct gateway_table *one, const struct gateway_table *other, uint32_t party)
{
    return differ(one, other, party, NULL, 0) && number_of(one, other, party, NULL, 0) == 0;
}

/* What the tables below differ in for party 0: the default and 10.2.0.0/16 are lost, 10.1.0.0/16 goes to hop 8 and not
   to 9, 5.0.0.0/8 and 255.255.255.255/32 are gained. */
enum { WORKED = 5 };

static const struct gateway_difference worked[WORKED] = {
    {0, 0, 4, 0}, {8, 0x05000000, 0, 9}, {16, 0x0a010000, 10, 9}, {16, 0x0a020000, 10, 0}, {32, 0xffffffff, 0, 9},
};
static const struct gateway_difference turned[WORKED] = {
    {0, 0, 0, 4}, {8, 0x05000000, 9, 0}, {16, 0x0a010000, 9, 10}, {16, 0x0a020000, 0, 10}, {32, 0xffffffff, 9, 0},
};

static void fill(void)
{
    clear();
    add(first, 0, 0x0a020000, 16, 9);
    add(first, 0, 0x0a010000, 16, 9);
    add(first, 0, 0x0a000000, 8, 7);
    add(first, 0, 0, 0, 3);
    add(second, 0, 0xffffffff, 32, 8);
    add(second, 0, 0x0a000000, 8, 7);
    add(second, 0, 0x0a010000, 16, 8);
    add(second, 0, 0x05000000, 8, 8);
}

static void run_worked(void)
{
    fill();
    CHECK(differ(&first, &second, 0, worked, WORKED));
    CHECK(differ(&second, &first, 0, turned, WORKED));
    CHECK(same(&first, &second, 1) && same(&second, &first, 1));
    CHECK(same(&first, &first, 0) && same(&second, &second, 0) && same(&first, &first, 1));

    /* The party of the structs is not looked at. */
    const uint32_t parties[] = {0, 1, 2, 65536, UINT32_MAX};
    for (size_t i = 0; i < sizeof parties / sizeof parties[0]; i++) {
        first.party = parties[i];
        second.party = parties[sizeof parties / sizeof parties[0] - 1 - i];
        CHECK(differ(&first, &second, 0, worked, WORKED) && same(&first, &second, 1));
    }

    /* A difference goes where the second gets what the first has. */
    add(second, 0, 0x0a020000, 16, 9);
    add(second, 0, 0x0a010000, 16, 9);
    add(second, 0, 0, 0, 3);
    const struct gateway_difference gained[] = {worked[1], worked[4]};
    CHECK(differ(&first, &second, 0, gained, 2));
    second.party = 0;
    CHECK(gateway_table_withdraw(&second, 0x05000000, 8) == GATEWAY_OK && differ(&first, &second, 0, gained + 1, 1));
    CHECK(gateway_table_withdraw(&second, 0xffffffff, 32) == GATEWAY_OK && same(&first, &second, 0));
}

/* Room that no memory could hold, and whose bytes would wrap around to fewer than are needed. */
static void run_room(void)
{
    const size_t wraps = (size_t)-1 / sizeof(struct gateway_difference) + 1;
    const size_t rooms[] = {GATEWAY_MOST_DIFFERENCES(1, 2, 2, 3),
                            GATEWAY_MOST_DIFFERENCES(8, 8, 8, 8),
                            GATEWAY_MOST_DIFFERENCES(8, 8, 8, 8) + 1,
                            wraps - 1,
                            wraps,
                            wraps + 1,
                            wraps + WORKED - 1,
                            2 * wraps,
                            15 * wraps + WORKED - 1,
                            (size_t)-1 / 2 + 1,
                            (size_t)-1};
    fill();
    CHECK(wraps * sizeof(struct gateway_difference) == 0);
    for (size_t i = 0; i < sizeof rooms / sizeof rooms[0]; i++) {
        CHECK(answers(&first, &second, 0, rooms[i], GATEWAY_OK, worked, WORKED));
        CHECK(answers(&first, &first, 0, rooms[i], GATEWAY_OK, NULL, 0));
    }
    /* Without room it is asked whether there are any; no list is needed. */
    const struct gateway_differences any = gateway_table_difference(&first, &second, 0, NULL, 0);
    CHECK(any.refusal == GATEWAY_BAD_LIST && any.count == 0);
    const struct gateway_differences none = gateway_table_difference(&second, &second, 0, NULL, 0);
    CHECK(none.refusal == GATEWAY_OK && none.count == 0);
}

/* With an empty second table the routes of the first are listed, and with an empty first those of the second. */
static void run_routes(void)
{
    const struct gateway_difference routes[] = {
        {0, 0, 65536, 0},       {1, 0x80000000, 1, 0},  {8, 0x05000000, 2, 0}, {8, 0x0a000000, 3, 0},
        {8, 0xfe000000, 4, 0},  {24, 0x0a000000, 5, 0}, {31, 0xfffffffe, 6, 0}, {32, 0, 7, 0},
        {32, 0x80000000, 8, 0}, {32, 0xffffffff, 65536, 0}};
    const uint32_t many = sizeof routes / sizeof routes[0];
    clear();
    for (uint32_t i = many; i-- > 0;)
        add(first, 1, routes[i].prefix, routes[i].length, routes[i].first - 1);
    CHECK(differ(&first, &second, 1, routes, many));
    CHECK(same(&first, &second, 0));

    struct gateway_difference others[sizeof routes / sizeof routes[0]];
    for (uint32_t i = 0; i < many; i++) {
        others[i] = routes[i];
        others[i].first = 0;
        others[i].second = routes[i].first;
    }
    CHECK(differ(&second, &first, 1, others, many));
    CHECK(same(&first, &first, 1));
    CHECK(gateway_table_clear(&first) == GATEWAY_OK && same(&first, &second, 1));
}

/* The default, 0.0.0.0/1 and 0.0.0.0/32 have the same prefix and are three routes. */
static void run_zero_prefix(void)
{
    clear();
    add(first, 0, 0, 0, 5);
    const struct gateway_difference lost = {0, 0, 6, 0};
    CHECK(differ(&first, &second, 0, &lost, 1));
    add(second, 0, 0, 32, 5);
    const struct gateway_difference both[] = {{0, 0, 6, 0}, {32, 0, 0, 6}};
    CHECK(differ(&first, &second, 0, both, 2));
    add(second, 0, 0, 0, 5);
    CHECK(differ(&first, &second, 0, both + 1, 1));
    add(first, 0, 0, 32, 5);
    CHECK(same(&first, &second, 0));
    add(first, 0, 0, 1, 0);
    add(second, 0, 0, 1, 65535);
    add(second, 0, 0, 0, 0);
    const struct gateway_difference hops[] = {{0, 0, 6, 1}, {1, 0, 1, 65536}};
    CHECK(differ(&first, &second, 0, hops, 2));
}

/* Each party's routes are compared alone, and told by their hops: hop 0 is 1 for either, and hop 65535 is 65536. */
static void run_parties(void)
{
    clear();
    add(first, 0, 0x0a000000, 8, 0);
    add(first, 1, 0x0a000000, 8, 65535);
    add(second, 0, 0x0a000000, 8, 65535);
    add(second, 1, 0x0a000000, 8, 65535);
    const struct gateway_difference zero[] = {{8, 0x0a000000, 1, 65536}};
    CHECK(differ(&first, &second, 0, zero, 1) && same(&first, &second, 1));
    add(second, 1, 0x0a000000, 8, 0);
    add(second, 1, 0, 0, 9);
    add(first, 0, 0, 0, 9);
    const struct gateway_difference zeros[] = {{0, 0, 10, 0}, {8, 0x0a000000, 1, 65536}};
    const struct gateway_difference ones[] = {{0, 0, 0, 10}, {8, 0x0a000000, 65536, 1}};
    CHECK(differ(&first, &second, 0, zeros, 2) && differ(&first, &second, 1, ones, 2));
}

/* What a mark tells each party: hop + 1, or 0 where it is not the party's. */
static const struct {
    uint32_t mark, told[2];
} marks[] = {
    {0, {0, 0}},     {1, {1, 0}},          {8, {8, 0}},      {65536, {65536, 0}},
    {65537, {0, 1}}, {131072, {0, 65536}}, {131073, {0, 0}}, {UINT32_MAX, {0, 0}},
};

/* A slot and a default with every mark, beside an empty table. */
static void run_marks(void)
{
    for (size_t i = 0; i < sizeof marks / sizeof marks[0]; i++) {
        for (uint32_t party = 0; party < 2; party++) {
            const uint32_t told = marks[i].told[party];
            const struct gateway_difference route = {8, 0x0a000000, told, 0}, lost = {0, 0, told, 0};
            clear();
            lent.slots[58] = 0x0a000000;
            lent.slots[59] = marks[i].mark;
            CHECK(differ(&first, &second, party, &route, told != 0));
            clear();
            lent.slots[256 + party] = marks[i].mark;
            CHECK(differ(&first, &second, party, &lost, told != 0) && same(&first, &second, 1 - party));
        }
    }
}

static void lay(size_t word, uint32_t prefix, uint32_t mark)
{
    lent.slots[word] = prefix;
    lent.slots[word + 1] = mark;
}

/* Memory that no add leaves. */
static void run_damaged(void)
{
    const struct gateway_difference eight = {8, 0x0a000000, 8, 0}, nine = {8, 0x0a000000, 9, 0};

    /* Of two slots the lower counts. */
    clear();
    lay(56, 0x0a000000, 8);
    lay(58, 0x0a000000, 9);
    CHECK(differ(&first, &second, 0, &eight, 1));
    lay(56, 0x0a000000, 131073);
    CHECK(differ(&first, &second, 0, &nine, 1));
    lay(56, 0x0a000000, 65541);
    CHECK(differ(&first, &second, 0, &nine, 1));
    add(second, 0, 0x0a000000, 8, 8);
    CHECK(same(&first, &second, 0));

    /* A slot of another bucket than the prefix's own is no route, and neither is one whose prefix has a bit set after
       its length. */
    clear();
    lay(60, 0x0a000000, 8);
    CHECK(same(&first, &second, 0));
    lay(58, 0x0a000000, 9);
    CHECK(differ(&first, &second, 0, &nine, 1));
    lay(62, 0x80000000, 3);
    const struct gateway_difference two[] = {{8, 0x0a000000, 9, 0}, {8, 0x80000000, 3, 0}};
    CHECK(differ(&first, &second, 0, two, 2));
    clear();
    lay(56, 0x0a000001, 8);
    lay(58, 0x0a800000, 8);
    lay(48, 0x0a000000, 8); /* length 7, which has 10.0.0.0 */
    lay(50, 0x0b000000, 8); /* length 7, which has not 11.0.0.0 */
    const struct gateway_difference shorter = {7, 0x0a000000, 8, 0};
    CHECK(differ(&first, &second, 0, &shorter, 1));

    /* The filters play no part. */
    fill();
    memset(lent.counters, 0xff, sizeof lent.counters);
    memset(lent.other_counters, 0, sizeof lent.other_counters);
    CHECK(differ(&first, &second, 0, worked, WORKED));
}

/* Whether two tables are refused with this number, with room and without. */
static int refused(const struct gateway_table *one, const struct gateway_table *other, uint32_t party, uint32_t refusal)
{
    return answers(one, other, party, ROOM, refusal, NULL, 0) && answers(one, other, party, 0, refusal, NULL, 0) &&
           answers(one, other, party, (size_t)-1, refusal, NULL, 0) &&
           answers_bytes(one, other, party, 1, 16 * WORKED, refusal, NULL, 0) &&
           answers_bytes(one, other, party, 0, 3, refusal, NULL, 0);
}

enum { BAD_SETTINGS = 11, BAD_SIZES = 6 };

/* The table with one setting out of its range. */
static struct gateway_table bad_settings(struct gateway_table table, int which)
{
    struct gateway_settings *const t = &table.settings;
    switch (which) {
    case 0: t->k = 0; break;
    case 1: t->k = 9; break;
    case 2: t->d[0] = 3; break;
    case 3: t->d[31] = 12; break;
    case 4: t->d[15] = 255; break;
    case 5: t->e = 9; break;
    case 6: t->e = UINT32_MAX; break;
    case 7: t->s = 0; break;
    case 8: t->s = 9; break;
    case 9: t->s = UINT32_MAX; break;
    default: t->k = UINT32_MAX;
    }
    return table;
}

/* The table with a list of another size. */
static struct gateway_table bad_size(struct gateway_table table, int which)
{
    switch (which) {
    case 0: table.counters_bytes--; break;
    case 1: table.counters_bytes++; break;
    case 2: table.slots_words--; break;
    case 3: table.slots_words++; break;
    case 4: table.counters_bytes = 0; break;
    default: table.slots_words = 0;
    }
    return table;
}

/* 1 and 2 of the first table come before those of the second, 15 after them, and 18 last. */
static void run_refusals(void)
{
    const uint32_t parties[] = {2, 3, 255, 65536, 0x80000000u, UINT32_MAX};
    fill();
    for (int i = 0; i < BAD_SETTINGS; i++) {
        const struct gateway_table one = bad_settings(first, i), other = bad_settings(second, i);
        CHECK(refused(&one, &second, 0, GATEWAY_BAD_SETTINGS) && refused(&first, &other, 0, GATEWAY_BAD_SETTINGS));
        CHECK(refused(&one, &one, 0, GATEWAY_BAD_SETTINGS) && refused(&one, &other, 2, GATEWAY_BAD_SETTINGS));
        CHECK(refused(&first, &other, 2, GATEWAY_BAD_SETTINGS));
        for (int j = 0; j < BAD_SIZES; j++) {
            const struct gateway_table small = bad_size(first, j), other_small = bad_size(second, j);
            const struct gateway_table both = bad_size(one, j), other_both = bad_size(other, j);
            CHECK(refused(&both, &second, 0, GATEWAY_BAD_SETTINGS));
            CHECK(refused(&one, &other_small, 2, GATEWAY_BAD_SETTINGS));
            CHECK(refused(&first, &other_both, 2, GATEWAY_BAD_SETTINGS));
            CHECK(refused(&small, &other, 2, GATEWAY_BAD_SIZE) && refused(&small, &other_both, 0, GATEWAY_BAD_SIZE));
        }
    }
    for (int j = 0; j < BAD_SIZES; j++) {
        const struct gateway_table one = bad_size(first, j), other = bad_size(second, j);
        CHECK(refused(&one, &second, 0, GATEWAY_BAD_SIZE) && refused(&first, &other, 1, GATEWAY_BAD_SIZE));
        CHECK(refused(&one, &other, 2, GATEWAY_BAD_SIZE) && refused(&first, &other, 2, GATEWAY_BAD_SIZE));
        CHECK(refused(&one, &one, 0, GATEWAY_BAD_SIZE));
    }
    for (size_t i = 0; i < sizeof parties / sizeof parties[0]; i++)
        CHECK(refused(&first, &second, parties[i], GATEWAY_BAD_PARTY) &&
              refused(&first, &first, parties[i], GATEWAY_BAD_PARTY));
    CHECK(answers(&first, &second, 0, WORKED - 1, GATEWAY_BAD_LIST, NULL, 0));

    /* So many words that their bytes would wrap around to as many as there should be. */
    struct gateway_table wide = first, other_wide = second;
    wide.slots_words += (size_t)-1 / 4 + 1;
    other_wide.slots_words += (size_t)-1 / 4 + 1;
    CHECK(4 * wide.slots_words == 4 * SLOTS && 4 * other_wide.slots_words == 4 * OTHER_SLOTS);
    CHECK(answers(&wide, &second, 0, ROOM, GATEWAY_BAD_SIZE, NULL, 0));
    CHECK(answers(&first, &other_wide, 0, ROOM, GATEWAY_BAD_SIZE, NULL, 0));

    /* The settings of one table do not serve the other. */
    struct gateway_table crossed = first;
    crossed.settings = second.settings;
    CHECK(refused(&crossed, &second, 0, GATEWAY_BAD_SIZE) && refused(&second, &crossed, 0, GATEWAY_BAD_SIZE));
}

/* What only the exported function can be told: another count of the values of D, and slots that are no whole words or
   begin anywhere. */
static void run_bytes(void)
{
    static uint8_t d[33], slots[4 * OTHER_SLOTS + 8];
    const size_t counts[] = {0, 1, 31, 33};
    fill();
    const struct gateway_settings *const t = &first.settings, *const u = &second.settings;
#define COMPARED(d_count, bytes, d2_count, slots2, bytes2)                                         \
    gateway_list_differences(t->k, d, d_count, t->e, t->s, t->a, t->b, t->c, lent.counters, COUNTERS, \
                             (const uint8_t *)lent.slots, bytes, u->k, u->d, d2_count, u->e, u->s, u->a, u->b,     \
                             u->c, lent.other_counters, OTHER_COUNTERS, slots2, bytes2, 0, (uint8_t *)lent.list,   \
                             sizeof lent.list)
    memcpy(d, t->d, sizeof t->d);
    d[32] = 4;
    left = lent;
    for (size_t i = 0; i < sizeof counts / sizeof counts[0]; i++) {
        CHECK(COMPARED(counts[i], 4 * SLOTS, 32, slots, 0) == (uint64_t)GATEWAY_BAD_SETTINGS << 48);
        if (counts[i] < 33)
            CHECK(COMPARED(32, 4 * SLOTS, counts[i], slots, 0) == (uint64_t)GATEWAY_BAD_SETTINGS << 48);
    }
    for (size_t off = 1; off < 4; off++) {
        CHECK(COMPARED(32, 4 * SLOTS - off, 31, slots, 0) == (uint64_t)GATEWAY_BAD_SIZE << 48);
        CHECK(COMPARED(32, 4 * SLOTS + off, 31, slots, 0) == (uint64_t)GATEWAY_BAD_SIZE << 48);
        CHECK(COMPARED(32, 4 * SLOTS, 32, slots, 4 * OTHER_SLOTS - off) == (uint64_t)GATEWAY_BAD_SIZE << 48);
        CHECK(COMPARED(32, 4 * SLOTS, 32, slots, 4 * OTHER_SLOTS + off) == (uint64_t)GATEWAY_BAD_SIZE << 48);
    }
    CHECK(memcmp(&lent, &left, sizeof lent) == 0);
    memcpy(left.list, worked, sizeof worked);
    for (size_t off = 0; off < 4; off++) {
        memcpy(slots + off, lent.other_slots, 4 * OTHER_SLOTS);
        memset(lent.list, 0xa5, sizeof lent.list);
        CHECK(COMPARED(32, 4 * SLOTS, 32, slots + off, 4 * OTHER_SLOTS) == WORKED);
        CHECK(memcmp(&lent, &left, sizeof lent) == 0);
    }
#undef COMPARED
}

/* The largest tables, with every /11 that an add takes in the one: eight to a bucket, and all of them listed. */
static void run_largest(void)
{
    enum { MOST = GATEWAY_MOST_DIFFERENCES(8, 8, 8, 8), OFFERED = 2048, ODD = 8 + 128 };
    static uint8_t counters[GATEWAY_COUNTERS_BYTES(11)], empty[GATEWAY_COUNTERS_BYTES(11)];
    static uint32_t slots[GATEWAY_SLOTS_WORDS(8, 8)], free_slots[GATEWAY_SLOTS_WORDS(8, 8)];
    static struct gateway_difference list[MOST + 1];
    const struct gateway_settings t = {1, GATEWAY_EQUAL(11), 8, 8, GATEWAY_GOOD_A, GATEWAY_GOOD_B, GATEWAY_GOOD_C};
    struct gateway_table one = {t, counters, sizeof counters, slots, sizeof slots / 4, 0};
    const struct gateway_table other = {t, empty, sizeof empty, free_slots, sizeof free_slots / 4, 0};
    uint32_t many = 0;
    CHECK(MOST == 131073);
    for (uint32_t i = OFFERED; i-- > 0;) {
        const uint32_t prefix = i << 21;
        const int odd = prefix >> 24 == 127 || prefix >> 28 == 14;
        CHECK(gateway_table_add(&one, prefix, 11, i) == (odd ? GATEWAY_ODD_PREFIX : GATEWAY_OK));
        many += !odd;
    }
    CHECK(many == OFFERED - ODD);
    memset(list, 0xa5, sizeof list);
    struct gateway_differences given = gateway_table_difference(&one, &other, 0, list, many - 1);
    CHECK(given.refusal == GATEWAY_BAD_LIST && given.count == 0 && list[0].length == 0xa5a5a5a5);
    given = gateway_table_difference(&one, &other, 0, list, MOST);
    CHECK(given.refusal == GATEWAY_OK && given.count == many);
    for (uint32_t i = 0, at = 0; i < OFFERED; i++) {
        const uint32_t prefix = i << 21;
        if (prefix >> 24 == 127 || prefix >> 28 == 14)
            continue;
        const struct gateway_difference wanted = {11, prefix, i + 1, 0};
        CHECK(memcmp(&list[at++], &wanted, sizeof wanted) == 0);
    }
    for (uint32_t i = many; i <= MOST; i++)
        CHECK(list[i].length == 0xa5a5a5a5 && list[i].second == 0xa5a5a5a5);
}

int main(void)
{
    run_worked();
    run_room();
    run_routes();
    run_zero_prefix();
    run_parties();
    run_marks();
    run_damaged();
    run_refusals();
    run_bytes();
    run_largest();
    return wrong ? EXIT_FAILURE : EXIT_SUCCESS;
}
