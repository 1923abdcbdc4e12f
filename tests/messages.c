/*
 * The messages of gateway.h, over the archive: what each does and what is refused, worked out from the format.
 * Every message is lent from each boundary in turn, and done twice: by the exported function and by the one on a
 * table, on memory of the same contents. All of it is done for each party.
 */
#include "check.h"

#include <gateway.h>

#include <stdlib.h>
#include <string.h>

enum { COUNTERS = GATEWAY_COUNTERS_BYTES(4), SLOTS = GATEWAY_SLOTS_WORDS(1, 2) };

/* Lists of two tables, and what is left there of a table's memory. */
static uint8_t counters[COUNTERS], twin_counters[COUNTERS], left_counters[COUNTERS];
static uint32_t slots[SLOTS], twin_slots[SLOTS], left_slots[SLOTS];

/* Whose table it is. */
static uint32_t party;

/* A cleared table: that of settings T, of P9, of P10 and the like have as much memory or less. */
static struct gateway_table cleared(uint32_t k, uint32_t e, uint32_t s, uint32_t a, uint32_t b, uint32_t c)
{
    struct gateway_table table = {{k, GATEWAY_EQUAL(4), e, s, a, b, c}, counters, COUNTERS, slots,
                                  gateway_slots_words(e, s), party};
    memset(slots, 0, sizeof slots); /* those beyond this table too */
    CHECK(gateway_table_clear(&table) == GATEWAY_OK);
    return table;
}

static struct gateway_table cleared_t(void)
{
    return cleared(2, 1, 2, 1, 2, 1);
}

/* 10.9.9.1 is hop 1, its lowest place. */
static const uint32_t hops[] = {7, 0x0a090901, 0x0a090901, 0x0a090902};
enum { HOPS = sizeof hops / sizeof hops[0] };

#define NEXT_HOP "40 03 04 0a 09 09 01 "
#define OTHER_HOP "40 03 04 0a 09 09 02 "
#define UNKNOWN_HOP "40 03 04 0a 09 09 03 "
#define ORIGIN "40 01 01 00 "
#define AS_PATH "40 02 00 "

struct message {
    uint8_t bytes[GATEWAY_MESSAGE_BYTES + 8];
    size_t size;
};

static void put(struct message *m, const char *hex)
{
    while (*hex != '\0') {
        char *end;
        m->bytes[m->size++] = (uint8_t)strtoul(hex, &end, 16);
        for (hex = end; *hex == ' '; hex++)
            ;
    }
}

static void put_two(struct message *m, size_t at, size_t number)
{
    m->bytes[at] = (uint8_t)(number >> 8);
    m->bytes[at + 1] = (uint8_t)number;
}

/* Says in the message how long it is. */
static struct message measured(struct message m)
{
    put_two(&m, 16, m.size);
    return m;
}

/* A message of these parts, each in hexadecimal digits. */
static struct message message_of(const char *withdrawn, const char *attributes, const char *announced)
{
    struct message m;
    memset(m.bytes, 255, sizeof m.bytes);
    m.bytes[18] = 2;
    m.size = 21;
    put(&m, withdrawn);
    put_two(&m, 19, m.size - 21);
    const size_t at = m.size;
    m.size += 2;
    put(&m, attributes);
    put_two(&m, at, m.size - at - 2);
    put(&m, announced);
    return measured(m);
}

/* A message with another byte at a place. */
static struct message with(struct message m, size_t at, int byte)
{
    m.bytes[at] = (uint8_t)byte;
    return m;
}

/* The first bytes of a message, which says that it is so short. */
static struct message cut(struct message m, size_t size)
{
    m.size = size;
    return measured(m);
}

static int same_memory(const uint8_t other_counters[COUNTERS], const uint32_t other_slots[SLOTS])
{
    return memcmp(counters, other_counters, sizeof counters) == 0 && memcmp(slots, other_slots, sizeof slots) == 0;
}

/* Whether both functions give these three numbers to so many bytes, and do the same to a table, nothing if they
   refuse, and nothing to what else they are lent. */
static int gives(struct gateway_table *table, const uint8_t *message, size_t size, const uint32_t *list, size_t count,
                 uint32_t refusal, uint32_t accepted, uint32_t refused)
{
    static uint8_t lent[GATEWAY_MESSAGE_BYTES + 16];
    static size_t offset;
    uint8_t *const from = lent + offset++ % 4;
    const struct gateway_settings t = table->settings;
    struct gateway_table twin = *table;
    twin.counters = twin_counters;
    twin.slots = twin_slots;
    memcpy(twin_counters, counters, sizeof counters);
    memcpy(twin_slots, slots, sizeof slots);
    memcpy(left_counters, counters, sizeof counters);
    memcpy(left_slots, slots, sizeof slots);
    if (size != 0)
        memcpy(from, message, size);

    const uint64_t number =
        gateway_update(t.k, t.d, sizeof t.d, t.e, t.s, t.a, t.b, t.c, counters, table->counters_bytes, slots,
                       table->slots_words, table->party, message == NULL ? NULL : from, size, list, count);
    const struct gateway_report report = gateway_table_update(&twin, from, size, list, count);
    return number == ((uint64_t)refusal << 48) + ((uint64_t)refused << 12) + accepted && report.refusal == refusal &&
           report.accepted == accepted && report.refused == refused && same_memory(twin_counters, twin_slots) &&
           (refusal == GATEWAY_OK || same_memory(left_counters, left_slots)) &&
           (size == 0 || memcmp(from, message, size) == 0);
}

/* The same of a message and the list of hops. */
static int counts(struct gateway_table *table, struct message m, uint32_t accepted, uint32_t refused)
{
    return gives(table, m.bytes, m.size, hops, HOPS, GATEWAY_OK, accepted, refused);
}

static int refuses(struct gateway_table *table, struct message m, uint32_t refusal)
{
    return gives(table, m.bytes, m.size, hops, HOPS, refusal, 0, 0);
}

static int is_none(struct gateway_table *table, struct message m)
{
    return refuses(table, m, GATEWAY_BAD_MESSAGE);
}

/* Whether an address goes to this hop by a route of this length. */
static int goes_to(const struct gateway_table *table, uint32_t address, uint32_t hop, uint32_t length)
{
    const struct gateway_answer answer = gateway_table_lookup(table, address);
    return answer.refusal == GATEWAY_OK && answer.found && answer.hop == hop && answer.length == length;
}

static int is_empty(void)
{
    size_t used = 0;
    for (size_t i = 0; i < COUNTERS; i++)
        used += counters[i] != 0;
    for (size_t i = 0; i < SLOTS; i++)
        used += slots[i] != 0;
    return used == 0;
}

/* Withdraws 10.1.0.0/16, and announces 192.0.2.0/24 and the default. */
static struct message worked(void)
{
    return message_of("10 0a 01", ORIGIN AS_PATH NEXT_HOP, "18 c0 00 02 00");
}

/* 192.0.2.0/24 has positions 12 and 4, bytes 380 and 372, and bucket 1, whose first slot has words 188 and 189. The
   default of party 0 is word 256, that of party 1 the next. */
static int holds_worked(uint32_t hop)
{
    uint8_t expected_counters[COUNTERS] = {0};
    uint32_t expected_slots[SLOTS] = {0};
    expected_counters[380] = expected_counters[372] = 1;
    expected_slots[188] = 0xc0000200;
    expected_slots[189] = expected_slots[256 + party] = (party == 0 ? 1 : 65537) + hop;
    return same_memory(expected_counters, expected_slots);
}

static void run_worked(void)
{
    static const uint8_t bytes[] = {255, 255, 255, 255, 255, 255, 255, 255, 255,  255,  255,  255, 255, 255, 255,
                                    255, 0,   45,  2,   0,   3,   16,  10,  1,    0,    14,   64,  1,   1,   0,
                                    64,  2,   0,   64,  3,   4,   10,  9,   9,    1,    24,   192, 0,   2,   0};
    struct gateway_table table = cleared_t();
    const struct message m = worked();
    CHECK(m.size == sizeof bytes && memcmp(m.bytes, bytes, sizeof bytes) == 0);
    CHECK(gateway_table_add(&table, 0x0a010000, 16, 9) == GATEWAY_OK);
    CHECK(counts(&table, m, 3, 0) && holds_worked(1));
    CHECK(goes_to(&table, 0xc00002ff, 1, 24) && goes_to(&table, 0x0a010203, 1, 0));
    CHECK(counts(&table, m, 2, 1) && holds_worked(1)); /* 10.1.0.0/16 is not stored any more */
    CHECK(gives(&table, m.bytes, m.size, hops + 1, 1, GATEWAY_OK, 2, 1) && holds_worked(0));

    /* The 23 bytes that end a neighbour's first telling. */
    CHECK(counts(&table, message_of("", "", ""), 0, 0) && holds_worked(0));
    CHECK(gives(&table, message_of("", "", "").bytes, 23, NULL, 0, GATEWAY_OK, 0, 0) && holds_worked(0));
    CHECK(counts(&table, message_of("18 c0 00 02 00", "", ""), 2, 0) && is_empty());
}

/* What the table refuses is skipped, and withdrawn routes go first. */
static void run_skipped(void)
{
    struct gateway_table table = cleared_t();
    CHECK(counts(&table, message_of("", NEXT_HOP, "08 0a 08 08 08 09 10 0a 01"), 3, 1)); /* 9.0.0.0/8 gets 8 */
    CHECK(goes_to(&table, 0x0a020203, 1, 8) && goes_to(&table, 0x08010203, 1, 8));
    CHECK(goes_to(&table, 0x0a010203, 1, 16) && !gateway_table_lookup(&table, 0x09010203).found);
    CHECK(counts(&table, message_of("08 0a", OTHER_HOP, "08 09"), 2, 0));
    CHECK(goes_to(&table, 0x09010203, 3, 8) && !gateway_table_lookup(&table, 0x0a020203).found);
    CHECK(counts(&table, message_of("08 09", NEXT_HOP, "08 09"), 2, 0) && goes_to(&table, 0x09010203, 1, 8));
    CHECK(counts(&table, message_of("", OTHER_HOP, "08 09 08 09 08 0a"), 2, 1) && goes_to(&table, 0x09010203, 3, 8));
    CHECK(counts(&table, message_of("08 09 08 09 10 0a 01 08 08 08 07", "", ""), 3, 2) && is_empty());

    table = cleared(5, 0, 4, 0, 0, 0); /* P9: the fourth gets 9 */
    CHECK(counts(&table, message_of("", NEXT_HOP, "20 00 00 00 01 20 00 00 00 02 20 00 00 00 03"), 3, 0));
    CHECK(counts(&table, message_of("", NEXT_HOP, "20 00 00 00 04 00"), 1, 1));
    CHECK(goes_to(&table, 3, 1, 32) && goes_to(&table, 4, 1, 0));
    counters[496] = 0; /* damage: a withdrawal gets 10 */
    CHECK(counts(&table, message_of("20 00 00 00 01 00", "", ""), 1, 1) && slots[248] == 1 && slots[256 + party] == 0);
}

/* A prefix of each length whose further bits are set: they mean nothing. */
static void run_lengths(void)
{
    struct gateway_table table = cleared(1, 0, 1, 1, 2, 1);
    for (uint32_t length = 0; length <= 32; length++) {
        const uint32_t prefix = length == 0 ? 0 : 0xa5a5a5a5u & 0xffffffffu << (32 - length);
        const uint32_t tail = length == 0 ? 0xffffffffu : (uint32_t)(0xffffffffu >> (length - 1)) >> 1;
        const uint32_t octets = 0xa5a5a5a5u | tail;
        char hex[32];
        snprintf(hex, sizeof hex, "%02x %02x %02x %02x %02x", (unsigned)length, (unsigned)(octets >> 24),
                 (unsigned)(octets >> 16 & 255), (unsigned)(octets >> 8 & 255), (unsigned)(octets & 255));
        hex[2 + 3 * ((length + 7) / 8)] = '\0';
        CHECK(counts(&table, message_of("", NEXT_HOP, hex), 1, 0));
        CHECK(goes_to(&table, 0xa5a5a5a5, 1, length));
        CHECK(gateway_table_change(&table, prefix, length, 2) == GATEWAY_OK);
        CHECK(counts(&table, message_of(hex, "", ""), 1, 0) && is_empty());
    }
}

/* As many routes as a message has room for. */
static void run_longest(void)
{
    struct gateway_table table = cleared_t();
    struct message m = message_of("", NEXT_HOP, "");
    while (m.size < GATEWAY_MESSAGE_BYTES)
        m.bytes[m.size++] = 0;
    CHECK(counts(&table, measured(m), 4066, 0) && goes_to(&table, 1, 1, 0));
    m = message_of("", "", "");
    put_two(&m, 19, 4073);
    for (m.size = 21; m.size < GATEWAY_MESSAGE_BYTES; m.size++)
        m.bytes[m.size] = 0;
    CHECK(counts(&table, measured(m), 1, 4072) && is_empty());
    CHECK(counts(&table, measured(m), 0, 4073) && is_empty());
    m.bytes[m.size++] = 0;
    CHECK(is_none(&table, measured(m)));
}

/* Attributes other than NEXT_HOP are stepped over, and of the flags one counts: it says how long a length is. */
static void run_attributes(void)
{
    static const char *const good[] = {
        "40 03 04 0a 09 09 01",                                        /* NEXT_HOP */
        "00 03 04 0a 09 09 01",                                        /* no flag, and all but the one */
        "ef 03 04 0a 09 09 01",
        "50 03 00 04 0a 09 09 01",                                     /* a length of two bytes */
        "ff 03 00 04 0a 09 09 01",
        "40 02 07 40 03 04 0a 09 09 02 40 03 04 0a 09 09 01",          /* one that looks like it within AS_PATH */
        "40 03 04 0a 09 09 01 40 02 00",                               /* at the front */
        "50 02 00 00 40 03 04 0a 09 09 01 50 08 00 04 fd e8 00 64",    /* between others */
        "00 00 00 40 03 04 0a 09 09 01 ff ff 00 00",
        "c0 0e 05 00 02 01 00 00 40 03 04 0a 09 09 01 80 0f 03 00 02 01", /* routes of another family */
    };
    struct gateway_table table = cleared_t();
    for (size_t i = 0; i < sizeof good / sizeof good[0]; i++) {
        CHECK(counts(&table, message_of("", good[i], "08 0a"), 1, 0) && goes_to(&table, 0x0a010203, 1, 8));
        CHECK(counts(&table, message_of("08 0a", good[i], ""), 1, 0) && is_empty());
    }
    /* A value of 255 bytes, and one of 256. */
    for (size_t size = 255; size <= 256; size++) {
        struct message m = message_of("", size == 255 ? "40 02 ff" : "50 02 01 00", "");
        memset(m.bytes + m.size, 3, size);
        m.size += size;
        put(&m, NEXT_HOP "08 0a");
        put_two(&m, 21, m.size - 25);
        CHECK(counts(&table, measured(m), 1, 0) && goes_to(&table, 0x0a010203, 1, 8));
    }
}

/* Bytes that are no message. The table holds a route that each would change. */
static void run_no_messages(void)
{
    static const struct {
        const char *withdrawn, *attributes, *announced;
    } bad[] = {
        {"21 0a 00 00 00 00", "", ""},                   /* a length above 32, also where the bytes would do */
        {"08 0a 21 0a 00 00 00", "", ""},
        {"08 0a ff", "", ""},
        {"08 0a", NEXT_HOP, "21 0b 00 00 00 00"},
        {"08 0a", NEXT_HOP, "08 0b ff"},
        {"08", "", ""},                                  /* a prefix past the end of its part */
        {"08 0a 01", "", ""},
        {"08 0a 09 0a", "", ""},
        {"08 0a 11 0a 00", "", ""},
        {"08 0a 19 0a 00 00", "", ""},
        {"08 0a", NEXT_HOP, "08"},
        {"08 0a", NEXT_HOP, "08 0b 20 0b 00 00"},
        {"08 0a", "40", ""},                             /* an attribute past the end of the attributes */
        {"08 0a", "40 01", ""},
        {"08 0a", "40 01 01", "08 0b"},
        {"08 0a", "10 01 00", ""},
        {"08 0a", "50 01 00 01", "08 0b"},
        {"08 0a", "50 02 01 00 00", ""},
        {"08 0a", NEXT_HOP "40", "08 0b"},
        {"08 0a", NEXT_HOP "40 02 02 00", "08 0b"},
        {"08 0a", "40 02 06 " NEXT_HOP, "08 0b"},
        {"08 0a", "40 03 04 0a 09 09", "08 0b"},
        {"08 0a", NEXT_HOP NEXT_HOP, "08 0b"},           /* NEXT_HOP twice, or of another size */
        {"08 0a", NEXT_HOP ORIGIN OTHER_HOP, ""},
        {"08 0a", "40 03 00", ""},
        {"08 0a", "40 03 03 0a 09 09", "08 0b"},
        {"08 0a", "40 03 05 0a 09 09 01 00", "08 0b"},
        {"08 0a", "50 03 01 04 0a 09 09 01", "08 0b"},
        {"08 0a", NEXT_HOP "40 03 00", "08 0b"},
    };
    static const int types[] = {0, 1, 3, 4, 5, 130, 255};
    struct gateway_table table = cleared_t();
    CHECK(gateway_table_add(&table, 0x0a000000, 8, 9) == GATEWAY_OK);
    CHECK(gateway_table_add(&table, 0x0a010000, 16, 9) == GATEWAY_OK);
    const struct message m = worked();
    for (size_t i = 0; i < sizeof bad / sizeof bad[0]; i++)
        CHECK(is_none(&table, message_of(bad[i].withdrawn, bad[i].attributes, bad[i].announced)));
    for (size_t at = 0; at < 16; at++)
        CHECK(is_none(&table, with(m, at, 254)) && is_none(&table, with(m, at, 0)));
    for (size_t i = 0; i < sizeof types / sizeof types[0]; i++)
        CHECK(is_none(&table, with(m, 18, types[i])));

    /* Another length than the lent one, or one below 23. */
    CHECK(is_none(&table, with(m, 17, 44)) && is_none(&table, with(m, 17, 46)));
    CHECK(is_none(&table, with(m, 16, 1)) && is_none(&table, with(m, 16, 45)));
    for (size_t size = 0; size < m.size; size++)
        CHECK(gives(&table, m.bytes, size, hops, HOPS, GATEWAY_BAD_MESSAGE, 0, 0));
    CHECK(gives(&table, m.bytes, m.size + 1, hops, HOPS, GATEWAY_BAD_MESSAGE, 0, 0));
    CHECK(gives(&table, NULL, 0, hops, HOPS, GATEWAY_BAD_MESSAGE, 0, 0));
    CHECK(gives(&table, NULL, 0, NULL, 0, GATEWAY_BAD_MESSAGE, 0, 0));
    for (size_t size = 18; size < 23; size++)
        CHECK(is_none(&table, cut(message_of("", "", ""), size)));

    /* A part past the end: withdrawn routes from 19 on, attributes from 24 on. */
    for (size_t size = 23; size < m.size; size++)
        if (size != 40 && size != 44)
            CHECK(is_none(&table, cut(m, size)));
    CHECK(is_none(&table, with(m, 19, 255)) && is_none(&table, with(m, 24, 255)));
    CHECK(is_none(&table, with(m, 20, 25)) && is_none(&table, with(m, 25, 20)));
    CHECK(is_none(&table, with(message_of("", "", ""), 20, 1)));
    CHECK(is_none(&table, with(message_of("", "", ""), 22, 1)));
    CHECK(goes_to(&table, 0x0a010203, 9, 16) && goes_to(&table, 0x0a020203, 9, 8));

    /* Cut after the attributes, it withdraws; cut after its first announced route, it announces that one. */
    CHECK(counts(&table, cut(m, 40), 1, 0) && counts(&table, cut(m, 44), 1, 1));
    CHECK(goes_to(&table, 0x0a010203, 9, 8) && goes_to(&table, 0xc0000207, 1, 24));
}

/* Routes are announced, and there is no hop for them. */
static void run_no_hops(void)
{
    enum { MANY = 65538 };
    static uint32_t list[MANY];
    struct gateway_table table = cleared_t();
    CHECK(gateway_table_add(&table, 0x0a000000, 8, 9) == GATEWAY_OK);
    CHECK(refuses(&table, message_of("08 0a", "", "08 0b"), GATEWAY_BAD_NEXT_HOP));
    CHECK(refuses(&table, message_of("08 0a", ORIGIN AS_PATH, "00"), GATEWAY_BAD_NEXT_HOP));
    CHECK(refuses(&table, message_of("08 0a", UNKNOWN_HOP, "08 0b"), GATEWAY_BAD_NEXT_HOP));
    CHECK(refuses(&table, message_of("08 0a", UNKNOWN_HOP, "08"), GATEWAY_BAD_MESSAGE));
    const struct message m = message_of("08 0a", NEXT_HOP, "08 0b");
    CHECK(gives(&table, m.bytes, m.size, NULL, 0, GATEWAY_BAD_NEXT_HOP, 0, 0));
    CHECK(gives(&table, m.bytes, m.size, hops, 1, GATEWAY_BAD_NEXT_HOP, 0, 0));
    list[65535] = 0;
    list[65536] = list[65537] = 0x0a090901;
    CHECK(gives(&table, m.bytes, m.size, list, MANY, GATEWAY_BAD_NEXT_HOP, 0, 0));
    CHECK(gives(&table, m.bytes, m.size, list, 65536, GATEWAY_BAD_NEXT_HOP, 0, 0));
    CHECK(goes_to(&table, 0x0a010203, 9, 8));
    list[65535] = 0x0a090901;
    CHECK(gives(&table, m.bytes, m.size, list, MANY, GATEWAY_OK, 2, 0) && goes_to(&table, 0x0b010203, 65535, 8));
    CHECK(gives(&table, m.bytes, m.size, list, 65536, GATEWAY_OK, 1, 1) && goes_to(&table, 0x0b010203, 65535, 8));

    /* Where none are announced none is wanted. */
    CHECK(counts(&table, message_of("", UNKNOWN_HOP, ""), 0, 0));
    const struct message last = message_of("08 0b", UNKNOWN_HOP, "");
    CHECK(gives(&table, last.bytes, last.size, NULL, 0, GATEWAY_OK, 1, 0) && is_empty());
}

/* 1 comes before 2, 2 before 15, and 15 before 12. */
static void run_order(void)
{
    static const uint32_t others[] = {2, 3, 65536, 0x80000000u, UINT32_MAX};
    struct gateway_table table = cleared_t();
    const struct message good = worked(), bad = with(good, 18, 4);
    for (size_t i = 0; i < sizeof others / sizeof others[0]; i++) {
        table.party = others[i];
        CHECK(refuses(&table, good, GATEWAY_BAD_PARTY) && refuses(&table, bad, GATEWAY_BAD_PARTY));
        CHECK(refuses(&table, message_of("08 0a", "", "08 0b"), GATEWAY_BAD_PARTY));
        CHECK(gives(&table, NULL, 0, NULL, 0, GATEWAY_BAD_PARTY, 0, 0));
    }
    table.slots_words--;
    CHECK(refuses(&table, good, GATEWAY_BAD_SIZE) && refuses(&table, bad, GATEWAY_BAD_SIZE));
    CHECK(gives(&table, NULL, 0, NULL, 0, GATEWAY_BAD_SIZE, 0, 0));
    table.slots_words++;
    table.counters_bytes--;
    CHECK(refuses(&table, good, GATEWAY_BAD_SIZE) && refuses(&table, bad, GATEWAY_BAD_SIZE));
    table.settings.k = 9;
    CHECK(refuses(&table, good, GATEWAY_BAD_SETTINGS) && refuses(&table, bad, GATEWAY_BAD_SETTINGS));
    CHECK(gives(&table, NULL, 0, NULL, 0, GATEWAY_BAD_SETTINGS, 0, 0));
    table.settings.k = 2;
    table.settings.d[31] = 12;
    CHECK(refuses(&table, good, GATEWAY_BAD_SETTINGS) && refuses(&table, bad, GATEWAY_BAD_SETTINGS));
}

/* Writes a withdrawal into room that begins on no boundary, and tells whether both functions give this number and
   leave these bytes, or where they refuse what was there, and what lies beside the room. */
static int writes(uint32_t prefix, uint32_t length, size_t room_bytes, uint32_t refusal, const uint8_t *bytes)
{
    uint8_t room[64], twin[sizeof room], left[sizeof room];
    memset(room, 0xa5, sizeof room);
    memset(twin, 0xa5, sizeof twin);
    memset(left, 0xa5, sizeof left);
    if (refusal == GATEWAY_OK)
        memcpy(left + 1, bytes, room_bytes);
    return gateway_write_withdrawal(prefix, length, room + 1, room_bytes) == (uint64_t)refusal << 48 &&
           gateway_withdrawal_message(prefix, length, twin + 1, room_bytes) == refusal &&
           memcmp(room, left, sizeof room) == 0 && memcmp(twin, left, sizeof twin) == 0;
}

static void run_withdrawals(void)
{
    static const uint8_t bytes[] = {255, 255, 255, 255, 255, 255, 255, 255, 255, 255, 255, 255, 255,
                                    255, 255, 255, 0,   25,  2,   0,   2,   8,   10,  0,   0};
    CHECK(writes(0x0a000000, 8, sizeof bytes, GATEWAY_OK, bytes));
    CHECK(writes(0, 0, 24, GATEWAY_OK, message_of("00", "", "").bytes));
    CHECK(writes(0x80000000, 1, 25, GATEWAY_OK, message_of("01 80", "", "").bytes));
    CHECK(writes(0x0a800000, 9, 26, GATEWAY_OK, message_of("09 0a 80", "", "").bytes));
    CHECK(writes(0x0a0b0000, 16, 26, GATEWAY_OK, message_of("10 0a 0b", "", "").bytes));
    CHECK(writes(0x0a0b8000, 17, 27, GATEWAY_OK, message_of("11 0a 0b 80", "", "").bytes));
    CHECK(writes(0x0a0b0c00, 24, 27, GATEWAY_OK, message_of("18 0a 0b 0c", "", "").bytes));
    CHECK(writes(0x0a0b0c80, 25, 28, GATEWAY_OK, message_of("19 0a 0b 0c 80", "", "").bytes));
    CHECK(writes(0xffffffff, 32, 28, GATEWAY_OK, message_of("20 ff ff ff ff", "", "").bytes));

    CHECK(writes(0x0a000000, 33, 29, GATEWAY_BAD_LENGTH, NULL));
    CHECK(writes(0x0a000001, 33, 25, GATEWAY_BAD_LENGTH, NULL));
    CHECK(writes(0, UINT32_MAX, 24, GATEWAY_BAD_LENGTH, NULL) && writes(0, 256, 24, GATEWAY_BAD_LENGTH, NULL));
    CHECK(writes(0x0a000001, 8, 25, GATEWAY_HOST_BIT, NULL) && writes(0x0a000001, 8, 24, GATEWAY_HOST_BIT, NULL));
    CHECK(writes(1, 0, 24, GATEWAY_HOST_BIT, NULL) && writes(0xffffffff, 31, 28, GATEWAY_HOST_BIT, NULL));
    for (size_t size = 0; size < 40; size++)
        if (size != sizeof bytes)
            CHECK(writes(0x0a000000, 8, size, GATEWAY_BAD_LIST, NULL));
    CHECK(gateway_withdrawal_message(0x0a000000, 8, NULL, 0) == GATEWAY_BAD_LIST);

    /* What is written is read as that one withdrawal. */
    struct gateway_table table = cleared(1, 0, 1, 1, 2, 1);
    for (uint32_t length = 0; length <= 32; length++) {
        const uint32_t prefix = length == 0 ? 0 : 0xa5a5a5a5u & 0xffffffffu << (32 - length);
        const size_t size = gateway_withdrawal_bytes(length);
        uint8_t room[GATEWAY_WITHDRAWAL_BYTES(32)];
        CHECK(gateway_withdrawal_message(prefix, length, room, size) == GATEWAY_OK);
        CHECK(gateway_table_add(&table, prefix, length, 5) == GATEWAY_OK);
        CHECK(gives(&table, room, size, NULL, 0, GATEWAY_OK, 1, 0) && is_empty());
        CHECK(gives(&table, room, size, NULL, 0, GATEWAY_OK, 0, 1) && is_empty());
    }
}

int main(void)
{
    for (party = 0; party <= 1; party++) {
        run_worked();
        run_skipped();
        run_lengths();
        run_longest();
        run_attributes();
        run_no_messages();
        run_no_hops();
        run_order();
        run_withdrawals();
    }
    return wrong ? EXIT_FAILURE : EXIT_SUCCESS;
}
