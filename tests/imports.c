/*
 * The imports of gateway.h, over the archive: what each chunk does and what is refused, worked out from the format.
 * Every chunk is lent from each boundary in turn, and taken twice: by the exported function and by the one on a table,
 * on memory of the same contents. Margins lie between the lists that are lent, and no call may touch them. All of it
 * is done for each party.
 */
#include "check.h"
#include "records.h"

#include <gateway.h>

#include <stdlib.h>
#include <string.h>

enum { COUNTERS = GATEWAY_COUNTERS_BYTES(4), SLOTS = GATEWAY_SLOTS_WORDS(1, 2), MARGIN = 16 };

/* All that a chunk may write to. */
struct lent {
    uint8_t first[MARGIN], counters[COUNTERS];
    uint8_t second[MARGIN];
    uint32_t slots[SLOTS];
    uint8_t third[MARGIN];
    struct gateway_counts counts;
    uint8_t fourth[MARGIN];
    struct gateway_stream stream;
    uint8_t last[MARGIN];
};

/* Those of the two functions, and what was lent to them. */
static struct lent lent, twin, before;

/* Whose table it is. */
static uint32_t party;

static int same(const struct lent *one, const struct lent *other)
{
    return memcmp(one, other, sizeof *one) == 0;
}

/* Zeros in the words and the counts begin an import; the room may hold anything. */
static void begin(void)
{
    memset(&lent.counts, 0, sizeof lent.counts);
    memset(lent.stream.words, 0, sizeof lent.stream.words);
}

static struct gateway_table table_over(struct lent *memory, struct gateway_settings settings)
{
    struct gateway_table table = {settings, memory->counters, COUNTERS, memory->slots, SLOTS, party};
    return table;
}

/* A cleared table of settings T, and an import that begins. */
static struct gateway_table cleared(void)
{
    const struct gateway_settings t = {2, GATEWAY_EQUAL(4), 1, 2, 1, 2, 1};
    memset(&lent, 0xa5, sizeof lent);
    struct gateway_table table = table_over(&lent, t);
    CHECK(gateway_table_clear(&table) == GATEWAY_OK);
    begin();
    return table;
}

/* Types and subtypes of records: the peers and the routes of a dump, and a message that was seen. */
#define PEERS "00 0d 00 01 "
#define ROUTE "00 0d 00 02 "
#define MESSAGE "00 10 00 04 "

/* An entry of a neighbour with these attributes. */
static void put_entry(const char *attributes)
{
    put("00 01 65 00 00 00 00 00");
    const size_t from = file.size;
    put(attributes);
    write_number(from - 2, 2, file.size - from);
}

/* The record of a route: its prefix, and up to three entries by their attributes. */
static void put_route(const char *prefix, const char *first, const char *second, const char *third)
{
    const char *const entries[] = {first, second, third};
    size_t many = 0;
    begin_record(ROUTE);
    put("00 00 00 09");
    put(prefix);
    put_bytes(0, 2);
    const size_t count = file.size - 2;
    for (; many < 3 && entries[many] != NULL; many++)
        put_entry(entries[many]);
    write_number(count, 2, many);
    end_record();
}

static void put_good(const char *prefix)
{
    put_route(prefix, NEXT_HOP, NULL, NULL);
}

/* Whether both functions give this number to a chunk, and leave the same; a chunk is only read. */
static int gives_by(struct gateway_table table, const uint32_t *list, size_t count, const uint8_t *chunk, size_t size,
                    uint32_t refusal)
{
    static uint8_t bytes[GATEWAY_CHUNK_BYTES + 8];
    static size_t offset;
    uint8_t *const from = bytes + offset++ % 4;
    const struct gateway_settings t = table.settings;
    struct gateway_table other = table;
    before = twin = lent;
    other.counters = twin.counters;
    other.slots = twin.slots;
    if (size != 0)
        memcpy(from, chunk, size);

    uint32_t counts[5] = {1, lent.counts.accepted, lent.counts.refused, lent.counts.without_hop, 2};
    const uint64_t number =
        gateway_import(t.k, t.d, sizeof t.d, t.e, t.s, t.a, t.b, t.c, lent.counters, table.counters_bytes, lent.slots,
                       table.slots_words, table.party, list, count, counts + 1, lent.stream.words, lent.stream.room,
                       chunk == NULL ? NULL : from, size);
    const struct gateway_counts counted = {counts[1], counts[2], counts[3]};
    lent.counts = counted;
    return number == (uint64_t)refusal << 48 && counts[0] == 1 && counts[4] == 2 &&
           gateway_table_import(&other, &twin.stream, &twin.counts, list, count, chunk == NULL ? NULL : from, size) ==
               refusal &&
           same(&lent, &twin) && (size == 0 || memcmp(from, chunk, size) == 0);
}

static int gives(struct gateway_table table, const uint8_t *chunk, size_t size, uint32_t refusal)
{
    return gives_by(table, hops, HOPS, chunk, size, refusal);
}

/* The same, and all is as it was. */
static int refuses(struct gateway_table table, const uint8_t *chunk, size_t size, uint32_t refusal)
{
    return gives(table, chunk, size, refusal) && same(&lent, &before);
}

/* The whole dump in one chunk. */
static int imports(struct gateway_table table, uint32_t refusal)
{
    return gives(table, file.bytes, file.size, refusal);
}

/* Whether both functions give this number to the end, and leave the same words, and nothing else otherwise. */
static int ends(uint32_t refusal)
{
    before = twin = lent;
    const uint64_t number = gateway_end_stream(lent.stream.words);
    memcpy(before.stream.words, lent.stream.words, sizeof lent.stream.words);
    return number == (uint64_t)refusal << 48 && gateway_stream_end(&twin.stream) == refusal && same(&lent, &twin) &&
           same(&lent, &before);
}

static int counted(uint32_t accepted, uint32_t refused, uint32_t without_hop)
{
    return lent.counts.accepted == accepted && lent.counts.refused == refused && lent.counts.without_hop == without_hop;
}

static int has_words(uint32_t ended, uint32_t read, uint32_t left)
{
    const uint32_t *const words = lent.stream.words;
    return words[0] == ended && words[1] == read && words[2] == left;
}

static void set_words(uint32_t ended, uint32_t read, uint32_t left)
{
    lent.stream.words[0] = ended;
    lent.stream.words[1] = read;
    lent.stream.words[2] = left;
}

static int goes_to(struct gateway_table table, uint32_t address, uint32_t hop, uint32_t length)
{
    const struct gateway_answer answer = gateway_table_lookup(&table, address);
    return answer.refusal == GATEWAY_OK && answer.found && answer.hop == hop && answer.length == length;
}

static int goes_nowhere(struct gateway_table table, uint32_t address)
{
    const struct gateway_answer answer = gateway_table_lookup(&table, address);
    return answer.refusal == GATEWAY_OK && !answer.found;
}

/* Four routes that are accepted, one for which its bucket is full, two without a hop, and records of other kinds. */
static void make_worked(void)
{
    empty_file();
    put_record(PEERS, "01 02 03 04 05");
    put_route("08 0a", ORIGIN AS_PATH NEXT_HOP, NULL, NULL);
    put_route("10 0a 01", UNKNOWN_HOP, ORIGIN, ORIGIN OTHER_HOP AS_PATH);
    put_route("08 08", NEXT_HOP, OTHER_HOP, NULL);
    put_route("08 09", NEXT_HOP, NULL, NULL);
    put_route("00", NULL, NULL, NULL);
    put_record(MESSAGE, "");
    put_route("18 c0 00 02", UNKNOWN_HOP, AS_PATH, NULL);
    put_record(MESSAGE, "00 0d 00 02 00 00 00 01 ff ff ff ff ff");
    put_route("00", "", OTHER_HOP, NULL);
}

static int is_worked(struct gateway_table table)
{
    return counted(4, 1, 2) && goes_to(table, 0x0a020203, 1, 8) && goes_to(table, 0x0a010203, 3, 16) &&
           goes_to(table, 0x08010203, 1, 8) && goes_to(table, 0x09010203, 3, 0) && goes_to(table, 0xc0000207, 3, 0);
}

static void run_worked(void)
{
    const struct gateway_table table = cleared();
    make_worked();
    CHECK(imports(table, GATEWAY_OK) && is_worked(table) && has_words(0, 0, 0));
    CHECK(ends(GATEWAY_OK) && has_words(1, 0, 0));

    /* Again, with the counts that there are: what is stored is replaced, and one finds its bucket full as before. */
    set_words(0, 0, 0);
    CHECK(imports(table, GATEWAY_OK) && counted(8, 2, 4) && ends(GATEWAY_OK));

    /* Nothing at all is a dump, and so is one of other records alone. */
    begin();
    CHECK(refuses(table, NULL, 0, GATEWAY_OK) && ends(GATEWAY_OK));
    begin();
    empty_file();
    put_record(MESSAGE, "01");
    CHECK(imports(table, GATEWAY_OK) && counted(0, 0, 0) && ends(GATEWAY_OK));
}

static int is_route(size_t record)
{
    const uint8_t kind[] = {0, 13, 0, 2};
    return memcmp(file.bytes + file.starts[record] + 4, kind, sizeof kind) == 0;
}

/* Whether the stream stands as it must where so many bytes of the dump have come, and ends as it must there. */
static int stands_at(size_t place)
{
    const size_t record = record_at(place), start = file.starts[record], end = file.starts[record + 1];
    const size_t read = place - start;
    uint32_t words[3] = {0, 0, 0};
    const int inside = read > 0 && place < end;
    if (inside && read < HEADER)
        words[1] = (uint32_t)read;
    if (inside && read >= HEADER)
        words[2] = (uint32_t)(end - place);
    if (inside && read >= HEADER && is_route(record))
        words[1] = (uint32_t)read;
    if (!has_words(0, words[1], words[2]) || memcmp(lent.stream.room, file.bytes + start, words[1]) != 0)
        return 0;
    const struct lent here = lent;
    const int right = ends(inside ? GATEWAY_INSIDE_RECORD : GATEWAY_OK) && has_words(inside ? 18 : 1, 0, 0);
    lent = here;
    return right;
}

/* The dump cut in two at every place, and into chunks of every size: what is left is the same. */
static void run_cuts(void)
{
    struct gateway_table table = cleared();
    make_worked();
    CHECK(imports(table, GATEWAY_OK));
    const struct lent whole = lent;
    for (size_t place = 0; place <= file.size; place++) {
        table = cleared();
        CHECK(gives(table, file.bytes, place, GATEWAY_OK) && stands_at(place));
        CHECK(refuses(table, NULL, 0, GATEWAY_OK)); /* no bytes are a chunk */
        CHECK(gives(table, file.bytes + place, file.size - place, GATEWAY_OK));
        CHECK(same(&lent, &whole) && is_worked(table));
    }
    for (size_t chunk = 1; chunk < file.size; chunk++) {
        table = cleared();
        for (size_t at = 0; at < file.size; at += chunk)
            CHECK(gives(table, file.bytes + at, file.size - at < chunk ? file.size - at : chunk, GATEWAY_OK));
        CHECK(same(&lent, &whole) && is_worked(table) && ends(GATEWAY_OK));
    }
}

/* A prefix of each length whose further bits are set: they mean nothing. */
static void run_lengths(void)
{
    for (uint32_t length = 0; length <= 32; length++) {
        struct gateway_table table = cleared();
        const uint32_t prefix = length == 0 ? 0 : 0xa5a5a5a5u & 0xffffffffu << (32 - length);
        const uint32_t tail = length == 0 ? 0xffffffffu : (uint32_t)(0xffffffffu >> (length - 1)) >> 1;
        const uint32_t octets = 0xa5a5a5a5u | tail;
        char hex[32];
        snprintf(hex, sizeof hex, "%02x %02x %02x %02x %02x", (unsigned)length, (unsigned)(octets >> 24),
                 (unsigned)(octets >> 16 & 255), (unsigned)(octets >> 8 & 255), (unsigned)(octets & 255));
        hex[2 + 3 * ((length + 7) / 8)] = '\0';
        empty_file();
        put_good(hex);
        CHECK(imports(table, GATEWAY_OK) && counted(1, 0, 0) && goes_to(table, 0xa5a5a5a5, 1, length));
        CHECK(gateway_table_withdraw(&table, prefix, length) == GATEWAY_OK && goes_nowhere(table, 0xa5a5a5a5));
    }
}

/* What the table refuses is counted and skipped: where a bucket is full, and where a counter would pass 15. */
static void run_refused(void)
{
    struct gateway_table table = cleared();
    empty_file();
    put_good("08 0a");
    put_good("08 08");
    put_good("08 09");
    put_good("08 08");
    put_route("08 0a", OTHER_HOP, NULL, NULL);
    CHECK(imports(table, GATEWAY_OK) && counted(4, 1, 0));
    CHECK(goes_to(table, 0x0a010203, 3, 8) && goes_nowhere(table, 0x09010203));

    table = cleared();
    table.settings.k = 8;
    table.settings.a = table.settings.b = 0;
    empty_file();
    put_good("20 00 00 00 01");
    put_good("20 00 00 00 02");
    put_good("20 80 00 00 01");
    CHECK(imports(table, GATEWAY_OK) && counted(1, 2, 0) && goes_to(table, 1, 1, 32) && goes_nowhere(table, 2));
}

/* The first entry that has a hop gives it; the place is the lowest of its NEXT_HOP, up to 65535. */
static void run_hops(void)
{
    enum { MANY = 65538 };
    static uint32_t list[MANY];
    struct gateway_table table = cleared();
    empty_file();
    put_route("08 0a", NEXT_HOP, OTHER_HOP, NULL);
    put_route("08 08", OTHER_HOP, NEXT_HOP, NULL);
    put_route("08 c0", UNKNOWN_HOP, "", OTHER_HOP);
    put_route("08 c1", ORIGIN, UNKNOWN_HOP, AS_PATH);
    CHECK(imports(table, GATEWAY_OK) && counted(3, 0, 1));
    CHECK(goes_to(table, 0x0a010203, 1, 8) && goes_to(table, 0x08010203, 3, 8) && goes_to(table, 0xc0010203, 3, 8));
    CHECK(goes_nowhere(table, 0xc1010203));

    table = cleared();
    CHECK(gives_by(table, NULL, 0, file.bytes, file.size, GATEWAY_OK) && counted(0, 0, 4));
    CHECK(gives_by(table, hops, 1, file.bytes, file.size, GATEWAY_OK) && counted(0, 0, 8));
    CHECK(gives_by(table, hops, 2, file.bytes, file.size, GATEWAY_OK) && counted(2, 0, 10));
    CHECK(goes_to(table, 0x0a010203, 1, 8) && goes_to(table, 0x08010203, 1, 8) && goes_nowhere(table, 0xc0010203));

    /* 10.9.9.2 is at place 65535 and 10.9.9.1 behind it; then 10.9.9.1 is at that place too. */
    table = cleared();
    list[65535] = 0x0a090902;
    list[65536] = list[65537] = 0x0a090901;
    empty_file();
    put_good("08 0a");
    put_route("08 08", NEXT_HOP, OTHER_HOP, NULL);
    CHECK(gives_by(table, list, MANY, file.bytes, file.size, GATEWAY_OK) && counted(1, 0, 1));
    CHECK(goes_to(table, 0x08010203, 65535, 8) && goes_nowhere(table, 0x0a010203));
    list[65535] = 0x0a090901;
    CHECK(gives_by(table, list, MANY, file.bytes, file.size, GATEWAY_OK) && counted(3, 0, 1));
    CHECK(goes_to(table, 0x08010203, 65535, 8) && goes_to(table, 0x0a010203, 65535, 8));
}

/* Attributes other than NEXT_HOP are stepped over, and of the flags one counts: it says how long a length is. */
static void run_attributes(void)
{
    static const char *const good[] = {
        "00 03 04 0a 09 09 01",
        "ef 03 04 0a 09 09 01",
        "50 03 00 04 0a 09 09 01",
        "ff 03 00 04 0a 09 09 01",
        "40 02 07 40 03 04 0a 09 09 02 40 03 04 0a 09 09 01",
        "50 02 00 00 40 03 04 0a 09 09 01 50 08 00 04 fd e8 00 64",
        "c0 0e 05 00 02 01 00 00 40 03 04 0a 09 09 01 80 0f 03 00 02 01",
    };
    for (size_t i = 0; i < sizeof good / sizeof good[0]; i++) {
        const struct gateway_table table = cleared();
        empty_file();
        put_route("08 0a", good[i], NULL, NULL);
        CHECK(imports(table, GATEWAY_OK) && counted(1, 0, 0) && goes_to(table, 0x0a010203, 1, 8));
    }
}

/* Bodies that are not well-formed end the import with 12: the record before is done, and what follows is not. */
static void run_bad_records(void)
{
    static const char *const bad[] = {
        "",                                                          /* nothing, and less than a sequence number */
        "00",
        "00 00 00 01",
        "00 00 00 01 08",                                            /* a prefix that is cut, or too long */
        "00 00 00 01 20 0b 00 00",
        "00 00 00 01 21 0b 00 00 00 00 00 00",
        "00 00 00 01 ff 0b 00 00 00 00 00 00",
        "00 00 00 01 08 0b",                                         /* no count, or half of one */
        "00 00 00 01 00",
        "00 00 00 01 08 0b 00",
        "00 00 00 01 08 0b 00 00 00",                                /* bytes after the last entry */
        "00 00 00 01 08 0b 00 01 00 01 65 00 00 00 00 07 " NEXT_HOP "00",
        "00 00 00 01 08 0b 00 01 00 01 65 00 00 00 00 07 " NEXT_HOP "00 01 65 00 00 00 00 07 " NEXT_HOP,
        "00 00 00 01 08 0b 00 01",                                   /* an entry that is missing, or cut */
        "00 00 00 01 08 0b 00 01 00 01 65 00 00 00 00",
        "00 00 00 01 08 0b 00 01 00 01 65 00 00 00 00 01",
        "00 00 00 01 08 0b 00 01 00 01 65 00 00 00 00 08 " NEXT_HOP,
        "00 00 00 01 08 0b 00 01 00 01 65 00 00 00 ff ff " NEXT_HOP,
        "00 00 00 01 08 0b 00 02 00 01 65 00 00 00 00 07 " NEXT_HOP,
        "00 00 00 01 08 0b ff ff 00 01 65 00 00 00 00 07 " NEXT_HOP,
        "00 00 00 01 08 0b 00 01 00 01 65 00 00 00 00 01 40",         /* an attribute that is cut */
        "00 00 00 01 08 0b 00 01 00 01 65 00 00 00 00 06 40 03 04 0a 09 09",
        "00 00 00 01 08 0b 00 01 00 01 65 00 00 00 00 0a " NEXT_HOP "50 02 00",
        "00 00 00 01 08 0b 00 01 00 01 65 00 00 00 00 0e " NEXT_HOP NEXT_HOP, /* NEXT_HOP twice, or of another size */
        "00 00 00 01 08 0b 00 01 00 01 65 00 00 00 00 03 40 03 00",
        "00 00 00 01 08 0b 00 01 00 01 65 00 00 00 00 06 40 03 03 0a 09 09",
        "00 00 00 01 08 0b 00 01 00 01 65 00 00 00 00 08 40 03 05 0a 09 09 01 00",
        "00 00 00 01 08 0b 00 02 00 01 65 00 00 00 00 07 " NEXT_HOP "00 01 65 00 00 00 00 03 40 03 00",
        "00 00 00 01 08 0b 00 02 00 01 65 00 00 00 00 07 " NEXT_HOP "00 01 65 00 00 00 00 01 40",
    };
    for (size_t i = 0; i < sizeof bad / sizeof bad[0]; i++) {
        struct gateway_table table = cleared();
        empty_file();
        put_good("08 0a");
        put_record(ROUTE, bad[i]);
        const size_t after = file.size;
        put_good("08 c0");
        CHECK(imports(table, GATEWAY_BAD_MESSAGE) && counted(1, 0, 0) && has_words(13, 0, 0));
        CHECK(goes_to(table, 0x0a010203, 1, 8) && goes_nowhere(table, 0x0b010203) && goes_nowhere(table, 0xc0010203));
        CHECK(refuses(table, file.bytes, file.size, GATEWAY_BAD_MESSAGE) && ends(GATEWAY_BAD_MESSAGE));
        const struct lent whole = lent;

        /* The number comes with the record's last byte, and not before. */
        table = cleared();
        CHECK(gives(table, file.bytes, after - 1, GATEWAY_OK));
        CHECK(gives(table, file.bytes + after - 1, file.size - after + 1, GATEWAY_BAD_MESSAGE) && same(&lent, &whole));
    }
    /* The same bytes in a record of another kind mean nothing. */
    const struct gateway_table table = cleared();
    empty_file();
    for (size_t i = 0; i < MOST_RECORDS && i < sizeof bad / sizeof bad[0]; i++)
        put_record(MESSAGE, bad[i]);
    CHECK(imports(table, GATEWAY_OK) && counted(0, 0, 0) && ends(GATEWAY_OK));
}

/* A route whose record has a body of so many bytes, most of them of an attribute that means nothing. */
static void put_long_route(const char *prefix, size_t body)
{
    begin_record(ROUTE);
    put("00 00 00 09");
    put(prefix);
    put("00 01 00 01 65 00 00 00 00 00");
    const size_t from = file.size, attributes = body - (from - file.starts[file.records - 1] - HEADER);
    write_number(from - 2, 2, attributes);
    put(NEXT_HOP "50 02 00 00");
    write_number(file.size - 2, 2, attributes - (file.size - from));
    put_bytes(0, attributes - (file.size - from));
    end_record();
}

/* A body of 65536 bytes is read; with one more the import ends as the header is complete. */
static void run_long_records(void)
{
    struct gateway_table table = cleared();
    empty_file();
    put_long_route("08 0a", MOST_BODY);
    CHECK(file.size == GATEWAY_RECORD_BYTES);
    const size_t longest = file.size;
    put_good("08 c0");
    CHECK(gives(table, file.bytes, GATEWAY_CHUNK_BYTES, GATEWAY_OK));
    CHECK(counted(0, 0, 0) && has_words(0, GATEWAY_CHUNK_BYTES, 12));
    CHECK(gives(table, file.bytes + GATEWAY_CHUNK_BYTES, 11, GATEWAY_OK) && has_words(0, 65547, 1));
    CHECK(counted(0, 0, 0) && memcmp(lent.stream.room, file.bytes, longest - 1) == 0);
    CHECK(gives(table, file.bytes + longest - 1, file.size - longest + 1, GATEWAY_OK));
    CHECK(counted(2, 0, 0) && has_words(0, 0, 0) && ends(GATEWAY_OK));
    CHECK(goes_to(table, 0x0a010203, 1, 8) && goes_to(table, 0xc0010203, 1, 8));
    CHECK(lent.stream.room[longest - 1] == 0); /* its last byte is kept too */

    /* Its header cut everywhere; the bytes after it are not looked at. */
    static const size_t sizes[] = {MOST_BODY + 1, MOST_BODY + 2, 0x20000, 0x7fffffff, 0x80000000, 0xffffffff};
    for (size_t i = 0; i < sizeof sizes / sizeof sizes[0]; i++) {
        empty_file();
        put_good("08 0a");
        const size_t start = file.size;
        put_record(ROUTE, "");
        write_number(start + 8, 4, sizes[i]);
        put_good("08 c0");
        for (size_t cut = start; cut <= start + HEADER; cut++) {
            table = cleared();
            CHECK(gives(table, file.bytes, cut, cut < start + HEADER ? GATEWAY_OK : GATEWAY_LONG_RECORD));
            CHECK(gives(table, file.bytes + cut, file.size - cut, GATEWAY_LONG_RECORD));
            CHECK(counted(1, 0, 0) && has_words(15, 0, 0) && goes_nowhere(table, 0xc0010203));
            CHECK(refuses(table, NULL, 0, GATEWAY_LONG_RECORD) && ends(GATEWAY_LONG_RECORD));
        }
    }

    /* In a record of another kind a body of as many bytes is stepped over, in two chunks. */
    empty_file();
    put_record(PEERS, "");
    put_bytes(0, MOST_BODY);
    write_number(8, 4, MOST_BODY);
    put_good("08 0a");
    table = cleared();
    CHECK(gives(table, file.bytes, GATEWAY_CHUNK_BYTES, GATEWAY_OK) && has_words(0, 0, 12));
    CHECK(gives(table, file.bytes + GATEWAY_CHUNK_BYTES, file.size - GATEWAY_CHUNK_BYTES, GATEWAY_OK));
    CHECK(counted(1, 0, 0) && ends(GATEWAY_OK));
}

/* A record of another kind has up to 2^32 - 1 bytes, and is stepped over. */
static void run_longest_step(void)
{
    struct gateway_table table = cleared();
    uint32_t left = UINT32_MAX;
    empty_file();
    put_record(MESSAGE, "");
    write_number(8, 4, left);
    CHECK(imports(table, GATEWAY_OK) && has_words(0, 0, left));
    memset(file.bytes, 0x0d, sizeof file.bytes);
    const struct lent was = lent;
    int right = 1;
    for (; left > GATEWAY_CHUNK_BYTES; left -= GATEWAY_CHUNK_BYTES) {
        right &= gateway_table_import(&table, &lent.stream, &lent.counts, hops, HOPS, file.bytes,
                                      GATEWAY_CHUNK_BYTES) == GATEWAY_OK;
        right &= has_words(0, 0, left - GATEWAY_CHUNK_BYTES);
    }
    CHECK(right && left == 65535);
    memcpy(lent.stream.words, was.stream.words, sizeof was.stream.words);
    CHECK(same(&lent, &was)); /* nothing but the words has changed */
    set_words(0, 0, left);
    CHECK(gives(table, file.bytes, left - 1, GATEWAY_OK) && has_words(0, 0, 1));
    const struct lent here = lent;
    CHECK(ends(GATEWAY_INSIDE_RECORD));
    lent = here;
    empty_file();
    put("0d");
    put_good("08 0a");
    CHECK(imports(table, GATEWAY_OK) && counted(1, 0, 0) && goes_to(table, 0x0a010203, 1, 8) && ends(GATEWAY_OK));
}

/* 19: a chunk of more than 65536 bytes, or a count above 4000000000. All is as it was, and the import can go on. */
static void run_bad_chunks(void)
{
    static const uint32_t most = 4000000000u, high[] = {4000000001u, 4100000000u, UINT32_MAX};
    struct gateway_table table = cleared();

    /* A record of another kind and as many of a route, which has no hop, as find room in a chunk. */
    empty_file();
    put_record(MESSAGE, "00 00 00 00");
    put_route("00", "", NULL, NULL);
    const size_t from = file.starts[1], size = file.size - from;
    while (file.size + size <= GATEWAY_CHUNK_BYTES) {
        memcpy(file.bytes + file.size, file.bytes + from, size);
        file.size += size;
    }
    const uint32_t many = (uint32_t)((file.size - from) / size);
    put_bytes(0, GATEWAY_CHUNK_BYTES + 1 - file.size);
    CHECK(refuses(table, file.bytes, file.size, GATEWAY_BAD_CHUNK));
    CHECK(gives(table, file.bytes, file.size - 1, GATEWAY_OK) && counted(0, 0, many));
    CHECK(gateway_table_import(&table, &lent.stream, &lent.counts, hops, HOPS, file.bytes, (size_t)-1) ==
          GATEWAY_BAD_CHUNK);
    CHECK(gateway_table_import(&table, &lent.stream, &lent.counts, hops, HOPS, file.bytes, (size_t)1 << 32) ==
          GATEWAY_BAD_CHUNK);

    /* Each count by itself. From 4000000000 it goes on; then it is too high. */
    empty_file();
    put_good("08 0a");
    put_good("08 08");
    put_good("08 09");
    put_route("00", NULL, NULL, NULL);
    for (int place = 0; place < 3; place++) {
        table = cleared();
        const struct gateway_counts full = {place == 0 ? most : 0, place == 1 ? most : 0, place == 2 ? most : 0};
        lent.counts = full;
        CHECK(imports(table, GATEWAY_OK));
        CHECK(counted(full.accepted + 2, full.refused + 1, full.without_hop + 1) && has_words(0, 0, 0));
        CHECK(refuses(table, file.bytes, file.size, GATEWAY_BAD_CHUNK));
        CHECK(refuses(table, NULL, 0, GATEWAY_BAD_CHUNK));
        for (size_t i = 0; i < sizeof high / sizeof high[0]; i++) {
            const struct gateway_counts above = {place == 0 ? high[i] : 0, place == 1 ? high[i] : most,
                                                 place == 2 ? high[i] : 1};
            lent.counts = above;
            CHECK(refuses(table, file.bytes, file.size, GATEWAY_BAD_CHUNK));
            CHECK(refuses(table, NULL, 0, GATEWAY_BAD_CHUNK));
        }
        const struct gateway_counts none = {0, 0, 0};
        lent.counts = none;
        CHECK(imports(table, GATEWAY_OK) && counted(2, 1, 1) && ends(GATEWAY_OK));
    }
    const struct gateway_counts all = {most, most, most};
    lent.counts = all;
    set_words(0, 0, 0);
    CHECK(imports(table, GATEWAY_OK) && counted(most + 2, most + 1, most + 1));
}

/* A stream that has ended gives its number to all that comes, whatever else is wrong, and keeps what it holds. */
static void run_ended(void)
{
    static const struct {
        uint32_t word, number;
    } ended[] = {{1, 0},      {2, 1},         {13, 12},       {15, 14},           {18, 17},
                 {65536, 65535}, {65537, 0}, {65549, 12}, {0x80000000u, 65535}, {UINT32_MAX, 65534}};
    make_worked();
    for (size_t i = 0; i < sizeof ended / sizeof ended[0]; i++) {
        struct gateway_table table = cleared();
        const uint32_t number = ended[i].number;
        for (uint32_t others = 0; others < 3; others++) {
            set_words(ended[i].word, 7 * others, 9 * others);
            CHECK(refuses(table, file.bytes, file.size, number) && refuses(table, NULL, 0, number));
            CHECK(ends(number) && has_words(ended[i].word, 7 * others, 9 * others));
        }
        CHECK(gateway_table_import(&table, &lent.stream, &lent.counts, hops, HOPS, file.bytes, 65537) == number);
        table.party = 2;
        CHECK(refuses(table, file.bytes, file.size, number));
        table.slots_words--;
        CHECK(refuses(table, file.bytes, file.size, number));
        table.settings.k = 9;
        CHECK(refuses(table, file.bytes, file.size, number));
        lent.counts.refused = UINT32_MAX;
        CHECK(refuses(table, file.bytes, file.size, number));
    }

    /* By an accepted end too: the next dump wants a stream that is begun anew. */
    struct gateway_table table = cleared();
    CHECK(ends(GATEWAY_OK) && refuses(table, file.bytes, file.size, GATEWAY_OK) && ends(GATEWAY_OK));
    begin();
    CHECK(imports(table, GATEWAY_OK) && is_worked(table));
    CHECK(gives(table, file.bytes, 5, GATEWAY_OK) && ends(GATEWAY_INSIDE_RECORD));
    CHECK(refuses(table, file.bytes, file.size, GATEWAY_INSIDE_RECORD) && ends(GATEWAY_INSIDE_RECORD));
}

/* Any words mean something. What they say of the room holds only where it fits. */
static void run_words(void)
{
    struct gateway_table table = cleared();
    empty_file();
    put_good("08 0a");
    const size_t size = file.size;
    const uint32_t whole = (uint32_t)size, none[] = {12, 13, 65548, 65549, UINT32_MAX};

    /* So many bytes of a header stand in the room, and of 12 or more none. */
    for (uint32_t read = 0; read < HEADER; read++) {
        table = cleared();
        memcpy(lent.stream.room, file.bytes, read);
        set_words(0, read, 0);
        CHECK(gives(table, file.bytes + read, size - read, GATEWAY_OK) && counted(1, 0, 0));
        set_words(0, read, 0);
        CHECK(ends(read == 0 ? GATEWAY_OK : GATEWAY_INSIDE_RECORD));
    }
    for (size_t i = 0; i < sizeof none / sizeof none[0]; i++) {
        table = cleared();
        set_words(0, none[i], 0);
        CHECK(gives(table, file.bytes, size, GATEWAY_OK) && counted(1, 0, 0));
        set_words(0, none[i], 0);
        CHECK(gives(table, NULL, 0, GATEWAY_OK) && has_words(0, 0, 0));
        set_words(0, none[i], 0);
        CHECK(ends(GATEWAY_OK) && has_words(1, 0, 0));
    }

    /* With bytes to come it is a record that is read, if its header is in the room and there is room for it. */
    for (uint32_t read = 0; read < whole; read++) {
        table = cleared();
        memcpy(lent.stream.room, file.bytes, read);
        set_words(0, read, whole - read);
        CHECK(gives(table, file.bytes + read, size - read, GATEWAY_OK));
        CHECK(counted(read < HEADER ? 0 : 1, 0, 0) && has_words(0, 0, 0));
        set_words(0, read, whole - read);
        CHECK(ends(GATEWAY_INSIDE_RECORD) && has_words(18, 0, 0));
    }
    static const struct {
        uint32_t read, left, kept;
    } under_way[] = {
        {12, 65536, 12},    {65547, 1, 65547},        {12, 65537, 0},         {65547, 2, 0}, {65548, 1, 0},
        {11, 1, 0},         {UINT32_MAX, 1, 0},       {12, UINT32_MAX, 0},    {1, UINT32_MAX, 0},
        {0x80000000u, 0x80000000u, 0}, {UINT32_MAX, UINT32_MAX, 0}, {UINT32_MAX - 10, 23, 0},
    };
    for (size_t i = 0; i < sizeof under_way / sizeof under_way[0]; i++) {
        table = cleared();
        memcpy(lent.stream.room, file.bytes, HEADER);
        set_words(0, under_way[i].read, under_way[i].left);
        CHECK(gives(table, NULL, 0, GATEWAY_OK) && has_words(0, under_way[i].kept, under_way[i].left));
    }

    /* What another kind of call has left of a record of its own is stepped over. */
    for (size_t at = 4; at < 8; at++) {
        table = cleared();
        memcpy(lent.stream.room, file.bytes, 20);
        lent.stream.room[at] ^= 1;
        set_words(0, 20, whole - 20);
        CHECK(gives(table, file.bytes + 20, 1, GATEWAY_OK) && has_words(0, 0, whole - 21));
        CHECK(gives(table, file.bytes + 21, size - 21, GATEWAY_OK) && counted(0, 0, 0) && has_words(0, 0, 0));
        CHECK(gives(table, file.bytes, size, GATEWAY_OK) && counted(1, 0, 0));
    }
}

/* 19 comes before 1, 1 before 2, and 2 before 15; they leave all as it was, in the midst of a record too. */
static void run_order(void)
{
    static const uint32_t others[] = {2, 3, 65536, 0x80000000u, UINT32_MAX};
    struct gateway_table table = cleared(), wrong_party = table, wrong_sizes, wrong_settings;
    make_worked();
    CHECK(gives(table, file.bytes, 30, GATEWAY_OK));
    for (size_t i = 0; i < sizeof others / sizeof others[0]; i++) {
        wrong_party.party = others[i];
        CHECK(refuses(wrong_party, file.bytes + 30, file.size - 30, GATEWAY_BAD_PARTY));
        CHECK(refuses(wrong_party, NULL, 0, GATEWAY_BAD_PARTY));
    }
    wrong_sizes = wrong_settings = wrong_party;
    wrong_sizes.counters_bytes++;
    wrong_settings.counters_bytes--;
    wrong_settings.settings.d[31] = 12;
    CHECK(refuses(wrong_sizes, file.bytes + 30, file.size - 30, GATEWAY_BAD_SIZE));
    CHECK(refuses(wrong_settings, file.bytes + 30, file.size - 30, GATEWAY_BAD_SETTINGS));
    wrong_sizes = wrong_party;
    wrong_sizes.slots_words--;
    CHECK(refuses(wrong_sizes, NULL, 0, GATEWAY_BAD_SIZE));
    wrong_settings.settings.s = 0;
    CHECK(refuses(wrong_settings, NULL, 0, GATEWAY_BAD_SETTINGS));
    uint32_t counts[3] = {0, 0, 0};
    CHECK(gateway_import(2, table.settings.d, 31, 1, 2, 1, 2, 1, lent.counters, COUNTERS, lent.slots, SLOTS, 2, hops,
                         HOPS, counts, lent.stream.words, lent.stream.room, file.bytes, 1) ==
          (uint64_t)GATEWAY_BAD_SETTINGS << 48);
    CHECK(same(&lent, &before) && counts[0] == 0 && counts[1] == 0 && counts[2] == 0);
    lent.counts.accepted = UINT32_MAX;
    CHECK(refuses(wrong_party, file.bytes, 1, GATEWAY_BAD_CHUNK));
    CHECK(refuses(wrong_sizes, file.bytes, 1, GATEWAY_BAD_CHUNK));
    CHECK(refuses(wrong_settings, file.bytes, 1, GATEWAY_BAD_CHUNK));
    lent.counts.accepted = before.counts.accepted = 0;
    CHECK(gateway_table_import(&wrong_settings, &lent.stream, &lent.counts, NULL, 0, file.bytes, 65537) ==
          GATEWAY_BAD_CHUNK);
    CHECK(same(&lent, &before));

    /* A record that is too long or bad is found only by a call that is right otherwise. */
    CHECK(gives(table, file.bytes + 30, file.size - 30, GATEWAY_OK) && is_worked(table));
    empty_file();
    put_record(ROUTE, "");
    CHECK(refuses(wrong_sizes, file.bytes, file.size, GATEWAY_BAD_SIZE));
    CHECK(refuses(wrong_party, file.bytes, file.size, GATEWAY_BAD_PARTY));
    CHECK(imports(table, GATEWAY_BAD_MESSAGE) && refuses(wrong_sizes, file.bytes, file.size, GATEWAY_BAD_MESSAGE));
    CHECK(refuses(wrong_party, file.bytes, file.size, GATEWAY_BAD_MESSAGE));
}

int main(void)
{
    for (party = 0; party <= 1; party++) {
        run_worked();
        run_cuts();
        run_lengths();
        run_refused();
        run_hops();
        run_attributes();
        run_bad_records();
        run_long_records();
        run_longest_step();
        run_bad_chunks();
        run_ended();
        run_words();
        run_order();
    }
    return wrong ? EXIT_FAILURE : EXIT_SUCCESS;
}
