/*
 * The replays of gateway.h, over the archive: what each chunk of a recorded day does and what is refused, worked out
 * from the formats. Every chunk is lent from each boundary in turn, and taken twice: by the exported function and by
 * the one on a table, on memory of the same contents. Margins lie between the lists that are lent, and no call may
 * touch them. All of it is done for each party.
 */
#include "check.h"
#include "records.h"

#include <gateway.h>

#include <stdlib.h>
#include <string.h>

enum { COUNTERS = GATEWAY_COUNTERS_BYTES(4), SLOTS = GATEWAY_SLOTS_WORDS(1, 2), MARGIN = 16 };

/* The figures of a tally, and those among them for the numbers of refusals. */
enum { FIGURES = 23, NUMBERS = 20 };

/* All that a chunk may write to. */
struct lent {
    uint8_t first[MARGIN], counters[COUNTERS];
    uint8_t second[MARGIN];
    uint32_t slots[SLOTS];
    uint8_t third[MARGIN];
    struct gateway_tally tally;
    uint8_t fourth[MARGIN];
    struct gateway_stream stream;
    uint8_t last[MARGIN];
};

/* Those of the two functions, and what was lent to them. */
static struct lent lent, twin, before;

/* Whose table it is. */
static uint32_t party;

static int same(const struct lent *one, const struct lent *other)
{
    return memcmp(one, other, sizeof *one) == 0;
}

static void set_words(uint32_t ended, uint32_t read, uint32_t left)
{
    lent.stream.words[0] = ended;
    lent.stream.words[1] = read;
    lent.stream.words[2] = left;
}

/* Zeros in the words and the tally begin a replay; the room may hold anything. */
static void begin(void)
{
    memset(&lent.tally, 0, sizeof lent.tally);
    set_words(0, 0, 0);
}

/* A cleared table of settings T, and a replay that begins. */
static struct gateway_table cleared(void)
{
    const struct gateway_settings t = {2, GATEWAY_EQUAL(4), 1, 2, 1, 2, 1};
    struct gateway_table table = {t, lent.counters, COUNTERS, lent.slots, SLOTS, party};
    memset(&lent, 0xa5, sizeof lent);
    CHECK(gateway_table_clear(&table) == GATEWAY_OK);
    begin();
    return table;
}

/* Types and subtypes of records: a message after AS numbers of two bytes and of four; a change of a session's state
   after either; a message whose time has microseconds; and the route of a dump. */
#define MESSAGE "00 10 00 01 "
#define MESSAGE_AS4 "00 10 00 04 "
#define STATE "00 10 00 00 "
#define STATE_AS4 "00 10 00 05 "
#define EXTENDED "00 11 00 04 "
#define ROUTE "00 0d 00 02 "

/* What stands before a message: two AS numbers, an interface, the address family and two addresses. */
#define IPV4 "00 00 00 01 0a 09 09 01 0a 09 09 fe "
#define ENDS "fd e8 fd e9 " IPV4
#define ENDS_AS4 "00 00 fd e8 00 00 fd e9 " IPV4
#define EIGHT "20 01 0d b8 00 00 00 00 "
#define ENDS_IPV6 "00 00 fd e8 00 00 fd e9 00 00 00 02 " EIGHT EIGHT EIGHT EIGHT

#define MARKER "ff ff ff ff ff ff ff ff ff ff ff ff ff ff ff ff "
#define KEEPALIVE MARKER "00 13 04 "

/* An UPDATE of these parts. */
static void put_parts(const char *withdrawn, const char *attributes, const char *announced)
{
    const size_t from = file.size;
    put(MARKER "00 00 02 00 00");
    put(withdrawn);
    write_number(from + 19, 2, file.size - from - 21);
    const size_t at = file.size;
    put_bytes(0, 2);
    put(attributes);
    write_number(at, 2, file.size - at - 2);
    put(announced);
    write_number(from + 16, 2, file.size - from);
}

/* The record of one, of a kind and with what stands before it. */
static void put_update_of(const char *kind, const char *ends, const char *withdrawn, const char *attributes,
                          const char *announced)
{
    begin_record(kind);
    put(ends);
    put_parts(withdrawn, attributes, announced);
    end_record();
}

static void put_update(const char *withdrawn, const char *attributes, const char *announced)
{
    put_update_of(MESSAGE_AS4, ENDS_AS4, withdrawn, attributes, announced);
}

static void put_good(const char *prefix)
{
    put_update("", NEXT_HOP, prefix);
}

/* The record of any message, in hexadecimal digits. */
static void put_message(const char *message)
{
    begin_record(MESSAGE_AS4);
    put(ENDS_AS4);
    put(message);
    end_record();
}

/* The tally as the exported function has it. */
static void words_of(const struct gateway_tally *tally, uint32_t words[FIGURES])
{
    words[0] = tally->seen;
    words[1] = tally->applied;
    words[2] = tally->accepted;
    memcpy(words + 3, tally->refused, sizeof tally->refused);
}

static struct gateway_tally tally_of(const uint32_t words[FIGURES])
{
    struct gateway_tally tally = {words[0], words[1], words[2], {0}};
    memcpy(tally.refused, words + 3, sizeof tally.refused);
    return tally;
}

/* Whether both functions give this number to a chunk, and leave the same; a chunk is only read. */
static int gives_by(struct gateway_table table, const uint32_t *list, size_t count, const uint8_t *chunk, size_t size,
                    uint32_t refusal)
{
    static uint8_t bytes[GATEWAY_CHUNK_BYTES + 8];
    static size_t offset;
    uint8_t *const from = bytes + offset++ % 4;
    const struct gateway_settings t = table.settings;
    struct gateway_table other = table;
    before = twin = lent;
    other.counters = twin.counters;
    other.slots = twin.slots;
    if (size != 0)
        memcpy(from, chunk, size);

    uint32_t figures[1 + FIGURES + 1] = {1};
    words_of(&lent.tally, figures + 1);
    figures[1 + FIGURES] = 2;
    const uint64_t number =
        gateway_replay(t.k, t.d, sizeof t.d, t.e, t.s, t.a, t.b, t.c, lent.counters, table.counters_bytes, lent.slots,
                       table.slots_words, table.party, list, count, figures + 1, lent.stream.words, lent.stream.room,
                       chunk == NULL ? NULL : from, size);
    lent.tally = tally_of(figures + 1);
    return number == (uint64_t)refusal << 48 && figures[0] == 1 && figures[1 + FIGURES] == 2 &&
           gateway_table_replay(&other, &twin.stream, &twin.tally, list, count, chunk == NULL ? NULL : from, size) ==
               refusal &&
           same(&lent, &twin) && (size == 0 || memcmp(from, chunk, size) == 0);
}

static int gives(struct gateway_table table, const uint8_t *chunk, size_t size, uint32_t refusal)
{
    return gives_by(table, hops, HOPS, chunk, size, refusal);
}

/* The same, and all is as it was. */
static int refuses(struct gateway_table table, const uint8_t *chunk, size_t size, uint32_t refusal)
{
    return gives(table, chunk, size, refusal) && same(&lent, &before);
}

/* The whole day in one chunk. */
static int replays(struct gateway_table table, uint32_t refusal)
{
    return gives(table, file.bytes, file.size, refusal);
}

/* Whether both functions give this number to the end, and leave the same words, and nothing else otherwise. */
static int ends(uint32_t refusal)
{
    before = twin = lent;
    const uint64_t number = gateway_end_stream(lent.stream.words);
    memcpy(before.stream.words, lent.stream.words, sizeof lent.stream.words);
    return number == (uint64_t)refusal << 48 && gateway_stream_end(&twin.stream) == refusal && same(&lent, &twin) &&
           same(&lent, &before);
}

/* Whether the tally has these figures, for the numbers under which a route can be refused, and zeros elsewhere. */
static int tallied(uint32_t seen, uint32_t applied, uint32_t accepted, uint32_t under_7, uint32_t under_8,
                   uint32_t under_9, uint32_t under_10, uint32_t under_11)
{
    const struct gateway_tally expected = {seen,
                                           applied,
                                           accepted,
                                           {0, 0, 0, 0, 0, 0, 0, under_7, under_8, under_9, under_10, under_11, 0, 0, 0,
                                            0, 0, 0, 0, 0}};
    return memcmp(&lent.tally, &expected, sizeof expected) == 0;
}

/* The same where no route was refused. */
static int took(uint32_t seen, uint32_t applied, uint32_t accepted)
{
    return tallied(seen, applied, accepted, 0, 0, 0, 0, 0);
}

static int has_words(uint32_t ended, uint32_t read, uint32_t left)
{
    const uint32_t *const words = lent.stream.words;
    return words[0] == ended && words[1] == read && words[2] == left;
}

static int goes_to(struct gateway_table table, uint32_t address, uint32_t hop, uint32_t length)
{
    const struct gateway_answer answer = gateway_table_lookup(&table, address);
    return answer.refusal == GATEWAY_OK && answer.found && answer.hop == hop && answer.length == length;
}

static int goes_nowhere(struct gateway_table table, uint32_t address)
{
    const struct gateway_answer answer = gateway_table_lookup(&table, address);
    return answer.refusal == GATEWAY_OK && !answer.found;
}

/* Whether the table holds nothing. */
static int is_empty(void)
{
    size_t used = 0;
    for (size_t i = 0; i < COUNTERS; i++)
        used += lent.counters[i] != 0;
    for (size_t i = 0; i < SLOTS; i++)
        used += lent.slots[i] != 0;
    return used == 0;
}

/* Twelve records, of which six are applied. The second withdrawal of the sixth finds nothing, its last route a full
   bucket; two routes of the ninth are odd. */
static void make_worked(void)
{
    empty_file();
    put_record(STATE_AS4, ENDS_AS4 "00 05 00 06");
    put_update("", ORIGIN AS_PATH NEXT_HOP, "08 0a 10 0a 01");
    put_message(KEEPALIVE);
    put_update_of(MESSAGE, ENDS, "", ORIGIN OTHER_HOP, "10 0a 01");
    put_update("10 0a 01", UNKNOWN_HOP, "08 0b");
    put_update("08 0a 18 c0 00 02", NEXT_HOP, "08 08 08 09 08 0b");
    put_update_of(MESSAGE_AS4, ENDS_IPV6, "10 0a 01", "", "");
    put_update_of(EXTENDED, "00 00 00 07 " ENDS_AS4, "10 0a 01", "", "");
    put_update("", OTHER_HOP, "08 7f 04 e0 00");
    put_record(ROUTE, "00 00 00 01 08 0c 00 01 00 01 65 00 00 00 00 07 " NEXT_HOP);
    put_update("", "", "");
    put_update("08 09", "", "");
}

static int is_worked(struct gateway_table table)
{
    return tallied(12, 6, 8, 1, 1, 0, 0, 2) && goes_to(table, 0x0a010203, 3, 16) && goes_to(table, 0x08010203, 1, 8) &&
           goes_to(table, 0x09010203, 3, 0) && goes_to(table, 0x0a020203, 3, 0) && goes_to(table, 0x0b010203, 3, 0);
}

static void run_worked(void)
{
    const struct gateway_table table = cleared();
    make_worked();
    CHECK(replays(table, GATEWAY_OK) && is_worked(table) && has_words(0, 0, 0));
    CHECK(ends(GATEWAY_OK) && has_words(1, 0, 0));

    /* Again, with the tally that there is. 10/8 finds a slot beside 8/8 and is withdrawn again, as is 9/8: all is as it
       was the first time. */
    set_words(0, 0, 0);
    CHECK(replays(table, GATEWAY_OK) && tallied(24, 12, 16, 2, 2, 0, 0, 4) && ends(GATEWAY_OK));

    /* Nothing at all is a day, and so is one of other records alone. */
    begin();
    CHECK(refuses(table, NULL, 0, GATEWAY_OK) && ends(GATEWAY_OK));
    begin();
    empty_file();
    put_record(ROUTE, "01");
    put_record(STATE, "");
    CHECK(replays(table, GATEWAY_OK) && took(2, 0, 0) && ends(GATEWAY_OK));
}

static int is_read(size_t record)
{
    const uint8_t *const kind = file.bytes + file.starts[record] + 4;
    return kind[0] == 0 && kind[1] == 16 && kind[2] == 0 && (kind[3] == 1 || kind[3] == 4);
}

/* Whether the stream stands as it must where so many bytes of the day have come, has seen what is complete, and ends as
   it must there. */
static int stands_at(size_t place)
{
    const size_t record = record_at(place), start = file.starts[record], end = file.starts[record + 1];
    const size_t read = place - start;
    uint32_t words[3] = {0, 0, 0};
    const int inside = read > 0 && place < end;
    if (inside && read < HEADER)
        words[1] = (uint32_t)read;
    if (inside && read >= HEADER)
        words[2] = (uint32_t)(end - place);
    if (inside && read >= HEADER && is_read(record))
        words[1] = (uint32_t)read;
    if (!has_words(0, words[1], words[2]) || memcmp(lent.stream.room, file.bytes + start, words[1]) != 0 ||
        lent.tally.seen != record + (place == end))
        return 0;
    const struct lent here = lent;
    const int right = ends(inside ? GATEWAY_INSIDE_RECORD : GATEWAY_OK) && has_words(inside ? 18 : 1, 0, 0);
    lent = here;
    return right;
}

/* The day cut in two at every place, and into chunks of every size: what is left is the same. */
static void run_cuts(void)
{
    struct gateway_table table = cleared();
    make_worked();
    CHECK(replays(table, GATEWAY_OK));
    const struct lent whole = lent;
    for (size_t place = 0; place <= file.size; place++) {
        table = cleared();
        CHECK(gives(table, file.bytes, place, GATEWAY_OK) && stands_at(place));
        CHECK(refuses(table, NULL, 0, GATEWAY_OK)); /* no bytes are a chunk */
        CHECK(gives(table, file.bytes + place, file.size - place, GATEWAY_OK));
        CHECK(same(&lent, &whole) && is_worked(table));
    }
    for (size_t chunk = 1; chunk < file.size; chunk++) {
        table = cleared();
        for (size_t at = 0; at < file.size; at += chunk)
            CHECK(gives(table, file.bytes + at, file.size - at < chunk ? file.size - at : chunk, GATEWAY_OK));
        CHECK(same(&lent, &whole) && is_worked(table) && ends(GATEWAY_OK));
    }
}

/* Only type 16 with subtype 1 or 4 is read; the others are seen, also with no body. */
static void run_kinds(void)
{
    static const uint32_t types[] = {0, 1, 12, 13, 15, 16, 17, 18, 32, 48, 0x0110, 0x1000, 0xffff};
    static const uint32_t subtypes[] = {0, 1, 2, 3, 4, 5, 6, 7, 8, 9, 10, 11, 12, 16, 0x0101, 0x0104, 0x0400, 0xffff};
    for (size_t i = 0; i < sizeof types / sizeof types[0]; i++) {
        for (size_t j = 0; j < sizeof subtypes / sizeof subtypes[0]; j++) {
            const int two = types[i] == 16 && subtypes[j] == 1, four = types[i] == 16 && subtypes[j] == 4;
            struct gateway_table table = cleared();
            empty_file();
            put_update_of(MESSAGE_AS4, two ? ENDS : ENDS_AS4, "", NEXT_HOP, "08 0a");
            write_number(4, 2, types[i]);
            write_number(6, 2, subtypes[j]);
            CHECK(replays(table, GATEWAY_OK) && took(1, two || four, two || four) && ends(GATEWAY_OK));
            CHECK(two || four ? goes_to(table, 0x0a010203, 1, 8) : goes_nowhere(table, 0x0a010203));
            table = cleared();
            write_number(8, 4, 0);
            CHECK(gives(table, file.bytes, HEADER, two || four ? GATEWAY_BAD_MESSAGE : GATEWAY_OK));
            CHECK(took(!two && !four, 0, 0) && is_empty());
        }
    }

    /* AS numbers of four bytes in subtype 1, and of two in subtype 4: another family stands where that is read. */
    const struct gateway_table table = cleared();
    empty_file();
    put_update_of(MESSAGE, ENDS_AS4, "", NEXT_HOP, "08 0a");
    put_update_of(MESSAGE_AS4, ENDS, "", NEXT_HOP, "08 0a");
    CHECK(replays(table, GATEWAY_OK) && took(2, 0, 0) && is_empty() && ends(GATEWAY_OK));
}

/* A record of another family is seen whatever it holds, as long as it has the family. */
static void run_families(void)
{
    static const char *const before_family[] = {"fd e8 fd e9 00 00 ", "00 00 fd e8 00 00 fd e9 00 00 "};
    static const uint32_t families[] = {0, 2, 3, 25, 255, 256, 257, 0x0101, 16388, 65535};
    for (int four = 0; four < 2; four++) {
        for (size_t i = 0; i < sizeof families / sizeof families[0]; i++) {
            for (size_t many = 0; many < 80; many += many < 3 ? 1 : 7) {
                const struct gateway_table table = cleared();
                empty_file();
                begin_record(four ? MESSAGE_AS4 : MESSAGE);
                put(before_family[four]);
                put_bytes(0, 2);
                write_number(file.size - 2, 2, families[i]);
                put_bytes(2, many);
                end_record();
                CHECK(replays(table, GATEWAY_OK) && took(1, 0, 0) && is_empty() && ends(GATEWAY_OK));
            }
        }
    }

    /* The same UPDATE is applied between addresses of IPv4, and not between those of IPv6. */
    const struct gateway_table table = cleared();
    empty_file();
    put_update_of(MESSAGE_AS4, ENDS_IPV6, "", NEXT_HOP, "08 0b");
    put_good("08 0a");
    CHECK(replays(table, GATEWAY_OK) && took(2, 1, 1) && goes_nowhere(table, 0x0b010203));
}

/* A message of another type is seen whatever else is in it: a marker or a length that is wrong, or more bytes than a
   message may have. */
static void run_types(void)
{
    static const uint8_t types[] = {0, 1, 3, 4, 5, 6, 18, 128, 130, 255};
    for (size_t i = 0; i < sizeof types; i++) {
        struct gateway_table table = cleared();
        empty_file();
        for (int two = 0; two < 2; two++) {
            begin_record(two ? MESSAGE : MESSAGE_AS4);
            put(two ? ENDS : ENDS_AS4);
            put(KEEPALIVE);
            file.bytes[file.size - 1] = types[i];
            end_record();
        }
        put_message("00 01 02 03 04 05 06 07 08 09 0a 0b 0c 0d 0e 0f 00 00 00");
        file.bytes[file.size - 1] = types[i];
        put_message(MARKER "ff ff 00 02 02 02 02 02 02 02 02 02 02");
        file.bytes[file.size - 11] = types[i];
        begin_record(MESSAGE_AS4);
        put(ENDS_AS4 MARKER "13 88 00");
        file.bytes[file.size - 1] = types[i];
        put_bytes(2, 5000 - 19);
        end_record();
        put_good("08 0a");
        CHECK(replays(table, GATEWAY_OK) && took(6, 1, 1) && ends(GATEWAY_OK));
    }
}

/* An UPDATE whose hop is not to be had is seen, and nothing of it is done, its withdrawals neither. */
static void run_hopless(void)
{
    enum { MANY = 65538 };
    static uint32_t list[MANY];
    struct gateway_table table = cleared();
    empty_file();
    put_good("08 0a");
    put_update("08 0a", UNKNOWN_HOP, "08 0b");
    put_update("08 0a", ORIGIN AS_PATH, "08 0b");
    put_update("08 0a", "", "00");
    put_update("08 0c", UNKNOWN_HOP, "");
    CHECK(replays(table, GATEWAY_OK) && tallied(5, 2, 1, 1, 0, 0, 0, 0) && goes_to(table, 0x0a010203, 1, 8));
    CHECK(goes_nowhere(table, 0x0b010203) && ends(GATEWAY_OK));

    /* By a list of none only what announces nothing is applied. */
    table = cleared();
    CHECK(gives_by(table, NULL, 0, file.bytes, file.size, GATEWAY_OK) && tallied(5, 1, 0, 1, 0, 0, 0, 0) && is_empty());
    CHECK(gives_by(table, hops, 1, file.bytes, file.size, GATEWAY_OK) && tallied(10, 2, 0, 2, 0, 0, 0, 0));
    CHECK(gives_by(table, hops, 2, file.bytes, file.size, GATEWAY_OK) && tallied(15, 4, 1, 3, 0, 0, 0, 0));

    /* 10.9.9.2 is at place 65535 and 10.9.9.1 behind it; then 10.9.9.1 is at that place too. */
    table = cleared();
    list[65535] = 0x0a090902;
    list[65536] = list[65537] = 0x0a090901;
    empty_file();
    put_good("08 0a");
    put_update("", OTHER_HOP, "08 08");
    CHECK(gives_by(table, list, MANY, file.bytes, file.size, GATEWAY_OK) && took(2, 1, 1));
    CHECK(goes_to(table, 0x08010203, 65535, 8) && goes_nowhere(table, 0x0a010203));
    list[65535] = 0x0a090901;
    CHECK(gives_by(table, list, MANY, file.bytes, file.size, GATEWAY_OK) && took(4, 2, 2));
    CHECK(goes_to(table, 0x08010203, 65535, 8) && goes_to(table, 0x0a010203, 65535, 8));
}

/* What the table refuses is counted under its number and skipped; each number, and several in a message. */
static void run_refused(void)
{
    /* 7, 8 and 11: 10/8 and 8/8 fill a bucket; what is stored needs no room. */
    struct gateway_table table = cleared();
    empty_file();
    put_update("08 0a 00 20 01 02 03 04", NEXT_HOP, "08 0a 08 08 08 09 08 08 08 0b 20 7f 00 00 01 08 ef 07 7f 00");
    put_update("08 0a 08 0a", OTHER_HOP, "08 09 08 0b 08 e0 04 e0");
    CHECK(replays(table, GATEWAY_OK) && tallied(2, 2, 7, 4, 3, 0, 0, 4));
    CHECK(goes_to(table, 0x08010203, 1, 8) && goes_to(table, 0x09010203, 3, 8) && goes_to(table, 0x7e010203, 1, 7));
    CHECK(goes_to(table, 0xc0010203, 1, 0) && ends(GATEWAY_OK));

    /* 9: every step lands on one counter, and eight and eight pass 15. */
    table = cleared();
    table.settings.k = 8;
    table.settings.a = table.settings.b = 0;
    empty_file();
    put_good("20 00 00 00 01 20 00 00 00 02");
    put_good("20 80 00 00 01");
    put_good("20 00 00 00 01");
    CHECK(replays(table, GATEWAY_OK) && tallied(3, 3, 2, 0, 0, 2, 0, 0) && goes_nowhere(table, 2));

    /* 10: the slot is there, and damage has taken its counters. */
    table = cleared();
    CHECK(gateway_table_add(&table, 0x0a000000, 8, 7) == GATEWAY_OK);
    memset(lent.counters, 0, sizeof lent.counters);
    empty_file();
    put_update("08 0a 08 0a", NEXT_HOP, "08 0a");
    put_update("08 0b", "", "");
    CHECK(replays(table, GATEWAY_OK) && tallied(2, 2, 1, 1, 0, 0, 2, 0));
    CHECK(lent.slots[57] == (party == 0 ? 2 : 65538)); /* the word of its mark, with the new hop */

    /* As many routes as a message can have: 4,073 times the default, of which the table has one. */
    table = cleared();
    CHECK(gateway_table_add(&table, 0, 0, 7) == GATEWAY_OK);
    empty_file();
    begin_record(MESSAGE_AS4);
    put(ENDS_AS4 MARKER "10 00 02 0f e9");
    put_bytes(0, 4073 + 2);
    end_record();
    CHECK(file.size == HEADER + 20 + GATEWAY_MESSAGE_BYTES);
    CHECK(replays(table, GATEWAY_OK) && tallied(1, 1, 1, 4072, 0, 0, 0, 0) && is_empty());
    CHECK(replays(table, GATEWAY_OK) && tallied(2, 2, 1, 8145, 0, 0, 0, 0));
}

/* What has come so far is done, and the file's record at this place ends the replay with 12: with its last byte, and
   not before. It is not seen, and what follows is not done. */
static void check_bad(size_t record)
{
    const size_t after = file.starts[record + 1];
    struct gateway_table table = cleared();
    CHECK(replays(table, GATEWAY_BAD_MESSAGE) && took(1, 1, 1) && has_words(13, 0, 0));
    CHECK(goes_to(table, 0x0a010203, 1, 8) && goes_nowhere(table, 0x0b010203) && goes_nowhere(table, 0xc0010203));
    CHECK(refuses(table, file.bytes, file.size, GATEWAY_BAD_MESSAGE) && ends(GATEWAY_BAD_MESSAGE));
    const struct lent whole = lent;
    table = cleared();
    CHECK(gives(table, file.bytes, after - 1, GATEWAY_OK) && took(1, 1, 1));
    CHECK(gives(table, file.bytes + after - 1, file.size - after + 1, GATEWAY_BAD_MESSAGE) && same(&lent, &whole));
}

/* A body that ends before the family does, or with IPv4 before both addresses and a message's header do. */
static void run_short_records(void)
{
    for (int four = 0; four < 2; four++) {
        const size_t whole = four ? 39 : 35;
        for (size_t size = 0; size <= whole; size++) {
            empty_file();
            put_good("08 0a");
            begin_record(four ? MESSAGE_AS4 : MESSAGE);
            const size_t from = file.size;
            put(four ? ENDS_AS4 : ENDS);
            put(KEEPALIVE);
            CHECK(file.size - from == whole);
            file.size = from + size;
            end_record();
            put_good("08 c0");
            if (size < whole) {
                check_bad(1);
                continue;
            }
            const struct gateway_table table = cleared();
            CHECK(replays(table, GATEWAY_OK) && took(3, 2, 2) && ends(GATEWAY_OK));
        }

        /* With another family, all up to it is enough. */
        for (size_t size = 0; size <= whole; size++) {
            const size_t enough = four ? 12 : 8;
            empty_file();
            put_good("08 0a");
            begin_record(four ? MESSAGE_AS4 : MESSAGE);
            const size_t from = file.size;
            put(four ? ENDS_AS4 : ENDS);
            put(KEEPALIVE);
            file.bytes[from + enough - 1] = 2;
            file.size = from + size;
            end_record();
            put_good("08 c0");
            if (size < enough) {
                check_bad(1);
                continue;
            }
            const struct gateway_table table = cleared();
            CHECK(replays(table, GATEWAY_OK) && took(3, 2, 2) && ends(GATEWAY_OK));
        }
    }
}

/* An UPDATE that is not well-formed, in either kind of record. */
static void run_bad_messages(void)
{
    static const char *const bad[] = {
        MARKER "00 13 02 ",                                                   /* shorter than an UPDATE */
        MARKER "00 16 02 00 00 00 ",
        "7f ff ff ff ff ff ff ff ff ff ff ff ff ff ff ff 00 17 02 00 00 00 00 ", /* a marker that is wrong */
        "ff ff ff ff ff ff ff ff ff ff ff ff ff ff ff fe 00 17 02 00 00 00 00 ",
        MARKER "00 16 02 00 00 00 00 ",                                       /* another length than it has */
        MARKER "00 18 02 00 00 00 00 ",
        MARKER "00 17 02 00 00 00 00 00 ",
        MARKER "01 17 02 00 00 00 00 ",
        MARKER "00 19 02 00 03 08 0b 00 00 ",                                 /* a part past the end */
        MARKER "00 19 02 00 04 08 0b 00 00 ",
        MARKER "00 19 02 ff ff 08 0b 00 00 ",
        MARKER "00 17 02 00 00 00 01 ",
        MARKER "00 19 02 00 02 20 0b 00 00 ",                                 /* a route that is cut, or too long */
        MARKER "00 1d 02 00 06 21 0b 00 00 00 00 00 00 ",
        MARKER "00 20 02 00 00 00 07 " NEXT_HOP "10 0b ",
        MARKER "00 20 02 00 00 00 07 " NEXT_HOP "21 0b ",
        MARKER "00 23 02 00 00 00 07 " NEXT_HOP "08 0b 20 0b 00 ",
        MARKER "00 18 02 00 00 00 01 40 ",                                    /* an attribute that is cut */
        MARKER "00 1d 02 00 00 00 06 40 03 04 0a 09 09 ",
        MARKER "00 25 02 00 00 00 0e " NEXT_HOP NEXT_HOP,                     /* NEXT_HOP twice, or of another size */
        MARKER "00 1d 02 00 00 00 06 40 03 03 0a 09 09 ",
        MARKER "00 1f 02 00 00 00 08 40 03 05 0a 09 09 01 00 ",
        MARKER "00 1a 02 00 00 00 03 40 03 00 ",
        MARKER "00 24 02 00 02 08 0a 00 07 " UNKNOWN_HOP "08 0b 21 00 ",       /* 12 comes before 13 */
        MARKER "00 1a 02 00 02 08 0a 00 00 08 ",
    };
    for (int two = 0; two < 2; two++) {
        for (size_t i = 0; i < sizeof bad / sizeof bad[0]; i++) {
            empty_file();
            put_good("08 0a");
            begin_record(two ? MESSAGE : MESSAGE_AS4);
            put(two ? ENDS : ENDS_AS4);
            put(bad[i]);
            end_record();
            put_good("08 c0");
            check_bad(1);
        }
    }

    /* One of 4,097 bytes; with one less it is good. */
    for (size_t more = 0; more < 2; more++) {
        const size_t message = GATEWAY_MESSAGE_BYTES + more;
        empty_file();
        put_good("08 0a");
        begin_record(MESSAGE_AS4);
        put(ENDS_AS4);
        const size_t from = file.size;
        put_parts("", NEXT_HOP "50 02 00 00 ", "");
        put_bytes(0, message - (file.size - from));
        write_number(from + 16, 2, message);
        write_number(from + 21, 2, message - 23);
        write_number(from + 23 + 7 + 2, 2, message - 23 - 7 - 4);
        end_record();
        put_good("08 c0");
        if (more) {
            check_bad(1);
            continue;
        }
        const struct gateway_table table = cleared();
        CHECK(replays(table, GATEWAY_OK) && took(3, 3, 2) && ends(GATEWAY_OK));
    }
}

/* A body of 65536 bytes is read; with one more the replay ends as the header is complete, whatever the body holds. */
static void run_long_records(void)
{
    struct gateway_table table = cleared();
    empty_file();
    begin_record(MESSAGE_AS4);
    put(ENDS_AS4 KEEPALIVE);
    put_bytes(2, MOST_BODY - 39);
    end_record();
    CHECK(file.size == GATEWAY_RECORD_BYTES);
    const size_t longest = file.size;
    put_good("08 c0");
    CHECK(gives(table, file.bytes, GATEWAY_CHUNK_BYTES, GATEWAY_OK));
    CHECK(took(0, 0, 0) && has_words(0, GATEWAY_CHUNK_BYTES, 12));
    CHECK(gives(table, file.bytes + GATEWAY_CHUNK_BYTES, 11, GATEWAY_OK) && has_words(0, 65547, 1));
    CHECK(took(0, 0, 0) && memcmp(lent.stream.room, file.bytes, longest - 1) == 0);
    CHECK(gives(table, file.bytes + longest - 1, file.size - longest + 1, GATEWAY_OK));
    CHECK(took(2, 1, 1) && has_words(0, 0, 0) && ends(GATEWAY_OK));
    CHECK(lent.stream.room[longest - 1] == 2); /* its last byte is kept too */

    /* The same as an UPDATE, which is too long for a message. */
    table = cleared();
    file.bytes[HEADER + 20 + 18] = 2;
    CHECK(gives(table, file.bytes, GATEWAY_CHUNK_BYTES, GATEWAY_OK));
    CHECK(gives(table, file.bytes + GATEWAY_CHUNK_BYTES, 12, GATEWAY_BAD_MESSAGE) && took(0, 0, 0));

    /* Its header cut everywhere; the bytes after it are not looked at. */
    static const size_t sizes[] = {MOST_BODY + 1, MOST_BODY + 2, 0x20000, 0x7fffffff, 0x80000000, 0xffffffff};
    for (size_t i = 0; i < sizeof sizes / sizeof sizes[0]; i++) {
        for (int two = 0; two < 2; two++) {
            empty_file();
            put_good("08 0a");
            const size_t start = file.size;
            put_record(two ? MESSAGE : MESSAGE_AS4, "");
            write_number(start + 8, 4, sizes[i]);
            put_good("08 c0");
            for (size_t cut = start; cut <= start + HEADER; cut++) {
                table = cleared();
                CHECK(gives(table, file.bytes, cut, cut < start + HEADER ? GATEWAY_OK : GATEWAY_LONG_RECORD));
                CHECK(gives(table, file.bytes + cut, file.size - cut, GATEWAY_LONG_RECORD));
                CHECK(took(1, 1, 1) && has_words(15, 0, 0) && goes_nowhere(table, 0xc0010203));
                CHECK(refuses(table, NULL, 0, GATEWAY_LONG_RECORD) && ends(GATEWAY_LONG_RECORD));
            }
        }
    }

    /* In a record of another kind a body of more bytes is stepped over, in two chunks, and is then seen. */
    empty_file();
    put_record(STATE_AS4, "");
    put_bytes(0, MOST_BODY + 1);
    write_number(8, 4, MOST_BODY + 1);
    put_good("08 0a");
    table = cleared();
    CHECK(gives(table, file.bytes, GATEWAY_CHUNK_BYTES, GATEWAY_OK) && took(0, 0, 0) && has_words(0, 0, 13));
    CHECK(gives(table, file.bytes + GATEWAY_CHUNK_BYTES, 12, GATEWAY_OK) && took(0, 0, 0) && has_words(0, 0, 1));
    CHECK(gives(table, file.bytes + GATEWAY_CHUNK_BYTES + 12, 1, GATEWAY_OK) && took(1, 0, 0) && has_words(0, 0, 0));
    CHECK(gives(table, file.bytes + GATEWAY_CHUNK_BYTES + 13, file.size - GATEWAY_CHUNK_BYTES - 13, GATEWAY_OK));
    CHECK(took(2, 1, 1) && ends(GATEWAY_OK));
}

/* A record of another kind has up to 2^32 - 1 bytes. It is seen once, at its end. */
static void run_longest_step(void)
{
    struct gateway_table table = cleared();
    empty_file();
    put_record(ROUTE, "");
    write_number(8, 4, UINT32_MAX);
    CHECK(replays(table, GATEWAY_OK) && has_words(0, 0, UINT32_MAX) && took(0, 0, 0));
    memset(file.bytes, 0x10, GATEWAY_CHUNK_BYTES);
    CHECK(gives(table, file.bytes, GATEWAY_CHUNK_BYTES, GATEWAY_OK) && has_words(0, 0, UINT32_MAX - 65536));
    set_words(0, 0, 2);
    CHECK(gives(table, file.bytes, 1, GATEWAY_OK) && has_words(0, 0, 1) && took(0, 0, 0));
    const struct lent here = lent;
    CHECK(ends(GATEWAY_INSIDE_RECORD));
    lent = here;
    empty_file();
    put("10");
    put_good("08 0a");
    CHECK(replays(table, GATEWAY_OK) && took(2, 1, 1) && goes_to(table, 0x0a010203, 1, 8) && ends(GATEWAY_OK));
}

/* 19: a chunk of more than 65536 bytes, or a figure above 4000000000. All is as it was, and the replay can go on. */
static void run_bad_chunks(void)
{
    static const uint32_t most = 4000000000u, high[] = {4000000001u, 4100000000u, UINT32_MAX};
    struct gateway_table table = cleared();

    /* As many records as find room in a chunk: each is a header alone. From 4000000000 the figure goes on. */
    empty_file();
    put_record(STATE, "");
    for (; file.size + HEADER <= GATEWAY_CHUNK_BYTES; file.size += HEADER)
        memcpy(file.bytes + file.size, file.bytes, HEADER);
    const uint32_t many = (uint32_t)(file.size / HEADER);
    put_bytes(0, GATEWAY_CHUNK_BYTES + 1 - file.size);
    CHECK(many == 5461);
    CHECK(refuses(table, file.bytes, file.size, GATEWAY_BAD_CHUNK));
    lent.tally.seen = most;
    CHECK(gives(table, file.bytes, file.size - 1, GATEWAY_OK) && took(most + many, 0, 0));
    CHECK(refuses(table, file.bytes, 1, GATEWAY_BAD_CHUNK));
    CHECK(gateway_table_replay(&table, &lent.stream, &lent.tally, hops, HOPS, file.bytes, (size_t)-1) ==
          GATEWAY_BAD_CHUNK);
    CHECK(gateway_table_replay(&table, &lent.stream, &lent.tally, hops, HOPS, file.bytes, (size_t)1 << 32) ==
          GATEWAY_BAD_CHUNK);

    /* Each figure by itself, those for numbers under which no route is refused too. */
    empty_file();
    put_update("08 0b", NEXT_HOP, "08 0a 08 08 08 09 08 7f");
    for (size_t place = 0; place < FIGURES; place++) {
        static const uint32_t added[FIGURES] = {1, 1, 2, 0, 0, 0, 0, 0, 0, 0, 1, 1, 0, 0, 1};
        uint32_t figures[FIGURES] = {0};
        table = cleared();
        figures[place] = most;
        lent.tally = tally_of(figures);
        CHECK(replays(table, GATEWAY_OK) && has_words(0, 0, 0));
        words_of(&lent.tally, figures);
        for (size_t i = 0; i < FIGURES; i++)
            CHECK(figures[i] == added[i] + (i == place ? most : 0));
        for (size_t i = 0; i < sizeof high / sizeof high[0]; i++) {
            for (size_t other = 0; other < FIGURES; other++)
                figures[other] = other == place ? high[i] : i == 0 ? most : (uint32_t)other;
            lent.tally = tally_of(figures);
            CHECK(refuses(table, file.bytes, file.size, GATEWAY_BAD_CHUNK));
            CHECK(refuses(table, NULL, 0, GATEWAY_BAD_CHUNK));
        }
        begin();
        CHECK(replays(table, GATEWAY_OK) && tallied(1, 1, 2, 1, 1, 0, 0, 1) && ends(GATEWAY_OK));
    }
    uint32_t all[FIGURES];
    for (size_t i = 0; i < FIGURES; i++)
        all[i] = most;
    lent.tally = tally_of(all);
    set_words(0, 0, 0);
    CHECK(replays(table, GATEWAY_OK) && lent.tally.seen == most + 1 && lent.tally.applied == most + 1);
    CHECK(lent.tally.accepted == most + 2);
    for (uint32_t number = 0; number < NUMBERS; number++)
        CHECK(lent.tally.refused[number] == most + (number == 7 || number == 8 || number == 11));
}

/* A stream that has ended gives its number to all that comes, whatever else is wrong, and keeps what it holds. */
static void run_ended(void)
{
    static const struct {
        uint32_t word, number;
    } ended[] = {{1, 0},      {2, 1},         {13, 12},       {15, 14},           {18, 17},
                 {65536, 65535}, {65537, 0}, {65549, 12}, {0x80000000u, 65535}, {UINT32_MAX, 65534}};
    make_worked();
    for (size_t i = 0; i < sizeof ended / sizeof ended[0]; i++) {
        struct gateway_table table = cleared();
        const uint32_t number = ended[i].number;
        for (uint32_t others = 0; others < 3; others++) {
            set_words(ended[i].word, 7 * others, 9 * others);
            CHECK(refuses(table, file.bytes, file.size, number) && refuses(table, NULL, 0, number));
            CHECK(ends(number) && has_words(ended[i].word, 7 * others, 9 * others));
        }
        CHECK(gateway_table_replay(&table, &lent.stream, &lent.tally, hops, HOPS, file.bytes, 65537) == number);
        table.party = 2;
        CHECK(refuses(table, file.bytes, file.size, number));
        table.slots_words--;
        CHECK(refuses(table, file.bytes, file.size, number));
        table.settings.k = 9;
        CHECK(refuses(table, file.bytes, file.size, number));
        lent.tally.refused[19] = UINT32_MAX;
        CHECK(refuses(table, file.bytes, file.size, number));
    }

    /* By an accepted end too: the next day wants a stream that is begun anew. */
    struct gateway_table table = cleared();
    CHECK(ends(GATEWAY_OK) && refuses(table, file.bytes, file.size, GATEWAY_OK) && ends(GATEWAY_OK));
    begin();
    CHECK(replays(table, GATEWAY_OK) && is_worked(table));
    CHECK(gives(table, file.bytes, 5, GATEWAY_OK) && ends(GATEWAY_INSIDE_RECORD));
    CHECK(refuses(table, file.bytes, file.size, GATEWAY_INSIDE_RECORD) && ends(GATEWAY_INSIDE_RECORD));
}

/* Any words mean something. What they say of the room holds only where it fits. */
static void run_words(void)
{
    struct gateway_table table = cleared();
    empty_file();
    put_good("08 0a");
    const size_t size = file.size;
    const uint32_t whole = (uint32_t)size, none[] = {12, 13, 65548, 65549, UINT32_MAX};

    /* So many bytes of a header stand in the room, and of 12 or more none. */
    for (uint32_t read = 0; read < HEADER; read++) {
        table = cleared();
        memcpy(lent.stream.room, file.bytes, read);
        set_words(0, read, 0);
        CHECK(gives(table, file.bytes + read, size - read, GATEWAY_OK) && took(1, 1, 1));
    }
    for (size_t i = 0; i < sizeof none / sizeof none[0]; i++) {
        table = cleared();
        set_words(0, none[i], 0);
        CHECK(gives(table, file.bytes, size, GATEWAY_OK) && took(1, 1, 1));
        set_words(0, none[i], 0);
        CHECK(gives(table, NULL, 0, GATEWAY_OK) && has_words(0, 0, 0));
    }

    /* With bytes to come it is a record that is read, if its header is in the room and there is room for it. Else it is
       stepped over, and seen. */
    for (uint32_t read = 0; read < whole; read++) {
        table = cleared();
        memcpy(lent.stream.room, file.bytes, read);
        set_words(0, read, whole - read);
        CHECK(gives(table, file.bytes + read, size - read, GATEWAY_OK) && has_words(0, 0, 0));
        CHECK(read < HEADER ? took(1, 0, 0) : took(1, 1, 1));
    }
    static const struct {
        uint32_t read, left, kept;
    } under_way[] = {
        {12, 65536, 12},    {65547, 1, 65547},        {12, 65537, 0},         {65547, 2, 0}, {65548, 1, 0},
        {11, 1, 0},         {UINT32_MAX, 1, 0},       {12, UINT32_MAX, 0},    {1, UINT32_MAX, 0},
        {0x80000000u, 0x80000000u, 0}, {UINT32_MAX, UINT32_MAX, 0}, {UINT32_MAX - 10, 23, 0},
    };
    for (size_t i = 0; i < sizeof under_way / sizeof under_way[0]; i++) {
        table = cleared();
        memcpy(lent.stream.room, file.bytes, HEADER);
        set_words(0, under_way[i].read, under_way[i].left);
        CHECK(gives(table, NULL, 0, GATEWAY_OK) && has_words(0, under_way[i].kept, under_way[i].left));
    }

    /* What another kind of call has left of a record of its own is stepped over, and seen. Here a bit of the type or of
       the subtype is another one, of either kind that is read. */
    for (int two = 0; two < 2; two++) {
        empty_file();
        put_update_of(two ? MESSAGE : MESSAGE_AS4, two ? ENDS : ENDS_AS4, "", NEXT_HOP, "08 0a");
        const uint32_t all = (uint32_t)file.size;
        for (size_t bit = 0; bit <= 32; bit++) {
            table = cleared();
            memcpy(lent.stream.room, file.bytes, 20);
            if (bit < 32)
                lent.stream.room[4 + bit / 8] ^= (uint8_t)(1 << bit % 8);
            set_words(0, 20, all - 20);
            CHECK(gives(table, file.bytes + 20, 1, GATEWAY_OK) && has_words(0, bit < 32 ? 0 : 21, all - 21));
            CHECK(gives(table, file.bytes + 21, all - 21, GATEWAY_OK) && has_words(0, 0, 0));
            CHECK(bit < 32 ? took(1, 0, 0) : took(1, 1, 1));
            CHECK(gives(table, file.bytes, all, GATEWAY_OK));
            CHECK(bit < 32 ? took(2, 1, 1) : took(2, 2, 2));
        }
    }
}

/* An import and a replay on one stream: what the one has read of a record, the other steps over. */
static void run_mixed(void)
{
    struct gateway_counts counts = {0, 0, 0};
    struct gateway_table table = cleared();
    empty_file();
    put_record(ROUTE, "00 00 00 01 08 0a 00 01 00 01 65 00 00 00 00 07 " NEXT_HOP);
    put_good("08 08");
    const size_t day = file.starts[1];
    CHECK(gateway_table_import(&table, &lent.stream, &counts, hops, HOPS, file.bytes, 20) == GATEWAY_OK);
    CHECK(has_words(0, 20, (uint32_t)day - 20));
    CHECK(gives(table, file.bytes + 20, day + 20 - 20, GATEWAY_OK) && took(1, 0, 0));
    CHECK(has_words(0, 20, (uint32_t)(file.size - day) - 20));
    CHECK(gateway_table_import(&table, &lent.stream, &counts, hops, HOPS, file.bytes + day + 20,
                               file.size - day - 20) == GATEWAY_OK);
    CHECK(has_words(0, 0, 0) && is_empty() && counts.accepted == 0 && counts.without_hop == 0);
}

/* 19 comes before 1, 1 before 2, and 2 before 15; they leave all as it was, in the midst of a record too. */
static void run_order(void)
{
    static const uint32_t others[] = {2, 3, 65536, 0x80000000u, UINT32_MAX};
    struct gateway_table table = cleared(), wrong_party = table, wrong_sizes, wrong_settings;
    make_worked();
    CHECK(gives(table, file.bytes, 60, GATEWAY_OK));
    for (size_t i = 0; i < sizeof others / sizeof others[0]; i++) {
        wrong_party.party = others[i];
        CHECK(refuses(wrong_party, file.bytes + 60, file.size - 60, GATEWAY_BAD_PARTY));
        CHECK(refuses(wrong_party, NULL, 0, GATEWAY_BAD_PARTY));
    }
    wrong_sizes = wrong_settings = wrong_party;
    wrong_sizes.counters_bytes++;
    wrong_settings.counters_bytes--;
    wrong_settings.settings.d[31] = 12;
    CHECK(refuses(wrong_sizes, file.bytes + 60, file.size - 60, GATEWAY_BAD_SIZE));
    CHECK(refuses(wrong_settings, file.bytes + 60, file.size - 60, GATEWAY_BAD_SETTINGS));
    wrong_sizes = wrong_party;
    wrong_sizes.slots_words--;
    CHECK(refuses(wrong_sizes, NULL, 0, GATEWAY_BAD_SIZE));
    wrong_settings.settings.s = 0;
    CHECK(refuses(wrong_settings, NULL, 0, GATEWAY_BAD_SETTINGS));
    uint32_t figures[FIGURES] = {0};
    CHECK(gateway_replay(2, table.settings.d, 31, 1, 2, 1, 2, 1, lent.counters, COUNTERS, lent.slots, SLOTS, 2, hops,
                         HOPS, figures, lent.stream.words, lent.stream.room, file.bytes, 1) ==
          (uint64_t)GATEWAY_BAD_SETTINGS << 48);
    CHECK(same(&lent, &before));
    for (size_t i = 0; i < FIGURES; i++)
        CHECK(figures[i] == 0);
    lent.tally.refused[0] = UINT32_MAX;
    CHECK(refuses(wrong_party, file.bytes, 1, GATEWAY_BAD_CHUNK));
    CHECK(refuses(wrong_sizes, file.bytes, 1, GATEWAY_BAD_CHUNK));
    CHECK(refuses(wrong_settings, file.bytes, 1, GATEWAY_BAD_CHUNK));
    lent.tally.refused[0] = before.tally.refused[0] = 0;
    CHECK(gateway_table_replay(&wrong_settings, &lent.stream, &lent.tally, NULL, 0, file.bytes, 65537) ==
          GATEWAY_BAD_CHUNK);
    CHECK(same(&lent, &before));

    /* A record that is too long or bad is found only by a call that is right otherwise. */
    CHECK(gives(table, file.bytes + 60, file.size - 60, GATEWAY_OK) && is_worked(table));
    empty_file();
    put_record(MESSAGE, "");
    CHECK(refuses(wrong_sizes, file.bytes, file.size, GATEWAY_BAD_SIZE));
    CHECK(refuses(wrong_party, file.bytes, file.size, GATEWAY_BAD_PARTY));
    CHECK(replays(table, GATEWAY_BAD_MESSAGE) && refuses(wrong_sizes, file.bytes, file.size, GATEWAY_BAD_MESSAGE));
    CHECK(refuses(wrong_party, file.bytes, file.size, GATEWAY_BAD_MESSAGE));

    /* Of two records the first decides: 12 before 14, and 14 before 12. */
    for (int first = 0; first < 2; first++) {
        table = cleared();
        empty_file();
        put_record(MESSAGE, "");
        put_record(MESSAGE_AS4, "");
        write_number((first ? 0 : HEADER) + 8, 4, MOST_BODY + 1);
        CHECK(replays(table, first ? GATEWAY_LONG_RECORD : GATEWAY_BAD_MESSAGE) && took(0, 0, 0));
    }
}

int main(void)
{
    for (party = 0; party <= 1; party++) {
        run_worked();
        run_cuts();
        run_kinds();
        run_families();
        run_types();
        run_hopless();
        run_refused();
        run_short_records();
        run_bad_messages();
        run_long_records();
        run_longest_step();
        run_bad_chunks();
        run_ended();
        run_words();
        run_mixed();
        run_order();
    }
    return wrong ? EXIT_FAILURE : EXIT_SUCCESS;
}
