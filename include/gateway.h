/*
 * The gateway table from C: longest-prefix match over counting filters, one to a prefix length,
 * and hashed buckets.
 *
 * A table is its settings and two lists of memory that the caller lends. Nothing is kept between calls but
 * what is lent, and nothing is allocated. This table holds ninety routes of each length with room to
 * spare, in 288 KiB:
 *
 *     enum { D = 10, E = 7, S = 8 };
 *
 *     static uint8_t counters[GATEWAY_COUNTERS_BYTES(D)];
 *     static uint32_t slots[GATEWAY_SLOTS_WORDS(E, S)];
 *     static struct gateway_table table = {
 *         .settings = {.k = 4, .d = GATEWAY_EQUAL(D), .e = E, .s = S,
 *                      .a = GATEWAY_GOOD_A, .b = GATEWAY_GOOD_B, .c = GATEWAY_GOOD_C},
 *         .counters = counters, .counters_bytes = sizeof counters,
 *         .slots = slots, .slots_words = sizeof slots / sizeof slots[0],
 *     };
 *
 * (Before C++20 the fields have no names in an initializer: begin with zeros and set them one by one, d by
 * gateway_settings_fill, so that a later field changes nothing.) Clear it first, and look at what each call
 * answers:
 *
 *     uint32_t refusal = gateway_table_clear(&table);
 *     if (refusal == GATEWAY_OK)
 *         refusal = gateway_table_add(&table, 0x0a000000, 8, 7);
 *
 * Where a neighbour tells routes by BGP, hand on each UPDATE message as it came, with the addresses of the
 * next hops. The place of an address in that list is its hop: here 10.9.9.1 is hop 0, 10.9.9.2 hop 1.
 *
 *     static const uint32_t hops[] = {0x0a090901, 0x0a090902};
 *
 *     struct gateway_report report = gateway_table_update(&table, message, size, hops, 2);
 *
 * Where the routes lie in a file, as route servers dump them (MRT, RFC 6396), fill the table from it chunk by
 * chunk, each cut wherever a read ends. A stream keeps what is needed between two chunks; zeros begin one. It
 * has 64 KiB, and so has the chunk here, which is too much for some stacks: make them static.
 *
 *     static struct gateway_stream stream;
 *     static uint8_t chunk[GATEWAY_CHUNK_BYTES];
 *
 *     struct gateway_counts counts = {0, 0, 0};
 *     size_t size;
 *     while (refusal == GATEWAY_OK && (size = fread(chunk, 1, sizeof chunk, file)) > 0)
 *         refusal = gateway_table_import(&table, &stream, &counts, hops, 2, chunk, size);
 *     if (refusal == GATEWAY_OK && !ferror(file))
 *         refusal = gateway_stream_end(&stream);
 *
 * counts then has how many routes were accepted, how many refused, and how many records had no next hop of the
 * list.
 *
 * Where such a file has what neighbours sent on a day, message after message, replay it in the same way: each UPDATE
 * is applied as by gateway_table_update. Each file has a stream of its own; do not mix imports and replays on one.
 *
 *     struct gateway_tally tally = {0, 0, 0, {0}};
 *
 *     refusal = gateway_table_replay(&table, &stream, &tally, hops, 2, chunk, size);
 *
 * tally then has how many records were seen, how many UPDATEs were applied, how many routes were accepted, and how
 * many were refused for what reason: tally.refused[GATEWAY_BUCKET_FULL] for a full bucket.
 *
 * Two parties can share one table: a library, say, and the school next door. The table above names no party, so that
 * it is party 0's: let that be the library. The school is party 1. It has a second struct with the same settings and
 * the same memory:
 *
 *     struct gateway_table school = table;
 *     school.party = 1;
 *
 *     refusal = gateway_table_add(&school, 0x0a000000, 8, 9);
 *
 * Here 10.1.2.3 goes to hop 7 for the library and to hop 9 for the school. Each party finds, replaces, changes and
 * withdraws its own routes alone. The same prefix may be stored once for each of them, and each has a default route
 * of its own. It is proved that what a party finds depends on those of its own updates that were accepted, and on
 * nothing that the other adds, changes or withdraws. What the two share is the memory:
 *
 * - The routes of both take slots and counters. So a party's add may be refused by GATEWAY_BUCKET_FULL or
 *   GATEWAY_COUNTER_FULL because of what the other has stored.
 * - The filters claim the prefixes of both. So the probes of a lookup and the match vector depend on both.
 * - gateway_table_clear empties the table for both. It does not look at the party of its struct, and neither does
 *   gateway_table_match_vector.
 *
 * A message, a dump and a day are applied for one party. Give each chunk of a stream the same one.
 *
 * Where a table is to be swapped for another, which may have other settings, compare the two first: which routes would
 * be lost, which gained, and which would get another hop? Here fresh is the other table, with E and S of its own:
 *
 *     static struct gateway_difference list[GATEWAY_MOST_DIFFERENCES(E, S, FRESH_E, FRESH_S)];
 *
 *     struct gateway_differences differences =
 *         gateway_table_difference(&table, &fresh, 0, list, sizeof list / sizeof list[0]);
 *
 * The list then has differences.count prefixes, by rising length and then rising prefix, with what each of the two
 * tables has there for party 0: hop + 1, or 0 where there is no route. So list[i].second == 0 is a route that would be
 * lost. Compared with a table that is empty, just cleared, a table's own routes are listed.
 *
 * An address or prefix is a 32-bit number with its first octet highest: 10.0.0.0 is 0x0a000000. A
 * route is a prefix, its length (0 to 32, 0 being the default route) and its next hop (0 to 65535).
 *
 * Every call checks what it is given. The first of the GATEWAY_ refusals below whose condition holds
 * is answered, with zero for everything else, and no lent byte or word is changed; only a dump or a day may be
 * refused at a record, with those before it done (gateway_import and gateway_replay say how). What no call can
 * check: each pointer must lead to as much memory as the size beside it says (beside 0 it may be NULL), the lists
 * that a call is lent must not overlap (but two tables that are compared may be the same), the words of an update, of
 * counts, of a tally and of a stream and the list of next hops must be aligned as uint32_t, and a table must be asked
 * and updated under the settings that it was cleared with, each of the 32 values of d among them, by both parties.
 * Lookups and comparisons may run at the same time, those that write a list each into its own; an update must run
 * alone, whichever party's it is, and so must a message and a chunk of a dump or of a day.
 *
 * What is proved of these calls: whatever a program does with them after an accepted clear is a history
 * (crates/c_promises/proofs/Seat.antt), of which crates/promises/proofs/Promises.antt states every promise, but that
 * on two parties, which Parties.antt beside it has;
 * and what is read from an answer is what is promised there (crates/c_promises/proofs/Unpacking.antt, and
 * Lists.antt and Comparisons.antt beside it; specs/Numbers.antt there has the functions that take an answer apart).
 * What a comparison lists is stated in crates/difference_promises/proofs. The functions on a table stand on these
 * calls and are tested.
 *
 * Choosing settings. A length has 2^e buckets of s slots, and a route goes into the one bucket that
 * its prefix hashes to: once that is full a new route is refused, however empty the others are. So a
 * table takes far fewer routes than it has slots. For the most routes that any one length has, those of both parties
 * together:
 *
 *     routes    k   d  e  s     bytes    tables that take them all
 *         10    4   7  3  8    20,488    all of 40,000 random ones
 *         30    4   8  5  8    73,736    all
 *         90    4  10  7  8   294,920    all
 *        200    4  11  8  8   589,832    all
 *        300    4  11  8  8   589,832    above 99.9 in 100
 *        500    3  11  8  8   589,832    95 in 100
 *
 * The bytes are those of a table whose filters are all of one size. Nothing larger can be set: 700 routes
 * at one length are taken by every second table, and 1,000 by hardly any. docs/SETTINGS.md has the whole
 * measurement, and says what to do about a refusal by GATEWAY_BUCKET_FULL or GATEWAY_COUNTER_FULL.
 *
 * Filters of unequal size. e and s serve all lengths, but each has a d of its own, length L the one at
 * d[L - 1], and that need be no larger than the routes of this length ask. Sixteen counters to a route are
 * enough: a d of 4 for one route or none, 5 for two, 6 for four, 7 for eight, 8 for sixteen, 9 for 32, 10 for
 * 64, and 11 for more. Where sixty routes are /24, twelve are /16 and no other length has more than one, that
 * is
 *
 *     #define FILTERS                                             \
 *         4, 4, 4, 4, 4, 4, 4, 4,  4, 4, 4, 4, 4, 4, 4, 8,        \
 *         4, 4, 4, 4, 4, 4, 4, 10, 4, 4, 4, 4, 4, 4, 4, 4
 *
 *     static uint8_t counters[GATEWAY_COUNTERS_BYTES_OF(FILTERS)];
 *
 * with .d = {FILTERS} among the settings. So 30 filters have 16 counters, one has 256 and one has 1,024:
 * 1,760 bytes, where a d of 10 for all takes 32,768. They lie one length after the other, from length 1 on:
 * the counters of length 16 are the bytes from 15 * 16 = 240 to 495, and those of length 24 the bytes from
 * 496 + 7 * 16 = 608 to 1,631. At run time the same is
 *
 *     gateway_settings_fill(&table.settings, 4);
 *     table.settings.d[16 - 1] = 8;
 *     table.settings.d[24 - 1] = 10;
 *     table.counters_bytes = gateway_counters_bytes(table.settings.d, GATEWAY_LENGTHS);
 *
 * A filter without a route claims nothing, however small it is. One with more routes than it is made for
 * claims what it should not, which costs probes, and may refuse a route by GATEWAY_COUNTER_FULL. So where
 * routes may still come to a length, leave them room: the settings of a table can not be changed.
 *
 * The library is built for x86-64 alone, where a word lies in memory with its low byte first. So the
 * words that an update writes are the bytes that a lookup reads.
 */
#ifndef GATEWAY_H
#define GATEWAY_H

#include <stddef.h>
#include <stdint.h>

#if defined(__BYTE_ORDER__) && __BYTE_ORDER__ != __ORDER_LITTLE_ENDIAN__
#error "gateway.h: a word must lie in memory with its low byte first"
#endif

#ifdef __cplusplus
extern "C" {
#endif

/* The version of this header, of its archive and of its pkg-config file; CHANGELOG.md lists the versions. */
#define GATEWAY_VERSION "0.11.0"

/* An answer that is not looked at is a refusal that nobody sees: the compiler warns of it. */
#if defined(__GNUC__)
#define GATEWAY_ANSWERS __attribute__((warn_unused_result))
#else
#define GATEWAY_ANSWERS
#endif

/* What a call refuses, in the order in which it checks, but that 15 comes straight after 2, 11 after 4 and before 5,
   and 19 before 1. A comparison checks 1 and 2 of its first table and then of its second. 6 and 16 are given by no
   call. */
enum {
    GATEWAY_OK = 0,
    GATEWAY_BAD_SETTINGS = 1,   /* k, e, s or a value of d is out of its range, or d is not of 32 values */
    GATEWAY_BAD_SIZE = 2,       /* counters or slots are not of exactly the size that the settings ask */
    GATEWAY_BAD_LENGTH = 3,     /* the length is above 32 */
    GATEWAY_HOST_BIT = 4,       /* the prefix has a bit set after its length */
    GATEWAY_BAD_HOP = 5,        /* the hop is above 65535 */
    GATEWAY_STORED = 6,         /* add up to 0.3: the prefix is already stored; the number is not used anew */
    GATEWAY_NOT_STORED = 7,     /* withdraw, change: the prefix is not stored for the party */
    GATEWAY_BUCKET_FULL = 8,    /* add of a prefix not stored: every slot of its bucket is occupied, by either party */
    GATEWAY_COUNTER_FULL = 9,   /* add of a prefix not stored: a counter would pass 15 */
    GATEWAY_COUNTER_SHORT = 10, /* withdraw: a counter would pass below 0; the memory is damaged */
    GATEWAY_ODD_PREFIX = 11,    /* add: the prefix lies wholly in 127.0.0.0/8 or in 224.0.0.0/4 */
    GATEWAY_BAD_MESSAGE = 12,   /* message: it is no UPDATE, or not well-formed; dump: the record of a route is
                                   not well-formed; day: the record of a message is too short, or its UPDATE is
                                   not well-formed */
    GATEWAY_BAD_NEXT_HOP = 13,  /* message that announces: NEXT_HOP is missing, not in the list of next hops,
                                   or at a place above 65535 there; a day goes on after such a message */
    GATEWAY_LONG_RECORD = 14,   /* dump: the record of a route has a body above 65536 bytes; day: that of a
                                   message has */
    GATEWAY_BAD_PARTY = 15,     /* the party is above 1 */
    GATEWAY_INSIDE_RECORD = 17, /* end of a stream: the last record is not complete */
    GATEWAY_BAD_LIST = 18,      /* lookup list: no whole addresses, or not four result words to each;
                                   withdrawal: the room is not of exactly the message's size;
                                   comparison: there are more differences than the list has room for */
    GATEWAY_BAD_CHUNK = 19      /* dump, day: the chunk is above 65536 bytes, or a count above 4000000000 */
};

/* A refusal in words. */
static inline const char *gateway_refusal_text(uint32_t refusal)
{
    switch (refusal) {
    case GATEWAY_OK: return "accepted";
    case GATEWAY_BAD_SETTINGS: return "a setting is out of its range, or d has not 32 values";
    case GATEWAY_BAD_SIZE: return "counters or slots are not of the size that the settings ask";
    case GATEWAY_BAD_LENGTH: return "the length is above 32";
    case GATEWAY_HOST_BIT: return "a bit is set after the length";
    case GATEWAY_BAD_HOP: return "the hop is above 65535";
    case GATEWAY_STORED: return "the prefix is already stored";
    case GATEWAY_NOT_STORED: return "the prefix is not stored";
    case GATEWAY_BUCKET_FULL: return "every slot of the bucket is occupied";
    case GATEWAY_COUNTER_FULL: return "a counter would pass 15";
    case GATEWAY_COUNTER_SHORT: return "a counter would pass below 0";
    case GATEWAY_ODD_PREFIX: return "the prefix lies in 127.0.0.0/8 or 224.0.0.0/4";
    case GATEWAY_BAD_MESSAGE: return "the message is no UPDATE, or the message or record is not well-formed";
    case GATEWAY_BAD_NEXT_HOP:
        return "routes are announced without a NEXT_HOP, or the list does not have it up to place 65535";
    case GATEWAY_LONG_RECORD: return "the body of a record is above 65536 bytes";
    case GATEWAY_BAD_PARTY: return "the party is above 1";
    case GATEWAY_INSIDE_RECORD: return "the stream ends inside a record";
    case GATEWAY_BAD_LIST:
        return "the results are not four to each whole address, the room is not of the message's size, or there are "
               "more differences than room";
    case GATEWAY_BAD_CHUNK: return "the chunk is above 65536 bytes, or a count above 4000000000";
    default: return "unknown refusal";
    }
}

/* The prefix lengths that have a filter, 1 to 32; the default route's has none. So many values has d. */
#define GATEWAY_LENGTHS 32

/* One value for all of them, as an initializer: .d = GATEWAY_EQUAL(10). A run-time value goes by
   gateway_settings_fill. */
#define GATEWAY_EQUAL(d)                                                                           \
    {                                                                                              \
        d, d, d, d, d, d, d, d, d, d, d, d, d, d, d, d, d, d, d, d, d, d, d, d, d, d, d, d, d, d, d, d \
    }

/*
 * The sizes to lend, as constants for an array's size; the values of d, e and s must be in their ranges.
 * GATEWAY_COUNTERS_BYTES and GATEWAY_TABLE_BYTES are those of a table whose values of d are all equal.
 * GATEWAY_COUNTERS_BYTES_OF takes all 32, separated by commas; another count does not compile. The functions
 * below them answer 0 where a setting is out of its range, or d has not 32 values.
 */
#define GATEWAY_COUNTERS_BYTES(d) ((size_t)GATEWAY_LENGTHS << (d))
#define GATEWAY_COUNTERS_BYTES_OF(...) GATEWAY_SUM_OF_32(__VA_ARGS__)
#define GATEWAY_SLOTS_WORDS(e, s) (((size_t)64 << (e)) * (s) + 2)
#define GATEWAY_SLOTS_BYTES(e, s) (4 * GATEWAY_SLOTS_WORDS(e, s))
#define GATEWAY_TABLE_BYTES(d, e, s) (GATEWAY_COUNTERS_BYTES(d) + GATEWAY_SLOTS_BYTES(e, s))

/* The sum of 32 powers of two, 2^d1 + 2^d2 + ..., for GATEWAY_COUNTERS_BYTES_OF. */
#define GATEWAY_SUM_OF_32(d1, d2, d3, d4, d5, d6, d7, d8, d9, d10, d11, d12, d13, d14, d15, d16, d17, d18, \
                          d19, d20, d21, d22, d23, d24, d25, d26, d27, d28, d29, d30, d31, d32)    \
    (GATEWAY_SUM_OF_8(d1, d2, d3, d4, d5, d6, d7, d8) +                                            \
     GATEWAY_SUM_OF_8(d9, d10, d11, d12, d13, d14, d15, d16) +                                     \
     GATEWAY_SUM_OF_8(d17, d18, d19, d20, d21, d22, d23, d24) +                                    \
     GATEWAY_SUM_OF_8(d25, d26, d27, d28, d29, d30, d31, d32))
#define GATEWAY_SUM_OF_8(d1, d2, d3, d4, d5, d6, d7, d8)                                           \
    (((size_t)1 << (d1)) + ((size_t)1 << (d2)) + ((size_t)1 << (d3)) + ((size_t)1 << (d4)) +       \
     ((size_t)1 << (d5)) + ((size_t)1 << (d6)) + ((size_t)1 << (d7)) + ((size_t)1 << (d8)))

/* The sum of the powers 2^d[i]: count must be GATEWAY_LENGTHS. */
static inline size_t gateway_counters_bytes(const uint8_t *d, size_t count)
{
    size_t bytes = 0;
    if (count != GATEWAY_LENGTHS)
        return 0;
    for (size_t i = 0; i < count; i++) {
        if (d[i] < 4 || d[i] > 11)
            return 0;
        bytes += (size_t)1 << d[i];
    }
    return bytes;
}

static inline size_t gateway_slots_words(uint32_t e, uint32_t s)
{
    return e > 8 || s < 1 || s > 8 ? 0 : GATEWAY_SLOTS_WORDS(e, s);
}

static inline size_t gateway_slots_bytes(uint32_t e, uint32_t s)
{
    return 4 * gateway_slots_words(e, s);
}

/*
 * The most bytes that a message of BGP has, and those of the message that withdraws a route of a length. As
 * above, the first two are constants, for a length up to 32, and the function answers 0 where it is longer.
 */
#define GATEWAY_MESSAGE_BYTES 4096
#define GATEWAY_WITHDRAWAL_BYTES(length) ((size_t)24 + ((length) + 7) / 8)

static inline size_t gateway_withdrawal_bytes(uint32_t length)
{
    return length > 32 ? 0 : GATEWAY_WITHDRAWAL_BYTES(length);
}

/*
 * The most differences that two tables can have, by e and s of the one and of the other, as a constant for an array's
 * size: 32 * 2^e * s of each table, one to a slot, and one more for the default. It is proved that a list with so
 * much room is always enough. For the largest tables, with an e and s of 8, it is 131,073, which take 2 MiB. All four
 * must be in their ranges.
 */
#define GATEWAY_MOST_DIFFERENCES(e, s, other_e, other_s)                                           \
    (((size_t)GATEWAY_LENGTHS << (e)) * (s) + ((size_t)GATEWAY_LENGTHS << (other_e)) * (other_s) + 1)

/* The most bytes that a chunk of a dump or of a day may have, and those that a stream has room for: a record's
   header of 12 bytes and a body of 65536. */
#define GATEWAY_CHUNK_BYTES 65536
#define GATEWAY_RECORD_BYTES 65548

/*
 * Multipliers that serve: odd, with bits that follow no pattern, high and low. Buckets and filter
 * positions are the top bits of products with the prefix; 1 as c would put all of 10.0.0.0/8 into one
 * bucket.
 */
#define GATEWAY_GOOD_A 0xc2b2ae3du
#define GATEWAY_GOOD_B 0x85ebca77u
#define GATEWAY_GOOD_C 0x9e3779b1u

struct gateway_settings {
    uint32_t k;                 /* hash steps, 1 to 8 */
    uint8_t d[GATEWAY_LENGTHS]; /* the filter of length L has 2^d[L - 1] counters, 4 to 11 */
    uint32_t e;                 /* a length has 2^e buckets, 0 to 8 */
    uint32_t s;                 /* slots in a bucket, 1 to 8 */
    uint32_t a, b, c;           /* multipliers, any numbers: a and b of the filters, c of the buckets */
};

/* Gives every length the same d. One out of its range stays out of it, above 255 too, and the calls refuse it. */
static inline void gateway_settings_fill(struct gateway_settings *settings, uint32_t d)
{
    for (size_t i = 0; i < GATEWAY_LENGTHS; i++)
        settings->d[i] = (uint8_t)(d > 255 ? 255 : d);
}

struct gateway_table {
    struct gateway_settings settings;
    uint8_t *counters;
    size_t counters_bytes; /* exactly gateway_counters_bytes(d, GATEWAY_LENGTHS) */
    uint32_t *slots;
    size_t slots_words; /* exactly GATEWAY_SLOTS_WORDS(e, s) */
    uint32_t party;     /* whose routes the calls are about, 0 or 1; clear and match vector do not look at it */
};

/* What a lookup answers. If it is refused, all else is 0; if nothing matches, found, hop and length. */
struct gateway_answer {
    uint32_t refusal; /* GATEWAY_OK, GATEWAY_BAD_SETTINGS, GATEWAY_BAD_SIZE or GATEWAY_BAD_PARTY */
    uint32_t found;   /* 1 if a route of the party's matches, else 0 */
    uint32_t hop;     /* of the longest one that matches */
    uint32_t length;  /* of the same; 0 is the default's */
    uint32_t probes;  /* how many buckets were searched */
};

/* What a lookup of a list answers to each of its addresses, as above. The refusal is the list's. */
struct gateway_result {
    uint32_t found;
    uint32_t hop;
    uint32_t length;
    uint32_t probes;
};

/* One prefix at which two tables differ for a party. What a table has there is hop + 1, or 0 where it has no route. So
   a first of 0 is a route that only the second table has, a second of 0 one that only the first has; else both have
   one, with two hops. */
struct gateway_difference {
    uint32_t length; /* 0 is the default's */
    uint32_t prefix;
    uint32_t first;  /* what the first table has */
    uint32_t second; /* what the second table has, which is never the same */
};

/* What a comparison answers. If it is refused, count is 0, and nothing was written. */
struct gateway_differences {
    uint32_t refusal; /* GATEWAY_OK, the first table's as of a lookup, else the second's, or GATEWAY_BAD_LIST */
    uint32_t count;   /* how many differences there are, all of them in the list */
};

/* What a match vector answers. */
struct gateway_claims {
    uint32_t refusal; /* GATEWAY_OK, GATEWAY_BAD_SETTINGS or GATEWAY_BAD_SIZE */
    uint32_t vector;  /* bit L - 1 is set exactly if the filter of length L claims the address */
};

/* What a message answers. If it is refused, both counts are 0. */
struct gateway_report {
    uint32_t refusal;  /* GATEWAY_OK, or as of a lookup, GATEWAY_BAD_MESSAGE or GATEWAY_BAD_NEXT_HOP */
    uint32_t accepted; /* how many of its routes the table took, withdrawn and announced ones */
    uint32_t refused;  /* how many it refused; they are skipped */
};

/*
 * What is kept of a dump or of a day between two chunks. Zeros in the words begin a stream, whatever the room
 * holds; nothing else need be set or looked at. Every chunk writes to it, so it is never const. It serves one file
 * at a time, by imports or by replays and not by both, and is begun anew for the next. Static memory begins with
 * zeros.
 */
struct gateway_stream {
    uint32_t words[3];
    uint8_t room[GATEWAY_RECORD_BYTES];
};

/* What an import counts. All three are zero at first, or go on from another dump; none may be above 4000000000 when
   a chunk is lent. */
struct gateway_counts {
    uint32_t accepted;    /* how many routes the table took */
    uint32_t refused;     /* how many it refused; they are skipped */
    uint32_t without_hop; /* how many records had no next hop of the list; they do nothing */
};

/* What a replay counts. All are zero at first, or go on from another day; none may be above 4000000000 when a chunk
   is lent. A route is refused under GATEWAY_NOT_STORED, GATEWAY_BUCKET_FULL, GATEWAY_COUNTER_FULL or
   GATEWAY_ODD_PREFIX, or under GATEWAY_COUNTER_SHORT where memory is damaged; the figures for the other numbers
   stay as they are. */
struct gateway_tally {
    uint32_t seen;        /* how many records there were, of any kind */
    uint32_t applied;     /* how many UPDATEs were applied */
    uint32_t accepted;    /* how many of their routes the table took, withdrawn and announced ones */
    uint32_t refused[20]; /* how many it refused under each number, refused[n] under n; they are skipped */
};

/*
 * The exported functions. A program calls those at the end, which stand on these. Each of these
 * answers one 64-bit number whose parts are read by the functions that follow: a refusal begins
 * at bit 48, so the answer is not itself a GATEWAY_ number, and an int would lose it.
 *
 * d is lent as a list, of d_count bytes, which no call changes. Any other count than GATEWAY_LENGTHS is
 * refused as GATEWAY_BAD_SETTINGS, as is a value out of its range.
 *
 * party says whose routes a call is about, 0 or 1. Any other is refused as GATEWAY_BAD_PARTY, straight after
 * GATEWAY_BAD_SIZE.
 */

/* Updates. Of their answers only gateway_refusal is ever other than zero. */
GATEWAY_ANSWERS uint64_t gateway_clear(uint32_t k, const uint8_t *d, size_t d_count, uint32_t e, uint32_t s,
                                       uint32_t a, uint32_t b, uint32_t c, uint8_t *counters,
                                       size_t counters_bytes, uint32_t *slots, size_t slots_words);

GATEWAY_ANSWERS uint64_t gateway_add(uint32_t k, const uint8_t *d, size_t d_count, uint32_t e, uint32_t s,
                                     uint32_t a, uint32_t b, uint32_t c, uint8_t *counters,
                                     size_t counters_bytes, uint32_t *slots, size_t slots_words, uint32_t party,
                                     uint32_t prefix, uint32_t length, uint32_t hop);

GATEWAY_ANSWERS uint64_t gateway_withdraw(uint32_t k, const uint8_t *d, size_t d_count, uint32_t e,
                                          uint32_t s, uint32_t a, uint32_t b, uint32_t c, uint8_t *counters,
                                          size_t counters_bytes, uint32_t *slots, size_t slots_words, uint32_t party,
                                          uint32_t prefix, uint32_t length);

GATEWAY_ANSWERS uint64_t gateway_change(uint32_t k, const uint8_t *d, size_t d_count, uint32_t e,
                                        uint32_t s, uint32_t a, uint32_t b, uint32_t c, uint8_t *counters,
                                        size_t counters_bytes, uint32_t *slots, size_t slots_words, uint32_t party,
                                        uint32_t prefix, uint32_t length, uint32_t hop);

/*
 * Questions. They take the slots by the byte, a word's lowest byte first and on no boundary, so that a
 * table can be asked that came as bytes: from a file, say. On x86-64 words in memory are such bytes.
 */
GATEWAY_ANSWERS uint64_t gateway_lookup(uint32_t k, const uint8_t *d, size_t d_count, uint32_t e,
                                        uint32_t s, uint32_t a, uint32_t b, uint32_t c,
                                        const uint8_t *counters, size_t counters_bytes,
                                        const uint8_t *slots, size_t slots_bytes, uint32_t party, uint32_t address);

GATEWAY_ANSWERS uint64_t gateway_match_vector(uint32_t k, const uint8_t *d, size_t d_count, uint32_t e,
                                              uint32_t s, uint32_t a, uint32_t b, uint32_t c,
                                              const uint8_t *counters, size_t counters_bytes,
                                              const uint8_t *slots, size_t slots_bytes, uint32_t address);

/*
 * The lookup of each address of a list, in the list's order. Addresses and results are bytes as the slots
 * are: an address is one word, and its results are the four words found (1 or 0), hop, length and probes,
 * each what gateway_lookup gives. So on x86-64 arrays of uint32_t can be lent as their bytes. Of the answer
 * only gateway_refusal is ever other than zero: GATEWAY_BAD_SETTINGS, then GATEWAY_BAD_SIZE, then
 * GATEWAY_BAD_PARTY, then GATEWAY_BAD_LIST if results_bytes is not four times addresses_bytes or addresses_bytes
 * is no multiple of four. A refused list leaves every byte of the results as it was. An empty one is accepted.
 */
GATEWAY_ANSWERS uint64_t gateway_lookup_list(uint32_t k, const uint8_t *d, size_t d_count, uint32_t e,
                                             uint32_t s, uint32_t a, uint32_t b, uint32_t c,
                                             const uint8_t *counters, size_t counters_bytes,
                                             const uint8_t *slots, size_t slots_bytes, uint32_t party,
                                             const uint8_t *addresses, size_t addresses_bytes,
                                             uint8_t *results, size_t results_bytes);

/*
 * Lists the prefixes at which two tables differ for a party. The first table is lent and then the second, each under
 * its own settings and as to a lookup; d2_count and so on are the second's. Both are only read, and may be the same.
 *
 * The list is bytes as the results of a lookup list are, on no boundary. It gets four words to a difference: length,
 * prefix, and what the first and the second table have there, hop + 1 or 0 where there is no route. They come by
 * rising length, the default's first, and then by rising prefix. A prefix is listed once, and exactly if one table has
 * a route of the party's there that the other has not, or has with another hop. gateway_count of the answer is how
 * many there are. The list may have room for more: its bytes after these stay as they were.
 *
 * Refused are, in this order: GATEWAY_BAD_SETTINGS and then GATEWAY_BAD_SIZE of the first table; then of the second;
 * GATEWAY_BAD_PARTY; GATEWAY_BAD_LIST, exactly if list_bytes is less than 16 times the number of differences. A
 * refused comparison counts 0 and leaves every byte of the list as it was. So it does not tell how many there are, but
 * an empty list, NULL beside 0, tells whether there are any: it is accepted if there are none.
 *
 * The filters play no part: of the counters only the size is checked. Nothing is kept or sorted, so the time goes with
 * the slots. All slots of both tables are gone through twice, once to count and once to write. For each route of the
 * party's its table's slots of that length, 2^e * s of them, are gone through twice more. So in tables that are as
 * large as their routes ask, twice as many routes of a length take four times as long. Two of the largest tables,
 * filled to the brim, take about half a second, and two with 2,000 routes each about 20 milliseconds (make bench).
 */
GATEWAY_ANSWERS uint64_t gateway_list_differences(uint32_t k, const uint8_t *d, size_t d_count, uint32_t e,
                                                  uint32_t s, uint32_t a, uint32_t b, uint32_t c,
                                                  const uint8_t *counters, size_t counters_bytes,
                                                  const uint8_t *slots, size_t slots_bytes, uint32_t k2,
                                                  const uint8_t *d2, size_t d2_count, uint32_t e2, uint32_t s2,
                                                  uint32_t a2, uint32_t b2, uint32_t c2, const uint8_t *counters2,
                                                  size_t counters2_bytes, const uint8_t *slots2,
                                                  size_t slots2_bytes, uint32_t party, uint8_t *list,
                                                  size_t list_bytes);

/*
 * Applies one message of a neighbour for a party: an UPDATE of BGP (RFC 4271). Each route that it withdraws is
 * withdrawn, as by gateway_withdraw, and then each that it announces is added, as by gateway_add, in the message's
 * order. A route that the table refuses is counted and skipped, and the others are applied. gateway_accepted and
 * gateway_refused of the answer are the two counts. Together they are the routes of the message, of which
 * there are at most 4073, so that each count fits into its 12 bits.
 *
 * The message is lent whole, from its marker to its end, in the bytes that came, on no boundary: its own
 * length, which a stream of messages is cut by, stands in its bytes 16 and 17, the higher one first, and
 * must be message_bytes, 23 to GATEWAY_MESSAGE_BYTES. Bits of a prefix after its length mean nothing and
 * are cleared. Of the path attributes only NEXT_HOP counts; the others are stepped over. A session that has
 * agreed on additional paths (RFC 7911) has a path's number before each prefix, which no message tells: agree
 * on none.
 *
 * hops are the addresses of next hops, hops_words of them. The hop of the announced routes is the lowest
 * place of NEXT_HOP there, from 0. The table keeps the number alone, so let an address keep its place: add
 * new ones at the end. An empty list, NULL beside 0, does for messages that announce nothing.
 *
 * Refused are, in this order: GATEWAY_BAD_SETTINGS; GATEWAY_BAD_SIZE; GATEWAY_BAD_PARTY; GATEWAY_BAD_MESSAGE, if the
 * marker is not sixteen bytes of 255, the length is not as above, the type is not 2 (UPDATE; so an OPEN or a KEEPALIVE
 * is refused), a part runs past the end of what it stands in, a prefix is longer than 32, or NEXT_HOP comes
 * twice or is not 4 bytes long; GATEWAY_BAD_NEXT_HOP, if routes are announced without a NEXT_HOP, or with one
 * that the list does not have at a place up to 65535. Of a refused message no route is applied: nothing is
 * changed.
 */
GATEWAY_ANSWERS uint64_t gateway_update(uint32_t k, const uint8_t *d, size_t d_count, uint32_t e,
                                        uint32_t s, uint32_t a, uint32_t b, uint32_t c, uint8_t *counters,
                                        size_t counters_bytes, uint32_t *slots, size_t slots_words, uint32_t party,
                                        const uint8_t *message, size_t message_bytes, const uint32_t *hops,
                                        size_t hops_words);

/*
 * Writes the message that withdraws one route, to be sent to a neighbour; no table is asked or changed. The
 * room is exactly gateway_withdrawal_bytes(length), 24 to 28 bytes. Of the answer only gateway_refusal is
 * ever other than zero: GATEWAY_BAD_LENGTH, then GATEWAY_HOST_BIT, then GATEWAY_BAD_LIST if the room is
 * larger or smaller. A refused call leaves the room as it was.
 */
GATEWAY_ANSWERS uint64_t gateway_write_withdrawal(uint32_t prefix, uint32_t length, uint8_t *room,
                                                  size_t room_bytes);

/*
 * Takes one chunk of a dump, a file of MRT records (RFC 6396), unpacked. Records of type 13 and subtype 2 are read:
 * each has one route to an IPv4 prefix. Any other is stepped over, however long it is, those with additional paths
 * (RFC 8050) among them. A record adds its route, as by gateway_add, as soon as its last byte has come, and counts
 * it as accepted or refused. Its hop is that of its first entry whose NEXT_HOP stands in hops, the lowest place up
 * to 65535, as for gateway_update. A record without such an entry adds nothing, and is counted as without a hop.
 *
 * A dump may be cut into chunks anywhere. A chunk may be empty, NULL beside 0. Table, counts and the last number
 * are the same for all cuts. counts are the three of gateway_counts in their order, words and room those of
 * gateway_stream: leave them as they are between two chunks, and give each chunk the same settings, next hops and
 * party.
 *
 * Of the answer only gateway_refusal is ever other than zero. In this order it is
 *
 * - the number that ended the stream, GATEWAY_OK too, if it has ended. Nothing is changed. So begin a stream anew,
 *   by zeros in its words, after an end, GATEWAY_LONG_RECORD and GATEWAY_BAD_MESSAGE;
 * - GATEWAY_BAD_CHUNK, if the chunk has more than GATEWAY_CHUNK_BYTES or a count is above 4000000000, then
 *   GATEWAY_BAD_SETTINGS, then GATEWAY_BAD_SIZE, then GATEWAY_BAD_PARTY. Nothing is changed, and the import can go on
 *   with a better chunk;
 * - GATEWAY_LONG_RECORD or GATEWAY_BAD_MESSAGE, at the first record of a route that is too long or not well-formed.
 *   This ends the import. The records before it stay applied and counted, those of this chunk too, and nothing that
 *   follows is done. It is well-formed if the prefix is not longer than 32, the last entry ends where the record
 *   does, and the attributes of each entry are what those of a message must be.
 *
 * A record of which another kind of call has read a part is stepped over to its end.
 */
GATEWAY_ANSWERS uint64_t gateway_import(uint32_t k, const uint8_t *d, size_t d_count, uint32_t e, uint32_t s,
                                        uint32_t a, uint32_t b, uint32_t c, uint8_t *counters,
                                        size_t counters_bytes, uint32_t *slots, size_t slots_words, uint32_t party,
                                        const uint32_t *hops, size_t hops_words, uint32_t counts[3],
                                        uint32_t words[3], uint8_t room[GATEWAY_RECORD_BYTES],
                                        const uint8_t *chunk, size_t chunk_bytes);

/*
 * Takes one chunk of a recorded day, a file of MRT records (RFC 6396), unpacked. Records of type 16 and of subtype
 * 1 or 4 are read: each has one message that a neighbour sent, after two AS numbers, of two bytes each in subtype 1
 * and of four in subtype 4, and the addresses of both ends. If these are of IPv4 (address family 1) and the message
 * is an UPDATE, by its byte 18, it is applied as by gateway_update as soon as its record's last byte has come.
 *
 * Every record is counted as seen as soon as it is complete. Seen and not applied, with nothing else of them looked
 * at, are records of any other kind, however long they are, those of type 17 (times in microseconds) and changes of
 * a session's state among them; records with addresses of another family, such as IPv6, whatever routes they may
 * have; and messages of another type, whatever else is in them. An UPDATE that gateway_update refuses as
 * GATEWAY_BAD_NEXT_HOP is seen and not applied either. The routes of an UPDATE that is applied are counted as
 * accepted, or as refused under the number that gateway_withdraw or gateway_add gives.
 *
 * tally is the 23 words of gateway_tally in their order, and goes up from what it holds. For party, hops, words, room
 * and chunk all is as for gateway_import. Table, tally and the last number are the same for all cuts of a day into
 * chunks.
 *
 * Of the answer only gateway_refusal is ever other than zero. In this order it is
 *
 * - the number that ended the stream, GATEWAY_OK too, if it has ended. Nothing is changed. So begin a stream anew,
 *   by zeros in its words, after an end, GATEWAY_LONG_RECORD and GATEWAY_BAD_MESSAGE;
 * - GATEWAY_BAD_CHUNK, if the chunk has more than GATEWAY_CHUNK_BYTES or a figure of the tally is above 4000000000,
 *   then GATEWAY_BAD_SETTINGS, then GATEWAY_BAD_SIZE, then GATEWAY_BAD_PARTY. Nothing is changed, and the replay can
 *   go on with a better chunk;
 * - GATEWAY_LONG_RECORD, at the first record that is read whose body is longer than 65536 bytes, with its header's
 *   last byte; or GATEWAY_BAD_MESSAGE, at the first whose body ends before its address family does or, with IPv4,
 *   before both addresses and the 19 bytes of a message's header do, or whose UPDATE gateway_update refuses as
 *   GATEWAY_BAD_MESSAGE. This ends the replay. That record is not seen. The records before it stay applied and
 *   counted, those of this chunk too, and nothing that follows is done.
 *
 * A record of which another kind of call has read a part is stepped over to its end, and is seen.
 */
GATEWAY_ANSWERS uint64_t gateway_replay(uint32_t k, const uint8_t *d, size_t d_count, uint32_t e, uint32_t s,
                                        uint32_t a, uint32_t b, uint32_t c, uint8_t *counters,
                                        size_t counters_bytes, uint32_t *slots, size_t slots_words, uint32_t party,
                                        const uint32_t *hops, size_t hops_words, uint32_t tally[23],
                                        uint32_t words[3], uint8_t room[GATEWAY_RECORD_BYTES],
                                        const uint8_t *chunk, size_t chunk_bytes);

/*
 * Ends a stream after its last chunk. Of the answer only gateway_refusal is ever other than zero: it is the number
 * that has ended the stream, if one has; else GATEWAY_INSIDE_RECORD if the last record is not complete, one that is
 * stepped over too. The stream has then ended with this number. What complete records did stays done.
 */
GATEWAY_ANSWERS uint64_t gateway_end_stream(uint32_t words[3]);

/* GATEWAY_OK, or why the call was refused; of any call's answer. */
static inline uint32_t gateway_refusal(uint64_t answer)
{
    return (uint32_t)(answer >> 48);
}

/* 1 if a route matches, else 0; of a lookup's answer, as the three that follow. */
static inline int gateway_found(uint64_t answer)
{
    return (int)(answer >> 40 & 1);
}

/* The next hop of the route that matches. */
static inline uint32_t gateway_hop(uint64_t answer)
{
    return (uint32_t)(answer >> 16 & 0xffff);
}

/* The length of the route that matches. */
static inline uint32_t gateway_length(uint64_t answer)
{
    return (uint32_t)(answer >> 8 & 0xff);
}

/* How many buckets were searched. */
static inline uint32_t gateway_probes(uint64_t answer)
{
    return (uint32_t)(answer & 0xff);
}

/* The vector; of a match vector's answer. */
static inline uint32_t gateway_vector(uint64_t answer)
{
    return (uint32_t)(answer & 0xffffffff);
}

/* How many differences there are; of the answer of gateway_list_differences. */
static inline uint32_t gateway_count(uint64_t answer)
{
    return (uint32_t)(answer & 0xffffffff);
}

/* How many routes of the message were accepted; of the answer of gateway_update, as the one that follows. */
static inline uint32_t gateway_accepted(uint64_t answer)
{
    return (uint32_t)(answer & 0xfff);
}

/* How many routes of the message were refused. */
static inline uint32_t gateway_refused(uint64_t answer)
{
    return (uint32_t)(answer >> 12 & 0xfff);
}

/*
 * The calls on a table, and the two that need none. They hand on what they are given and take the
 * answer apart, which costs nothing. The refusal that they give is GATEWAY_OK or another of the numbers
 * above, as it is.
 */

#define GATEWAY_SETTINGS_OF(table)                                                                 \
    (table)->settings.k, (table)->settings.d, GATEWAY_LENGTHS, (table)->settings.e,                \
        (table)->settings.s, (table)->settings.a, (table)->settings.b, (table)->settings.c
#define GATEWAY_WORDS_OF(table)                                                                    \
    (table)->counters, (table)->counters_bytes, (table)->slots, (table)->slots_words
/* Where a size_t cannot count the bytes of so many words, one byte is lent: this is GATEWAY_BAD_SIZE too. */
#define GATEWAY_BYTES_OF(table)                                                                    \
    (table)->counters, (table)->counters_bytes, (const uint8_t *)(table)->slots,                   \
        (table)->slots_words <= (size_t)-1 / 4 ? 4 * (table)->slots_words : 1

/* Empties the table of both parties' routes: zero in every byte and word. Lent memory is a table from here on. */
GATEWAY_ANSWERS static inline uint32_t gateway_table_clear(struct gateway_table *table)
{
    return gateway_refusal(gateway_clear(GATEWAY_SETTINGS_OF(table), GATEWAY_WORDS_OF(table)));
}

/* Stores a route for the table's party. A prefix that it has stored with this length gets the new hop in place of its
   old one: this takes no room, so no full bucket or counter stands in its way. A prefix that lies wholly in
   127.0.0.0/8, which is the gateway itself, or in 224.0.0.0/4, multicast, is refused as GATEWAY_ODD_PREFIX; a shorter
   one that only contains them is not. A table filled by an earlier version may hold such a route: withdraw and change
   reach it. */
GATEWAY_ANSWERS static inline uint32_t gateway_table_add(struct gateway_table *table, uint32_t prefix,
                                                         uint32_t length, uint32_t hop)
{
    return gateway_refusal(
        gateway_add(GATEWAY_SETTINGS_OF(table), GATEWAY_WORDS_OF(table), table->party, prefix, length, hop));
}

/* Takes a stored route of the party's out, however often it was added. */
GATEWAY_ANSWERS static inline uint32_t gateway_table_withdraw(struct gateway_table *table,
                                                              uint32_t prefix, uint32_t length)
{
    return gateway_refusal(
        gateway_withdraw(GATEWAY_SETTINGS_OF(table), GATEWAY_WORDS_OF(table), table->party, prefix, length));
}

/* Gives a stored route of the party's a new hop, as add does, but stores none: a prefix that it has not stored is
   refused. */
GATEWAY_ANSWERS static inline uint32_t gateway_table_change(struct gateway_table *table,
                                                            uint32_t prefix, uint32_t length,
                                                            uint32_t hop)
{
    return gateway_refusal(
        gateway_change(GATEWAY_SETTINGS_OF(table), GATEWAY_WORDS_OF(table), table->party, prefix, length, hop));
}

/* The next hop of the party's longest stored route that matches an address, its default's if no other does. */
GATEWAY_ANSWERS static inline struct gateway_answer
gateway_table_lookup(const struct gateway_table *table, uint32_t address)
{
    const uint64_t number =
        gateway_lookup(GATEWAY_SETTINGS_OF(table), GATEWAY_BYTES_OF(table), table->party, address);
    const struct gateway_answer answer = {gateway_refusal(number), (uint32_t)gateway_found(number),
                                          gateway_hop(number), gateway_length(number),
                                          gateway_probes(number)};
    return answer;
}

/* The same for each address of a list, in one call: results has count items too, in the same order. A
   count that no memory could hold is refused as GATEWAY_BAD_LIST. */
GATEWAY_ANSWERS static inline uint32_t
gateway_table_lookup_list(const struct gateway_table *table, const uint32_t *addresses, size_t count,
                          struct gateway_result *results)
{
    const int fits = count <= (size_t)-1 / sizeof *results;
    return gateway_refusal(gateway_lookup_list(
        GATEWAY_SETTINGS_OF(table), GATEWAY_BYTES_OF(table), table->party, (const uint8_t *)addresses,
        fits ? count * sizeof *addresses : 1, (uint8_t *)results, fits ? count * sizeof *results : 0));
}

/* Lists the prefixes at which two tables differ for a party, as gateway_list_differences says: room is how many
   differences the list has room for. party alone says whose routes are compared; that of the two structs is not looked
   at. The refusal is GATEWAY_BAD_LIST exactly if there are more differences than room, and then nothing is written;
   GATEWAY_MOST_DIFFERENCES is always enough. Room 0, with a list of NULL, asks whether there are any: the refusal is
   then GATEWAY_OK if there are none, and GATEWAY_BAD_LIST if there are. first and second may be the same table. With an empty second table the routes of
   the first are listed. */
GATEWAY_ANSWERS static inline struct gateway_differences
gateway_table_difference(const struct gateway_table *first, const struct gateway_table *second, uint32_t party,
                         struct gateway_difference *list, size_t room)
{
    /* More room than there can be differences is not needed, and its bytes might be more than a size_t can count. */
    const size_t most = GATEWAY_MOST_DIFFERENCES(8, 8, 8, 8);
    const uint64_t number = gateway_list_differences(
        GATEWAY_SETTINGS_OF(first), GATEWAY_BYTES_OF(first), GATEWAY_SETTINGS_OF(second), GATEWAY_BYTES_OF(second),
        party, (uint8_t *)list, (room < most ? room : most) * sizeof *list);
    const struct gateway_differences differences = {gateway_refusal(number), gateway_count(number)};
    return differences;
}

/* The lengths whose filters claim an address, for either party's routes. */
GATEWAY_ANSWERS static inline struct gateway_claims
gateway_table_match_vector(const struct gateway_table *table, uint32_t address)
{
    const uint64_t number =
        gateway_match_vector(GATEWAY_SETTINGS_OF(table), GATEWAY_BYTES_OF(table), address);
    const struct gateway_claims claims = {gateway_refusal(number), gateway_vector(number)};
    return claims;
}

/* Applies one message of a neighbour, as gateway_update says: hops are count addresses, and the lowest place of
   the message's NEXT_HOP among them is the hop of the routes that it announces. */
GATEWAY_ANSWERS static inline struct gateway_report
gateway_table_update(struct gateway_table *table, const uint8_t *message, size_t message_bytes,
                     const uint32_t *hops, size_t count)
{
    const uint64_t number = gateway_update(GATEWAY_SETTINGS_OF(table), GATEWAY_WORDS_OF(table), table->party,
                                           message, message_bytes, hops, count);
    const struct gateway_report report = {gateway_refusal(number), gateway_accepted(number),
                                          gateway_refused(number)};
    return report;
}

/* Writes the message that withdraws a route, as gateway_write_withdrawal says. */
GATEWAY_ANSWERS static inline uint32_t
gateway_withdrawal_message(uint32_t prefix, uint32_t length, uint8_t *room, size_t room_bytes)
{
    return gateway_refusal(gateway_write_withdrawal(prefix, length, room, room_bytes));
}

/* Takes one chunk of a dump, as gateway_import says: hops are hops_count addresses, and the counts go up by what the
   records that are complete with this chunk did. */
GATEWAY_ANSWERS static inline uint32_t
gateway_table_import(struct gateway_table *table, struct gateway_stream *stream, struct gateway_counts *counts,
                     const uint32_t *hops, size_t hops_count, const uint8_t *chunk, size_t chunk_bytes)
{
    uint32_t words[3] = {counts->accepted, counts->refused, counts->without_hop};
    const uint64_t number =
        gateway_import(GATEWAY_SETTINGS_OF(table), GATEWAY_WORDS_OF(table), table->party, hops, hops_count, words,
                       stream->words, stream->room, chunk, chunk_bytes);
    counts->accepted = words[0];
    counts->refused = words[1];
    counts->without_hop = words[2];
    return gateway_refusal(number);
}

/* Takes one chunk of a recorded day, as gateway_replay says: hops are hops_count addresses, and the tally goes up
   by what the records that are complete with this chunk are and did. One stream is one file. */
GATEWAY_ANSWERS static inline uint32_t
gateway_table_replay(struct gateway_table *table, struct gateway_stream *stream, struct gateway_tally *tally,
                     const uint32_t *hops, size_t hops_count, const uint8_t *chunk, size_t chunk_bytes)
{
    uint32_t words[23] = {tally->seen, tally->applied, tally->accepted};
    for (size_t i = 0; i < 20; i++)
        words[3 + i] = tally->refused[i];
    const uint64_t number =
        gateway_replay(GATEWAY_SETTINGS_OF(table), GATEWAY_WORDS_OF(table), table->party, hops, hops_count, words,
                       stream->words, stream->room, chunk, chunk_bytes);
    tally->seen = words[0];
    tally->applied = words[1];
    tally->accepted = words[2];
    for (size_t i = 0; i < 20; i++)
        tally->refused[i] = words[3 + i];
    return gateway_refusal(number);
}

/* Ends a stream, as gateway_end_stream says. */
GATEWAY_ANSWERS static inline uint32_t gateway_stream_end(struct gateway_stream *stream)
{
    return gateway_refusal(gateway_end_stream(stream->words));
}

#undef GATEWAY_SETTINGS_OF
#undef GATEWAY_WORDS_OF
#undef GATEWAY_BYTES_OF

#ifdef __cplusplus
}
#endif

#endif
