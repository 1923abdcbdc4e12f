/* Routes spread over the lengths as in the open network, addresses most of which lie within them, and time. */
#define _POSIX_C_SOURCE 199309L

#include "measure.h"
#include "mixed.h"
#include "random.h"

#include <stdio.h>
#include <stdlib.h>
#include <string.h>
#include <time.h>

const struct table asked[TABLES] = {
    {90, 4, 8, 5, 4},    {90, 4, BY_LENGTH, 5, 4},
    {2000, 2, 11, 8, 8}, {2000, 2, BY_LENGTH, 8, 8},
    {6000, 2, 11, 8, 8}, {6000, 2, BY_LENGTH, 8, 8},
};

const struct table updated[TABLES] = {
    {90, 4, 11, 8, 8},   {90, 4, BY_LENGTH, 8, 8},
    {2000, 4, 11, 8, 8}, {2000, 4, BY_LENGTH, 8, 8},
    {6000, 4, 11, 8, 8}, {6000, 4, BY_LENGTH, 8, 8},
};

const size_t message_routes[SIZES] = {1, 10, TOLD}, day_routes[DAYS] = {1, 10};

const size_t record_entries[DUMPS] = {1, 20}, chunk_bytes[CHUNKS] = {65536, 4096, 1},
             stepped_bodies[BODIES] = {100, 1500, 1 << 20};

static const uint32_t a = 0x9e3779b1, b = 0x85ebca6b, c = 0xc2b2ae35;

enum { MOST_ROUTES = 6000 };

static struct route {
    uint32_t prefix, length, hop;
} routes[MOST_ROUTES], stored[MOST_ROUTES];

/* What is asked, and which of the stored routes each update is about. */
static uint32_t addresses[ADDRESSES], turns[TURNS];

/* The memory of a table, as calls are lent it for updates and for questions. */
#define COUNT(calls, m) ((m)->words - (size_t)(calls)->one_party)
#define WORDS(calls, m) (m)->counters, (m)->bytes, (m)->slots, COUNT(calls, m)
#define BYTES(calls, m) (m)->counters, (m)->bytes, (const uint8_t *)(m)->slots, 4 * COUNT(calls, m)

/* A call of calls on table t: with the list of D, or with one D where a library takes that, which gateway.h has no
   type for. */
typedef uint64_t older_call();
#define ONE_D t->k, t->d, t->e, t->s, a, b, c
#define LIST(m) t->k, (m)->d, (size_t)GATEWAY_LENGTHS, t->e, t->s, a, b, c
#define CALL(calls, call, m, ...)                                                                  \
    ((calls)->one_d ? ((older_call *)(call))(ONE_D, __VA_ARGS__) : (call)(LIST(m), __VA_ARGS__))

/* One that names party 0 after the memory, which is WORDS or BYTES, where a library takes that. */
#define PARTY_CALL(calls, call, m, memory, ...)                                                    \
    ((calls)->one_party ? CALL(calls, (older_call *)(call), m, memory(calls, m), __VA_ARGS__)      \
                        : (call)(LIST(m), memory(calls, m), 0, __VA_ARGS__))

static int has_route(uint32_t many, uint32_t prefix, uint32_t length)
{
    for (uint32_t i = 0; i < many; i++)
        if (routes[i].prefix == prefix && routes[i].length == length)
            return 1;
    return 0;
}

/* A prefix that every version takes: an add refuses what lies in 127.0.0.0/8 or 224.0.0.0/4 from 0.8 on. */
static uint32_t random_prefix(uint32_t length)
{
    uint32_t prefix;
    do
        prefix = random_word() & 0xffffffffu << (32 - length);
    while (prefix >> 24 == 127 || prefix >> 28 == 14);
    return prefix;
}

/* The default first, then different routes. */
static void make_routes(uint32_t many)
{
    routes[0] = (struct route){0, 0, 0};
    for (uint32_t i = 1; i < many;) {
        uint32_t length = random_length();
        uint32_t prefix = random_prefix(length);
        if (!has_route(i, prefix, length))
            routes[i++] = (struct route){prefix, length, random_below(65536)};
    }
}

/* Four in five lie within a route. */
static void make_addresses(uint32_t many)
{
    for (size_t i = 0; i < ADDRESSES; i++) {
        const struct route *within = &routes[random_below(many)];
        uint32_t host = within->length == 32 ? 0 : random_word() >> within->length;
        addresses[i] = random_below(5) == 0 ? random_word() : within->prefix | host;
    }
}

static void *lend(size_t size)
{
    void *memory = malloc(size);
    if (memory == NULL) {
        fprintf(stderr, "bench: no memory\n");
        exit(1);
    }
    memset(memory, 0xa5, size);
    return memory;
}

struct memory lend_table(const struct table *t)
{
    struct memory m;
    if (t->d == BY_LENGTH)
        choose_filters(m.d, t->routes, GOOD_COUNTERS);
    else
        memset(m.d, (int)t->d, sizeof m.d);
    m.bytes = gateway_counters_bytes(m.d, GATEWAY_LENGTHS);
    m.words = gateway_slots_words(t->e, t->s);
    m.counters = lend(m.bytes);
    m.slots = lend(4 * m.words);
    m.slots[m.words - 1] = 0; /* party 1's default, which a library up to 0.9 is not lent */
    return m;
}

void take_back(const struct memory *m)
{
    free(m->counters);
    free(m->slots);
}

void check(int agrees, const char *what)
{
    if (!agrees) {
        fprintf(stderr, "bench: %s: the two differ\n", what);
        exit(1);
    }
}

void check_memory(const struct memory *one, const struct memory *other)
{
    check(memcmp(one->counters, other->counters, one->bytes) == 0 &&
              memcmp(one->slots, other->slots, 4 * one->words) == 0,
          "memory");
}

void check_results(const results listed, const answers single)
{
    for (size_t i = 0; i < ADDRESSES; i++)
        check(listed[i].found == (uint32_t)gateway_found(single[i]) && listed[i].hop == gateway_hop(single[i]) &&
                  listed[i].length == gateway_length(single[i]) && listed[i].probes == gateway_probes(single[i]),
              "a list");
}

void check_counts(const struct gateway_counts *one, const struct gateway_counts *other)
{
    check(one->accepted == other->accepted && one->refused == other->refused && one->without_hop == other->without_hop,
          "counts");
}

static uint32_t same(uint64_t one, uint64_t other)
{
    check(one == other, "an update");
    return gateway_refusal(one);
}

/* A call of both tables that writes, and the number it gives. */
#define UPDATE(call, ...)                                                                          \
    same(PARTY_CALL(one, one->call, first, WORDS, __VA_ARGS__),                                    \
         PARTY_CALL(other, other->call, second, WORDS, __VA_ARGS__))

/* Some routes are withdrawn and added again, the others replaced, and all are changed, as in a table that has
   been used. Tables of as many routes are offered the same ones. */
uint32_t fill(const struct table *t, const struct calls *one, const struct memory *first, const struct calls *other,
              const struct memory *second)
{
    random_state = t->routes;
    make_routes(t->routes);
    check(same(CALL(one, one->clear, first, WORDS(one, first)),
               CALL(other, other->clear, second, WORDS(other, second))) == GATEWAY_OK,
          "clear");
    for (uint32_t i = 0; i < t->routes; i++)
        UPDATE(add, routes[i].prefix, routes[i].length, 0);
    for (uint32_t i = 0; i < t->routes; i += 3)
        UPDATE(withdraw, routes[i].prefix, routes[i].length);
    for (uint32_t i = 0; i < t->routes; i++)
        UPDATE(add, routes[i].prefix, routes[i].length, routes[i].hop);
    uint32_t many = 0;
    for (uint32_t i = 0; i < t->routes; i++)
        if (UPDATE(change, routes[i].prefix, routes[i].length, routes[i].hop) == GATEWAY_OK)
            stored[many++] = routes[i];
    check_memory(first, second);
    make_addresses(t->routes);
    for (size_t i = 0; i < TURNS; i++)
        turns[i] = random_below(many);
    return many;
}

double nanoseconds(void)
{
    struct timespec t;
    clock_gettime(CLOCK_MONOTONIC, &t);
    return (double)t.tv_sec * 1e9 + (double)t.tv_nsec;
}

void keep_least(double *best, double took)
{
    if (*best == 0 || took < *best)
        *best = took;
}

static void keep_best(double *best, double start, double calls)
{
    keep_least(best, (nanoseconds() - start) / calls);
}

void ask_each(double *best, const struct table *t, const struct memory *m, const struct calls *calls,
              __typeof__(gateway_lookup) *call, answers given)
{
    double start = nanoseconds();
    for (size_t i = 0; i < ADDRESSES; i++)
        given[i] = PARTY_CALL(calls, call, m, BYTES, addresses[i]);
    keep_best(best, start, ADDRESSES);
}

void ask_vectors(double *best, const struct table *t, const struct memory *m, const struct calls *calls,
                 answers given)
{
    double start = nanoseconds();
    for (size_t i = 0; i < ADDRESSES; i++)
        given[i] = CALL(calls, calls->match_vector, m, BYTES(calls, m), addresses[i]);
    keep_best(best, start, ADDRESSES);
}

void ask_lists(double *best, const struct table *t, const struct memory *m, const struct calls *calls, size_t many,
               results given)
{
    uint64_t refused = 0;
    memset(given, 0xa5, sizeof(results));
    double start = nanoseconds();
    for (size_t i = 0; i < ADDRESSES; i += many)
        refused |= PARTY_CALL(calls, calls->lookup_list, m, BYTES, (const uint8_t *)&addresses[i],
                              many * sizeof addresses[0], (uint8_t *)&given[i], many * sizeof given[0]);
    keep_best(best, start, ADDRESSES);
    check(refused == 0, "a list");
}

void withdraw_and_add(double *best, const struct table *t, const struct memory *m, const struct calls *calls,
                      answers given)
{
    double start = nanoseconds();
    for (size_t i = 0; i < TURNS; i++) {
        const struct route *r = &stored[turns[i]];
        given[2 * i] = PARTY_CALL(calls, calls->withdraw, m, WORDS, r->prefix, r->length);
        given[2 * i + 1] = PARTY_CALL(calls, calls->add, m, WORDS, r->prefix, r->length, r->hop);
    }
    keep_best(best, start, 2 * TURNS);
}

/* Hops run on from add to add. */
void replace(double *best, const struct table *t, const struct memory *m, const struct calls *calls,
             answers given)
{
    double start = nanoseconds();
    for (uint32_t i = 0; i < TURNS; i++) {
        const struct route *r = &stored[turns[i]];
        given[i] = PARTY_CALL(calls, calls->add, m, WORDS, r->prefix, r->length, (r->hop + 1 + i) % 65536);
    }
    keep_best(best, start, TURNS);
    for (size_t i = 0; i < TURNS; i++)
        check(given[i] == GATEWAY_OK, "an add that replaces");
}

/* The routes that a neighbour tells, its next hops, and its messages, one after the other. */
enum { HOPS = 8 };

static uint32_t told[TOLD];

static const uint32_t next_hops[HOPS] = {0x0a090901, 0x0a090902, 0x0a090903, 0x0a090904,
                                         0x0a090905, 0x0a090906, 0x0a090907, 0x0a090908};

static struct stream {
    uint8_t bytes[64 * TOLD];
    size_t start[TOLD + 1], messages;
} streams[TELLINGS];

void choose_told(const struct table *t, const struct calls *one, const struct memory *first,
                 const struct calls *other, const struct memory *second)
{
    for (size_t i = 0; i < TOLD;) {
        told[i] = random_prefix(24);
        if (!has_route(t->routes, told[i], 24) && UPDATE(add, told[i], 24, 0) == GATEWAY_OK)
            i++;
    }
    for (size_t i = 0; i < TOLD; i++)
        check(UPDATE(withdraw, told[i], 24) == GATEWAY_OK, "a withdrawal");
    check_memory(first, second);
}

static uint8_t *put(uint8_t *at, const void *bytes, size_t size)
{
    memcpy(at, bytes, size);
    return at + size;
}

static uint8_t *put_two(uint8_t *at, size_t number)
{
    const uint8_t bytes[2] = {(uint8_t)(number >> 8), (uint8_t)number};
    return put(at, bytes, sizeof bytes);
}

static uint8_t *put_prefixes(uint8_t *at, const uint32_t *prefixes, size_t many)
{
    for (size_t i = 0; i < many; i++) {
        const uint8_t bytes[4] = {24, (uint8_t)(prefixes[i] >> 24), (uint8_t)(prefixes[i] >> 16),
                                  (uint8_t)(prefixes[i] >> 8)};
        at = put(at, bytes, sizeof bytes);
    }
    return at;
}

/* ORIGIN, an AS_PATH of three, and a NEXT_HOP. */
static uint8_t *put_attributes(uint8_t *at)
{
    const uint8_t before[] = {0x40, 1, 1, 0, 0x40, 2, 14, 2, 3, 0, 0, 0xfd, 0xe8, 0, 0, 0xfd, 0xe9, 0, 0, 0xfd, 0xea,
                              0x40, 3, 4};
    const uint32_t hop = next_hops[random_below(HOPS)];
    const uint8_t address[4] = {(uint8_t)(hop >> 24), (uint8_t)(hop >> 16), (uint8_t)(hop >> 8), (uint8_t)hop};
    at = put_two(at, sizeof before + sizeof address);
    at = put(at, before, sizeof before);
    return put(at, address, sizeof address);
}

static uint8_t *put_message(uint8_t *from, enum telling telling, const uint32_t *prefixes, size_t many)
{
    uint8_t *at = from + 18;
    memset(from, 255, 16);
    *at++ = 2;
    if (telling == WITHDRAWN) {
        at = put_two(at, 4 * many);
        at = put_prefixes(at, prefixes, many);
        at = put_two(at, 0);
    } else {
        at = put_two(at, 0);
        at = put_attributes(at);
        at = put_prefixes(at, prefixes, many);
    }
    put_two(from + 16, (size_t)(at - from));
    return at;
}

size_t make_messages(size_t many)
{
    for (int telling = 0; telling < TELLINGS; telling++) {
        struct stream *s = &streams[telling];
        uint8_t *at = s->bytes;
        s->messages = 0;
        for (size_t i = 0; i < TOLD; i += many) {
            s->start[s->messages++] = (size_t)(at - s->bytes);
            at = put_message(at, (enum telling)telling, &told[i], many);
        }
        s->start[s->messages] = (size_t)(at - s->bytes);
    }
    return streams[ANNOUNCED].messages;
}

double tell(enum telling telling, const struct table *t, const struct memory *m, const struct calls *calls,
            uint64_t *given)
{
    const struct stream *s = &streams[telling];
    double start = nanoseconds();
    for (size_t i = 0; i < s->messages; i++)
        given[i] = PARTY_CALL(calls, calls->update, m, WORDS, s->bytes + s->start[i],
                              s->start[i + 1] - s->start[i], next_hops, (size_t)HOPS);
    return nanoseconds() - start;
}

void tell_each(double best[TELLINGS], const struct table *t, const struct memory *m, const struct calls *calls,
               answers given)
{
    uint64_t *at = given;
    for (size_t i = 0; i < TIMES_TOLD; i++)
        for (int telling = 0; telling < TELLINGS; telling++) {
            keep_least(&best[telling], tell((enum telling)telling, t, m, calls, at) / TOLD);
            at += streams[telling].messages;
        }
    for (const uint64_t *answer = given; answer < at; answer++)
        check(*answer == TOLD / streams[ANNOUNCED].messages, "a message");
}

/* A dump or a day, record by record. */
static struct {
    uint8_t *bytes;
    size_t size;
} dump;

static uint8_t *put_four(uint8_t *at, size_t number)
{
    return put_two(put_two(at, number >> 16), number & 0xffff);
}

/* Header: a time, type and subtype, and the length of the body. */
static uint8_t *put_header(uint8_t *at, size_t type, size_t subtype, size_t body)
{
    at = put_four(at, 1700000000);
    at = put_two(at, type);
    at = put_two(at, subtype);
    return put_four(at, body);
}

/* Neighbour, time, attributes. */
static uint8_t *put_entry(uint8_t *at, size_t neighbour)
{
    at = put_two(at, neighbour);
    at = put_four(at, 1700000000);
    return put_attributes(at);
}

/* Sequence number, prefix, entries. */
static uint8_t *put_route(uint8_t *from, size_t number, const struct route *r, size_t entries)
{
    uint8_t *at = put_four(from + 12, number);
    *at++ = (uint8_t)r->length;
    for (uint32_t bits = 0; bits < r->length; bits += 8)
        *at++ = (uint8_t)(r->prefix >> (24 - bits));
    at = put_two(at, entries);
    for (size_t i = 0; i < entries; i++)
        at = put_entry(at, i);
    put_header(from, 13, 2, (size_t)(at - from) - 12);
    return at;
}

static uint8_t *begin_dump(size_t most)
{
    free(dump.bytes);
    return dump.bytes = lend(most);
}

size_t make_dump(const struct table *t, size_t entries)
{
    uint8_t *at = begin_dump(t->routes * (64 + 64 * entries));
    for (uint32_t i = 0; i < t->routes; i++)
        at = put_route(at, i, &routes[i], entries);
    return dump.size = (size_t)(at - dump.bytes);
}

size_t make_other_dump(size_t body)
{
    uint8_t *at = begin_dump(STEPPED + 12 + 2 * body);
    while (at < dump.bytes + STEPPED) {
        const size_t size = random_below((uint32_t)(2 * body));
        at = put_header(at, 13, 1, size) + size;
    }
    return dump.size = (size_t)(at - dump.bytes);
}

void import_each(double *best, const struct table *t, const struct memory *m, const struct calls *calls,
                 __typeof__(gateway_import) *call, size_t chunk, struct gateway_counts *counts)
{
    static struct gateway_stream stream;
    const int times = dump.size / chunk > MANY_CHUNKS ? 1 : TIMES_IMPORTED;
    for (int i = 0; i < times; i++) {
        uint32_t counted[3] = {0, 0, 0};
        uint64_t refused = CALL(calls, calls->clear, m, WORDS(calls, m));
        memset(stream.words, 0, sizeof stream.words);
        double start = nanoseconds();
        for (size_t at = 0; at < dump.size; at += chunk)
            refused |= PARTY_CALL(calls, call, m, WORDS, next_hops, (size_t)HOPS, counted, stream.words, stream.room,
                                  dump.bytes + at, dump.size - at < chunk ? dump.size - at : chunk);
        keep_best(best, start, 1);
        refused |= calls->end_stream(stream.words);
        check(refused == 0, "an import");
        *counts = (struct gateway_counts){counted[0], counted[1], counted[2]};
    }
}

/* AS numbers of four bytes, an interface, IPv4, both addresses, and a message. */
static uint8_t *put_told(uint8_t *from, enum telling telling, const uint32_t *prefixes, size_t many)
{
    uint8_t *at = put_four(from + 12, 65000);
    at = put_four(at, 65001);
    at = put_two(at, 0);
    at = put_two(at, 1);
    at = put_four(at, 0x0a090901);
    at = put_four(at, 0x0a0909fe);
    at = put_message(at, telling, prefixes, many);
    put_header(from, 16, 4, (size_t)(at - from) - 12);
    return at;
}

size_t make_day(size_t many)
{
    uint8_t *at = begin_dump(DAY_ROUTES * 128);
    for (size_t time = 0; time < TIMES_A_DAY; time++)
        for (int telling = 0; telling < TELLINGS; telling++)
            for (size_t i = 0; i < TOLD; i += many)
                at = put_told(at, (enum telling)telling, &told[i], many);
    return dump.size = (size_t)(at - dump.bytes);
}

void replay_each(double *best, const struct table *t, const struct memory *m, const struct calls *calls,
                 __typeof__(gateway_replay) *call, size_t chunk)
{
    static struct gateway_stream stream;
    const int times = dump.size / chunk > MANY_CHUNKS ? 1 : TIMES_IMPORTED;
    for (int i = 0; i < times; i++) {
        uint32_t tally[23] = {0};
        uint64_t refused = 0;
        memset(stream.words, 0, sizeof stream.words);
        double start = nanoseconds();
        for (size_t at = 0; at < dump.size; at += chunk)
            refused |= PARTY_CALL(calls, call, m, WORDS, next_hops, (size_t)HOPS, tally, stream.words, stream.room,
                                  dump.bytes + at, dump.size - at < chunk ? dump.size - at : chunk);
        keep_best(best, start, 1);
        refused |= calls->end_stream(stream.words);
        check(refused == 0 && tally[0] == tally[1] && tally[2] == DAY_ROUTES, "a replay");
    }
}

void read_each(double *best)
{
    uint64_t sum = 0, word;
    double start = nanoseconds();
    for (size_t at = 0; at + sizeof word <= dump.size; at += sizeof word) {
        memcpy(&word, dump.bytes + at, sizeof word);
        sum += word;
    }
    keep_best(best, start, 1);
    check(sum != 0, "a sum");
}

void print_table(const struct table *t, uint32_t many)
{
    char d[12] = " *";
    if (t->d != BY_LENGTH)
        snprintf(d, sizeof d, "%2u", (unsigned)t->d);
    printf("%7u  %6u  %u %s %u %u", (unsigned)t->routes, (unsigned)many, (unsigned)t->k, d, (unsigned)t->e,
           (unsigned)t->s);
}
