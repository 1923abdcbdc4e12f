/*
 * Makes random calls of the library on memory of which each list is a block of its own, of exactly the size
 * that is told, and compares answers and memory with the scheme by hand. Under valgrind ('make memory') a byte
 * that is touched outside of what is lent shows, and so does an answer that hangs on a byte that was not
 * written: blocks that a call has no need to look at are not.
 *
 *     lent SEED TABLES
 */
#include "calls.h"
#include "random.h"
#include "table.h"

#include <stdio.h>
#include <stdlib.h>
#include <string.h>

enum kind { CLEAR, ADD, WITHDRAW, CHANGE, VECTOR, LOOKUP, LIST, COMPARE, MESSAGE, WRITE, IMPORT, REPLAY, END, KINDS };

static const char *const names[KINDS] = {"clear",  "add",    "withdraw",   "change",  "match vector",
                                         "lookup", "list",   "comparison", "message", "withdrawal",
                                         "import", "replay", "end of a stream"};

static const struct calls library = CALLS_OF(gateway), hand = CALLS_OF(hand);

/* A list that is lent: so many bytes, which end with their block and may begin after its start. */
struct list {
    uint8_t *block, *at;
    size_t size;
};

enum { MOST_VALUES = 2 * GATEWAY_LENGTHS };

struct call {
    enum kind kind;
    uint32_t k, e, s, a, b, c;
    uint8_t d[MOST_VALUES];
    size_t d_count; /* so many of them are lent */
    uint32_t party, asked, length, hop;
    const struct call *other; /* of a comparison: the settings of the second table */
};

/* What one of the two is lent. An update is told of words of slots, a question of bytes. */
struct lent {
    struct list d; /* for each call anew */
    struct list counters, slots;
    struct list addresses, results; /* of a list */
    struct list other_d, other_counters, other_slots, differences; /* of a comparison */
    struct list message, hops;      /* of a message that is read; of a dump or a day, the second too */
    struct list room;               /* for one that is written */
    struct list counts, tally, words, record; /* of a stream, from one chunk to the next */
    struct list chunk;                        /* of a dump or a day */
    int unwritten; /* whether nothing was written to the stream's record but by the library */
};

enum { ROUTES = 24, MOST_NUMBERS = 20, FIGURES = 3 + MOST_NUMBERS, SMALL = 1 << 14, MOST_BYTES = 1 << 17, FRONT = 256 };

static uint64_t given[KINDS][MOST_NUMBERS], routes_accepted, routes_refused;
static uint64_t dump_accepted, dump_refused, dump_hopless, day_figures[FIGURES], other_numbers;
static uint64_t unequal_tables, counts_refused, values_refused, differences_listed, without_differences;
static unsigned long long seed;
static unsigned long table;

static int one_in(uint32_t n)
{
    return random_below(n) == 0;
}

/* Nothing is written to what is lent. */
static struct list lend(size_t size, size_t offset)
{
    if (size == 0 && one_in(2))
        return (struct list){NULL, NULL, 0};
    uint8_t *block = malloc(offset + size);
    if (block == NULL) {
        fprintf(stderr, "lent: no memory\n");
        exit(2);
    }
    return (struct list){block, block + offset, size};
}

static void fill(const struct list *list)
{
    for (size_t i = 0; i < list->size; i++)
        list->at[i] = (uint8_t)(one_in(2) ? 0 : random_word());
}

static struct list copy(const struct list *list, size_t offset)
{
    struct list other = lend(list->size, offset);
    if (list->size != 0)
        memcpy(other.at, list->at, list->size);
    return other;
}

static void check(int agrees, const struct call *c, const char *what)
{
    if (agrees)
        return;
    printf("lent: under seed %llu, table %lu, %s of party %u with K %u, E %u, S %u, D", seed, table, names[c->kind],
           (unsigned)c->party, (unsigned)c->k, (unsigned)c->e, (unsigned)c->s);
    for (size_t i = 0; i < c->d_count; i++)
        printf(" %u", (unsigned)c->d[i]);
    printf(": the %s differs\n", what);
    exit(1);
}

static void check_lists(const struct list *one, const struct list *other, const struct call *c, const char *what)
{
    check(one->size == 0 || memcmp(one->at, other->at, one->size) == 0, c, what);
}

#define SETTINGS c->k, m->d.at, m->d.size, c->e, c->s, c->a, c->b, c->c
#define WORDS SETTINGS, m->counters.at, m->counters.size, (uint32_t *)(void *)m->slots.at, m->slots.size / 4
#define BYTES SETTINGS, m->counters.at, m->counters.size, m->slots.at, m->slots.size
#define OTHER_SETTINGS                                                                             \
    c->other->k, m->other_d.at, m->other_d.size, c->other->e, c->other->s, c->other->a, c->other->b, c->other->c
#define OTHER_BYTES                                                                                \
    OTHER_SETTINGS, m->other_counters.at, m->other_counters.size, m->other_slots.at, m->other_slots.size

static uint64_t answer(const struct calls *calls, const struct call *c, const struct lent *m)
{
    switch (c->kind) {
    case CLEAR: return calls->clear(WORDS);
    case ADD: return calls->add(WORDS, c->party, c->asked, c->length, c->hop);
    case WITHDRAW: return calls->withdraw(WORDS, c->party, c->asked, c->length);
    case CHANGE: return calls->change(WORDS, c->party, c->asked, c->length, c->hop);
    case VECTOR: return calls->match_vector(BYTES, c->asked);
    case LOOKUP: return calls->lookup(BYTES, c->party, c->asked);
    case LIST:
        return calls->lookup_list(BYTES, c->party, m->addresses.at, m->addresses.size, m->results.at, m->results.size);
    case COMPARE:
        return calls->list_differences(BYTES, OTHER_BYTES, c->party, m->differences.at, m->differences.size);
    case MESSAGE:
        return calls->update(WORDS, c->party, m->message.at, m->message.size, (const uint32_t *)(void *)m->hops.at,
                             m->hops.size / 4);
    case IMPORT:
        return calls->import(WORDS, c->party, (const uint32_t *)(void *)m->hops.at, m->hops.size / 4,
                             (uint32_t *)(void *)m->counts.at, (uint32_t *)(void *)m->words.at, m->record.at,
                             m->chunk.at, m->chunk.size);
    case REPLAY:
        return calls->replay(WORDS, c->party, (const uint32_t *)(void *)m->hops.at, m->hops.size / 4,
                             (uint32_t *)(void *)m->tally.at, (uint32_t *)(void *)m->words.at, m->record.at,
                             m->chunk.at, m->chunk.size);
    case END: return calls->end_stream((uint32_t *)(void *)m->words.at);
    default: return calls->write_withdrawal(c->asked, c->length, m->room.at, m->room.size);
    }
}

static int asks(const struct call *c)
{
    return c->kind == VECTOR || c->kind == LOOKUP || c->kind == LIST || c->kind == COMPARE;
}

static int takes_chunk(const struct call *c)
{
    return c->kind == IMPORT || c->kind == REPLAY;
}

static int names_party(enum kind kind)
{
    return kind != CLEAR && kind != VECTOR && kind != WRITE && kind != END;
}

/* One in so many is wrong, by a little or altogether. */
static size_t perhaps_wrong(size_t size, uint32_t one_in_so_many)
{
    if (!one_in(one_in_so_many))
        return size;
    switch (random_below(4)) {
    case 0: return 0;
    case 1: return size + 1 + random_below(4);
    case 2: return size - (size < 4 ? size : 1 + random_below(4));
    default: return random_below(2048);
    }
}

/* A message, a dump or a day that is being made, with room for more than a message or a record may have. */
struct bytes {
    uint8_t at[MOST_BYTES];
    size_t size;
};

static void put(struct bytes *b, uint32_t byte)
{
    if (b->size < sizeof b->at)
        b->at[b->size++] = (uint8_t)byte;
}

static void put_two(struct bytes *b, size_t at, size_t number)
{
    b->at[at] = (uint8_t)(number >> 8);
    b->at[at + 1] = (uint8_t)number;
}

/* So many of the routes, with any bits after their lengths. */
static void put_prefixes(struct bytes *b, const struct call routes[ROUTES], size_t many)
{
    while (many-- > 0) {
        const struct call *route = &routes[random_below(ROUTES)];
        if (route->length > 32 && !one_in(100))
            continue;
        const uint32_t loose = route->length > 31 || one_in(2) ? 0 : random_word() >> route->length;
        put(b, route->length);
        for (uint32_t i = 0; i < (route->length + 7) / 8; i++)
            put(b, i > 3 ? 0 : (route->asked | loose) >> (24 - 8 * i));
    }
}

static void put_attribute(struct bytes *b, uint32_t type, uint32_t size, uint32_t value)
{
    const uint32_t flags = random_word() & 0xef, extended = size > 255 || one_in(4);
    put(b, extended ? flags | 0x10 : flags);
    put(b, type);
    if (extended)
        put(b, size >> 8);
    put(b, size);
    for (uint32_t i = 0; i < size; i++)
        put(b, size == 4 ? value >> (24 - 8 * i) : random_word());
}

static void put_attributes(struct bytes *b, uint32_t next_hop)
{
    static const uint32_t types[] = {0, 1, 2, 4, 5, 8, 14, 15, 255};
    int missing = !one_in(10);
    do {
        if (missing && one_in(2)) {
            put_attribute(b, 3, one_in(50) ? random_below(8) : 4, next_hop);
            missing = one_in(50);
        } else if (one_in(2)) {
            put_attribute(b, types[random_below(sizeof types / sizeof types[0])],
                          one_in(20) ? random_below(300) : random_below(9), random_word());
        }
    } while (missing || one_in(2));
}

static size_t random_many(void)
{
    return one_in(3) ? 0 : one_in(20) ? random_below(1500) : random_below(12);
}

/* A message that is good but for some of its routes and attributes, or too long. */
static void make_message(struct bytes *b, const struct call routes[ROUTES], uint32_t next_hop)
{
    b->size = 21;
    memset(b->at, 255, 16);
    b->at[18] = 2;
    put_prefixes(b, routes, random_many());
    put_two(b, 19, b->size - 21);
    const size_t at = b->size;
    put(b, 0);
    put(b, 0);
    put_attributes(b, next_hop);
    put_two(b, at, b->size - at - 2);
    put_prefixes(b, routes, random_many());
    put_two(b, 16, b->size);
}

/* Damages a message in one of several ways. */
static void damage_message(struct bytes *b)
{
    const int says_so = one_in(2);
    switch (random_below(7)) {
    case 0: b->at[random_below((uint32_t)b->size)] ^= (uint8_t)(1 << random_below(8)); return;
    case 1: b->at[random_below(b->size < 64 ? (uint32_t)b->size : 64)] = (uint8_t)random_word(); return;
    case 2: b->at[19 + random_below((uint32_t)b->size - 19)] = (uint8_t)random_below(34); return;
    case 3: put_two(b, 19, b->size - 19 - random_below(5)); return;
    case 4: b->size = random_below((uint32_t)b->size); break;
    case 5: b->size -= 1 + random_below(4); break;
    default:
        for (uint32_t more = 1 + random_below(4); more > 0; more--)
            put(b, random_below(40));
    }
    if (says_so && b->size >= 18)
        put_two(b, 16, b->size);
}

/* A list in which the next hops, 0 to 7, most often stand. */
static void lend_hops(struct lent *by_hand, struct lent *m)
{
    size_t many = one_in(8) ? random_below(3) : one_in(300) ? 65530 + random_below(12) : 6 + random_below(12);
    by_hand->hops = lend(4 * many, 0);
    for (size_t i = 0; i < many; i++) {
        const uint32_t address = many > 65000 && i < many - 6 ? 9 : random_below(8);
        memcpy(by_hand->hops.at + 4 * i, &address, 4);
    }
    m->hops = copy(&by_hand->hops, 0);
}

/* A message about the routes, most often a good one; one in so many is damaged. */
static const struct bytes *random_message(const struct call routes[ROUTES], uint32_t one_in_so_many)
{
    static struct bytes message;
    make_message(&message, routes, random_below(8));
    if (one_in(one_in_so_many))
        damage_message(&message);
    return &message;
}

static void lend_message(struct lent *by_hand, struct lent *m, const struct call routes[ROUTES])
{
    const struct bytes *const made = random_message(routes, 3);
    by_hand->message = lend(made->size, 0);
    if (made->size != 0)
        memcpy(by_hand->message.at, made->at, made->size);
    m->message = copy(&by_hand->message, random_below(4));
    lend_hops(by_hand, m);
}

/* The dump or the day that chunks are cut from, and how many of its bytes they have taken. */
static struct bytes file;
static size_t taken;
static int is_day;

static void put_many(struct bytes *b, size_t many)
{
    while (many-- > 0)
        put(b, random_word());
}

/* A route of a dump with some entries, each with a next hop of its own. */
static void put_route(struct bytes *b, const struct call routes[ROUTES])
{
    put_many(b, 4);
    put_prefixes(b, routes, 1);
    uint32_t entries = one_in(8) ? 0 : one_in(20) ? random_below(40) : 1 + random_below(3);
    put(b, 0);
    put(b, entries);
    for (; entries > 0; entries--) {
        put_many(b, 8);
        const size_t from = b->size;
        put_attributes(b, random_below(8));
        if (one_in(300))
            put_attribute(b, 2, 60000 + random_below(5600), 0);
        put_two(b, from - 2, b->size - from);
    }
}

/* A message of a day, with AS numbers of two bytes or of four, the interface, the family and both addresses before it.
   It is an UPDATE most often, and seldom cut. */
static void put_message(struct bytes *b, const struct call routes[ROUTES], uint32_t as_bytes)
{
    const size_t from = b->size;
    put_many(b, 2 * as_bytes + 2);
    put(b, one_in(40) ? random_below(3) : 0);
    put(b, one_in(12) ? random_below(4) : 1);
    put_many(b, 8);
    if (one_in(6)) {
        put_many(b, 16 + 2);
        put(b, one_in(8) ? 2 : random_below(6));
        put_many(b, random_below(40));
    } else {
        const struct bytes *const made = random_message(routes, 12);
        for (size_t i = 0; i < made->size; i++)
            put(b, made->at[i]);
    }
    if (one_in(40))
        b->size = from + random_below((uint32_t)(b->size - from));
}

/* A record that is read, most often a good one, or another. What it says of its length may be wrong. */
static void put_record(struct bytes *b, const struct call routes[ROUTES])
{
    static const uint8_t dump_kinds[][4] = {{0, 13, 0, 1}, {0, 13, 0, 4}, {0, 16, 0, 4}, {0, 12, 0, 2}, {13, 0, 2, 0}};
    static const uint8_t day_kinds[][4] = {{0, 16, 0, 0}, {0, 16, 0, 5}, {0, 17, 0, 4}, {0, 13, 0, 2}, {16, 0, 4, 0}};
    static const uint8_t route[4] = {0, 13, 0, 2}, messages[][4] = {{0, 16, 0, 1}, {0, 16, 0, 4}};
    const size_t from = b->size;
    const uint32_t which = random_below(5), as4 = random_below(2);
    const int is_read = !one_in(4);
    const uint8_t *kind = is_day ? day_kinds[which] : dump_kinds[which];
    put_many(b, 12);
    if (!is_read) {
        put_many(b, one_in(4) ? 0 : random_below(one_in(8) ? 2000 : 40));
    } else if (is_day) {
        kind = messages[as4];
        put_message(b, routes, as4 ? 4 : 2);
    } else {
        kind = route;
        put_route(b, routes);
    }
    size_t size = b->size - from - 12;
    if (one_in(60))
        size = one_in(2) ? random_word() : size + random_below(5) - 2;
    else if (one_in(60))
        size = 65534 + random_below(5);
    memcpy(b->at + from + 4, kind, 4);
    put_two(b, from + 8, size >> 16);
    put_two(b, from + 10, size);
}

/* A dump or a day. */
static void make_file(const struct call routes[ROUTES])
{
    file.size = taken = 0;
    is_day = one_in(2);
    for (uint32_t many = 1 + random_below(12); many > 0 && file.size < MOST_BYTES / 2; many--)
        put_record(&file, routes);
    if (one_in(8))
        file.at[random_below((uint32_t)file.size)] ^= (uint8_t)(1 << random_below(8));
}

/* The next bytes of a file, and zeros where there are not so many. */
static void lend_chunk(struct lent *by_hand, struct lent *m, const struct call routes[ROUTES])
{
    if (taken == file.size)
        make_file(routes);
    const size_t left = file.size - taken;
    size_t size = one_in(5) ? random_below(3) : one_in(3) ? random_below(40) : one_in(4) ? left : random_below(2000);
    if (one_in(80))
        size = GATEWAY_CHUNK_BYTES + random_below(3);
    else if (size > left)
        size = left;
    by_hand->chunk = lend(size, 0);
    const size_t told = size < left ? size : left;
    if (told != 0)
        memcpy(by_hand->chunk.at, file.at + taken, told);
    if (told != size)
        memset(by_hand->chunk.at + told, 0, size - told);
    taken += told;
    m->chunk = copy(&by_hand->chunk, random_below(4));
    lend_hops(by_hand, m);
}

/* A stream that begins, and counts. Room that was not written to may not be looked at before. */
static void lend_stream(struct lent *by_hand, struct lent *m)
{
    struct list *const lists[] = {&by_hand->counts, &by_hand->words, &m->counts, &m->words, &by_hand->tally, &m->tally};
    for (size_t i = 0; i < sizeof lists / sizeof lists[0]; i++) {
        *lists[i] = lend((i < 4 ? 3 : FIGURES) * sizeof(uint32_t), 4 * random_below(4));
        memset(lists[i]->at, 0, lists[i]->size);
    }
    by_hand->record = lend(GATEWAY_RECORD_BYTES, random_below(4));
    m->record = lend(GATEWAY_RECORD_BYTES, random_below(4));
    memset(by_hand->record.at, (int)random_below(256), by_hand->record.size);
    m->unwritten = one_in(2);
    if (!m->unwritten)
        memcpy(m->record.at, by_hand->record.at, m->record.size);
}

/* A number at which what a word or a count means changes, or any. */
static uint32_t odd_number(void)
{
    static const uint32_t some[] = {0,     1,     11,    12,    13,          18,          65535,
                                    65536, 65537, 65548, 65549, 4000000000u, 4000000001u, UINT32_MAX};
    return one_in(4) ? random_word() : some[random_below(sizeof some / sizeof some[0])];
}

/* Puts another number into the tally, where high ones most often do not stay. */
static void change_tally(const struct lent *by_hand, const struct lent *m)
{
    uint32_t tally[FIGURES];
    memcpy(tally, by_hand->tally.at, sizeof tally);
    for (size_t i = 0; i < FIGURES; i++)
        if (tally[i] > 4000000000u && !one_in(4))
            tally[i] = 0;
    if (one_in(10))
        tally[random_below(FIGURES)] = odd_number();
    memcpy(by_hand->tally.at, tally, sizeof tally);
    memcpy(m->tally.at, tally, sizeof tally);
}

/* Begins a stream anew, most often, where it has ended or steps over more bytes than a file has here; and seldom puts
   other numbers into the words and counts. */
static void change_stream(const struct lent *by_hand, const struct lent *m)
{
    uint32_t words[3], counts[3];
    memcpy(words, by_hand->words.at, sizeof words);
    memcpy(counts, by_hand->counts.at, sizeof counts);
    change_tally(by_hand, m);
    if ((words[0] != 0 || words[2] > MOST_BYTES) && !one_in(4))
        memset(words, 0, sizeof words);
    if (one_in(20))
        words[m->unwritten ? 0 : random_below(3)] = odd_number();
    if (one_in(30) && !m->unwritten) {
        /* A record that just has room, or just has not. */
        words[0] = 0;
        words[1] = 11 + random_below(GATEWAY_CHUNK_BYTES);
        words[2] = GATEWAY_RECORD_BYTES - 1 + random_below(3) - words[1];
    }
    if (one_in(10))
        counts[random_below(3)] = one_in(2) ? 0 : odd_number();
    memcpy(by_hand->words.at, words, sizeof words);
    memcpy(m->words.at, words, sizeof words);
    memcpy(by_hand->counts.at, counts, sizeof counts);
    memcpy(m->counts.at, counts, sizeof counts);
}

/* Room that may hold anything. */
static void lend_room(struct lent *by_hand, struct lent *m, const struct call *c)
{
    by_hand->room = lend(perhaps_wrong(gateway_withdrawal_bytes(c->length), 4), 0);
    fill(&by_hand->room);
    m->room = copy(&by_hand->room, random_below(4));
}

/* Addresses within the routes and elsewhere, and results that may hold anything. */
static void lend_addresses(struct lent *by_hand, struct lent *m, const struct call routes[ROUTES])
{
    size_t many = one_in(4) ? random_below(2) : one_in(16) ? random_below(200) : random_below(12);
    size_t bytes = perhaps_wrong(4 * many, 6);
    by_hand->addresses = lend(bytes, 0);
    fill(&by_hand->addresses);
    for (size_t i = 0; i + 4 <= bytes; i += 4) {
        uint32_t address = routes[random_below(ROUTES)].asked | random_word() >> random_below(32);
        if (one_in(2))
            memcpy(by_hand->addresses.at + i, &address, 4);
    }
    by_hand->results = lend(perhaps_wrong(4 * bytes, 6), 0);
    fill(&by_hand->results);
    m->addresses = copy(&by_hand->addresses, random_below(4));
    m->results = copy(&by_hand->results, random_below(4));
}

/* What a call is lent beside the table. */
static void lend_others(struct lent *by_hand, struct lent *m, const struct call *c, const struct call routes[ROUTES])
{
    if (c->kind == LIST)
        lend_addresses(by_hand, m, routes);
    else if (c->kind == MESSAGE)
        lend_message(by_hand, m, routes);
    else if (c->kind == WRITE)
        lend_room(by_hand, m, c);
    else if (takes_chunk(c))
        lend_chunk(by_hand, m, routes);
    if (takes_chunk(c) || c->kind == END)
        change_stream(by_hand, m);
}

static void take_back(const struct list *list)
{
    free(list->block);
}

static void take_back_others(const struct lent *m)
{
    take_back(&m->addresses);
    take_back(&m->results);
    take_back(&m->differences);
    take_back(&m->message);
    take_back(&m->hops);
    take_back(&m->room);
    take_back(&m->chunk);
}

static void take_back_stream(const struct lent *m)
{
    take_back(&m->counts);
    take_back(&m->tally);
    take_back(&m->words);
    take_back(&m->record);
}

/* Lends a list anew, with nothing written to it: what it held is not needed. */
static void forget(struct list *list)
{
    if (list->size == 0)
        return;
    const size_t offset = (size_t)(list->at - list->block);
    take_back(list);
    *list = lend(list->size, offset);
}

/* The values of d, but that of another count than 32 the library gets bytes to which nothing was written. */
static void lend_filters(struct list *by_hand, struct list *m, const struct call *c)
{
    *by_hand = lend(c->d_count, 0);
    if (c->d_count != 0)
        memcpy(by_hand->at, c->d, c->d_count);
    *m = c->d_count == GATEWAY_LENGTHS ? copy(by_hand, random_below(4)) : lend(c->d_count, random_below(4));
}

static void take_back_filters(const struct list *by_hand, const struct list *m, const struct call *c)
{
    if (c->d_count == GATEWAY_LENGTHS)
        check_lists(m, by_hand, c, "list of D");
    take_back(by_hand);
    take_back(m);
}

/* Whether a value of the list is out of its range, and the list of the right count. */
static int has_bad_value(const struct call *c)
{
    return c->d_count == GATEWAY_LENGTHS && gateway_counters_bytes(c->d, c->d_count) == 0;
}

/* What a stream keeps: words, counts, and the record as far as it has come. Where all of its room was written to, the
   rest of that is held too, most often only the first bytes of it. */
static void check_stream(const struct lent *by_hand, const struct lent *m, const struct call *c)
{
    uint32_t words[3];
    memcpy(words, by_hand->words.at, sizeof words);
    check_lists(&m->words, &by_hand->words, c, "list of words");
    check_lists(&m->counts, &by_hand->counts, c, "list of counts");
    check_lists(&m->tally, &by_hand->tally, c, "tally");
    const size_t kept = words[0] != 0 || words[1] > m->record.size ? 0 : words[1];
    const size_t all = one_in(32) ? m->record.size : FRONT, held = m->unwritten || kept > all ? kept : all;
    check(memcmp(m->record.at, by_hand->record.at, held) == 0, c, "room of the stream");
}

/* What the chunks of dumps and of days count from here on. */
static void note_counts(const struct lent *by_hand, const uint32_t before[3], const uint32_t tally_before[FIGURES])
{
    uint32_t counts[3], tally[FIGURES];
    memcpy(counts, by_hand->counts.at, sizeof counts);
    memcpy(tally, by_hand->tally.at, sizeof tally);
    dump_accepted += counts[0] - before[0];
    dump_refused += counts[1] - before[1];
    dump_hopless += counts[2] - before[2];
    for (size_t i = 0; i < FIGURES; i++)
        day_figures[i] += tally[i] - tally_before[i];
}

/* The list of differences. Where nothing was written to it before, that is held which the call writes. */
static void check_differences(const struct lent *by_hand, const struct lent *m, const struct call *c, uint32_t count,
                              int unwritten)
{
    struct list ours = by_hand->differences;
    if (unwritten)
        ours.size = 16 * (size_t)count;
    check_lists(&ours, &m->differences, c, "list of differences");
    differences_listed += count;
}

/* Makes a call of both. What by_hand is lent holds the same, but that m may lack what no answer needs. */
static void compare(const struct call *c, struct lent *by_hand, struct lent *m)
{
    uint32_t words[3] = {0, 0, 0}, counts[3] = {0, 0, 0}, tally[FIGURES] = {0};
    if (takes_chunk(c)) {
        memcpy(words, by_hand->words.at, sizeof words);
        memcpy(counts, by_hand->counts.at, sizeof counts);
        memcpy(tally, by_hand->tally.at, sizeof tally);
    }
    lend_filters(&by_hand->d, &m->d, c);
    if (c->kind == COMPARE)
        lend_filters(&by_hand->other_d, &m->other_d, c->other);
    const uint64_t ours = answer(&hand, c, by_hand);
    const uint32_t refusal = gateway_refusal(ours);
    const int unread = refusal == GATEWAY_BAD_SETTINGS || refusal == GATEWAY_BAD_SIZE || refusal == GATEWAY_BAD_PARTY;
    if (ours == 0 && (c->kind == LIST || c->kind == WRITE)) {
        /* Each byte is written, so that none need be before. */
        forget(&m->results);
        forget(&m->room);
    } else if (c->kind == MESSAGE && (unread || refusal == GATEWAY_BAD_MESSAGE)) {
        /* Of a bad message the next hops are not needed, and where settings, sizes or the party are bad the message is
           not. */
        forget(&m->hops);
        if (unread)
            forget(&m->message);
    }
    /* No byte of a list of differences need be written before, whether it is refused or not. */
    const int unlisted = c->kind == COMPARE && one_in(2);
    if (unlisted)
        forget(&m->differences);
    const int untaken = takes_chunk(c) && (words[0] != 0 || unread || refusal == GATEWAY_BAD_CHUNK);
    if (untaken) {
        forget(&m->hops);
        forget(&m->chunk);
    }
    const uint64_t theirs = answer(&library, c, m);
    check(theirs == ours, c, "answer");
    /* Any number may stand in the words of a stream as the one that ended it. */
    check(refusal < MOST_NUMBERS || takes_chunk(c) || c->kind == END, c, "number");
    if (refusal < MOST_NUMBERS)
        given[c->kind][refusal]++;
    else
        other_numbers++;
    if (refusal == GATEWAY_BAD_SETTINGS) {
        counts_refused += c->d_count != GATEWAY_LENGTHS;
        values_refused += has_bad_value(c);
    }
    take_back_filters(&by_hand->d, &m->d, c);
    if (c->kind == COMPARE) {
        take_back_filters(&by_hand->other_d, &m->other_d, c->other);
        check_differences(by_hand, m, c, gateway_count(ours), unlisted);
        without_differences += ours == 0;
    }
    if (c->kind == MESSAGE) {
        routes_accepted += gateway_accepted(ours);
        routes_refused += gateway_refused(ours);
    }
    check_lists(&m->addresses, &by_hand->addresses, c, "list of addresses");
    check_lists(&m->results, &by_hand->results, c, "list of results");
    check_lists(&m->room, &by_hand->room, c, "room");
    if (c->kind == MESSAGE && !unread) {
        check_lists(&m->message, &by_hand->message, c, "message");
        if (refusal != GATEWAY_BAD_MESSAGE)
            check_lists(&m->hops, &by_hand->hops, c, "list of next hops");
    }
    if (takes_chunk(c) || c->kind == END)
        check_stream(by_hand, m, c);
    if (takes_chunk(c))
        note_counts(by_hand, counts, tally);
    if (takes_chunk(c) && !untaken) {
        check_lists(&m->chunk, &by_hand->chunk, c, "chunk");
        check_lists(&m->hops, &by_hand->hops, c, "list of next hops");
    }
}

static uint32_t random_multiplier(void)
{
    static const uint32_t some[] = {0, 1, 2, GATEWAY_GOOD_A, GATEWAY_GOOD_B, GATEWAY_GOOD_C, 0x80000000, 0xffffffff};
    return one_in(3) ? random_word() : some[random_below(sizeof some / sizeof some[0])];
}

/* One of the two, seldom another. */
static uint32_t random_party(void)
{
    return !one_in(30) ? random_below(2) : one_in(3) ? random_word() : 2 + random_below(2);
}

/* From least to most, often one of the two. */
static uint32_t random_setting(uint32_t least, uint32_t most)
{
    if (one_in(3))
        return least;
    return one_in(8) ? most : least + random_below(most - least + 1);
}

/* All values alike, all the least but for a few, or any. */
static void random_filters(struct call *c, uint32_t most)
{
    const uint32_t all = random_setting(4, most), kind = random_below(3);
    c->d_count = GATEWAY_LENGTHS;
    for (size_t i = 0; i < MOST_VALUES; i++)
        c->d[i] = (uint8_t)(kind == 0 ? all : kind == 1 && !one_in(6) ? 4 : random_setting(4, most));
    for (size_t i = 1; i < GATEWAY_LENGTHS; i++)
        if (c->d[i] != c->d[0]) {
            unequal_tables++;
            break;
        }
}

static uint32_t wrong_number(void)
{
    return one_in(2) ? random_below(16) : random_word();
}

/* Another number for one of the settings, another value in the list, or another count of them. */
static void spoil_settings(struct call *c)
{
    static const size_t counts[] = {0, 1, GATEWAY_LENGTHS - 1, GATEWAY_LENGTHS + 1};
    uint32_t *const settings[] = {&c->k, &c->e, &c->s};
    const uint32_t which = random_below(6);
    if (which < 3)
        *settings[which] = wrong_number();
    else if (which < 5)
        c->d[one_in(3) ? 0 : one_in(3) ? GATEWAY_LENGTHS - 1 : random_below(GATEWAY_LENGTHS)] = (uint8_t)wrong_number();
    else
        c->d_count = one_in(4) ? random_below(MOST_VALUES + 1) : counts[random_below(4)];
}

static void random_route(struct call *c)
{
    c->length = one_in(8) ? 0 : one_in(40) ? 33 + random_below(4) : 1 + random_below(one_in(2) ? 3 : 32);
    c->asked = c->length == 0 || c->length > 32 ? 0 : random_word() & 0xffffffffu << (32 - c->length);
    if (one_in(30))
        c->asked ^= random_word() >> random_below(32);
}

/* A call of memory of its own, with settings or sizes that most often are wrong. */
static void call_wrongly(struct call c, const struct call routes[ROUTES])
{
    const size_t before = gateway_counters_bytes(c.d, c.d_count);
    if (one_in(2))
        spoil_settings(&c);
    size_t bytes = perhaps_wrong(one_in(4) ? before : gateway_counters_bytes(c.d, c.d_count), 2);
    size_t size = perhaps_wrong(gateway_slots_bytes(c.e, c.s), 2);
    if (!asks(&c))
        size -= size % 4;
    struct lent by_hand = {.counters = lend(bytes, 0), .slots = lend(size, 0)}, m = {.counters = {0}};
    fill(&by_hand.counters);
    fill(&by_hand.slots);
    uint32_t refusal = gateway_refusal(hand.match_vector(c.k, c.d, c.d_count, c.e, c.s, c.a, c.b, c.c,
                                                         by_hand.counters.at, bytes, by_hand.slots.at, size, 0));
    if (refusal != GATEWAY_OK) {
        /* What is refused for its settings or sizes is refused whatever the memory holds. */
        m.counters = lend(bytes, 0);
        m.slots = lend(size, asks(&c) ? random_below(4) : 0);
    } else {
        m.counters = copy(&by_hand.counters, 0);
        m.slots = copy(&by_hand.slots, asks(&c) ? random_below(4) : 0);
    }
    if (takes_chunk(&c))
        lend_stream(&by_hand, &m);
    lend_others(&by_hand, &m, &c, routes);
    compare(&c, &by_hand, &m);
    if (refusal == GATEWAY_OK) {
        check_lists(&m.counters, &by_hand.counters, &c, "memory of the counters");
        check_lists(&m.slots, &by_hand.slots, &c, "memory of the slots");
    }
    const struct list *const all[] = {&by_hand.counters, &by_hand.slots, &m.counters, &m.slots};
    for (size_t i = 0; i < sizeof all / sizeof all[0]; i++)
        take_back(all[i]);
    take_back_others(&by_hand);
    take_back_others(&m);
    take_back_stream(&by_hand);
    take_back_stream(&m);
}

/* A call of a table. The library gets blocks of their own for lists, for slots that begin at an odd address,
   and for what the call has no need of, to which nothing was written. */
static void call_rightly(const struct call *c, struct lent by_hand, struct lent m, const struct call routes[ROUTES])
{
    struct list own = {NULL, NULL, 0};
    int small = m.slots.size < SMALL || one_in(16);
    if (c->kind == VECTOR && one_in(2))
        m.slots = own = lend(m.slots.size, random_below(4));
    else if ((c->kind == CHANGE || (names_party(c->kind) && c->party > 1)) && one_in(2))
        m.counters = own = lend(m.counters.size, 0);
    else if (asks(c) && small && one_in(2))
        m.slots = own = copy(&m.slots, random_below(4));
    lend_others(&by_hand, &m, c, routes);
    compare(c, &by_hand, &m);
    if (!asks(c) && small) {
        if (own.block == NULL)
            check_lists(&m.counters, &by_hand.counters, c, "memory of the counters");
        check_lists(&m.slots, &by_hand.slots, c, "memory of the slots");
    }
    take_back(&own);
    take_back_others(&by_hand);
    take_back_others(&m);
}

/* Another mark in some of the slots, and seldom another prefix. */
static void change_slots(const struct list *slots)
{
    for (size_t i = 0; i + 8 <= slots->size; i += 8) {
        uint32_t word[2];
        memcpy(word, slots->at + i, sizeof word);
        if (word[1] == 0 || !one_in(3))
            continue;
        word[1] = one_in(4) ? 0 : word[1] + random_below(3) - 1;
        if (one_in(8))
            word[0] ^= random_word() >> random_below(32);
        memcpy(slots->at + i, word, sizeof word);
    }
}

static void random_settings(struct call *c, int large)
{
    c->k = random_setting(1, 8);
    c->e = random_setting(0, large ? 8 : 3);
    c->s = random_setting(1, 8);
    c->a = random_multiplier();
    c->b = random_multiplier();
    c->c = random_multiplier();
    random_filters(c, large ? 11 : 6);
}

/* Slots of a table with other settings, which has some of the routes, or anything. */
static struct list other_slots(const struct call *c, const struct call routes[ROUTES])
{
    const struct list counters = lend(gateway_counters_bytes(c->d, c->d_count), 0);
    const struct list slots = lend(gateway_slots_bytes(c->e, c->s), 0);
    const struct lent m = {.d = {NULL, (uint8_t *)(uintptr_t)c->d, c->d_count}, .counters = counters, .slots = slots};
    struct call add = *c;
    add.kind = CLEAR;
    answer(&hand, &add, &m);
    add.kind = ADD;
    for (size_t i = 0; i < ROUTES; i++) {
        add.party = random_below(2);
        add.asked = routes[i].asked;
        add.length = routes[i].length;
        add.hop = random_below(4);
        if (!one_in(3))
            answer(&hand, &add, &m);
    }
    if (one_in(4))
        fill(&slots);
    take_back(&counters);
    return slots;
}

static void exchange(struct list *one, struct list *other)
{
    const struct list kept = *one;
    *one = *other;
    *other = kept;
}

static void exchange_tables(struct lent *m)
{
    exchange(&m->counters, &m->other_counters);
    exchange(&m->slots, &m->other_slots);
}

/* Room for the differences, for more of them, or too little. */
static void lend_differences(struct lent *by_hand, struct lent *m, const struct call *c)
{
    static uint8_t all[16 * GATEWAY_MOST_DIFFERENCES(8, 8, 8, 8)];
    struct lent asked = *by_hand;
    asked.d = (struct list){NULL, (uint8_t *)(uintptr_t)c->d, c->d_count};
    asked.other_d = (struct list){NULL, (uint8_t *)(uintptr_t)c->other->d, c->other->d_count};
    asked.differences = (struct list){NULL, all, sizeof all};
    const size_t needed = 16 * (size_t)gateway_count(answer(&hand, c, &asked));
    by_hand->differences = lend(perhaps_wrong(needed, 2) + (one_in(3) ? random_below(200) : 0), 0);
    fill(&by_hand->differences);
    m->differences = copy(&by_hand->differences, random_below(4));
}

/* A table compared with itself, with one like it, or with another, in either order. The library gets no counters that
   were written to, and slots that begin at an odd address. */
static void compare_rightly(const struct call *c, struct lent by_hand, struct lent m, const struct call routes[ROUTES])
{
    struct call first = *c, second = *c;
    struct list own = {NULL, NULL, 0}, own_counters = {NULL, NULL, 0};
    const int small = m.slots.size < SMALL || one_in(16), like = one_in(3), itself = !like && one_in(4);
    if (small && one_in(2))
        m.slots = own = copy(&by_hand.slots, random_below(4));
    if (one_in(2))
        m.counters = own_counters = lend(m.counters.size, 0);
    if (itself) {
        by_hand.other_counters = by_hand.counters;
        by_hand.other_slots = by_hand.slots;
        m.other_counters = m.counters;
        m.other_slots = m.slots;
    } else {
        if (!like)
            random_settings(&second, m.slots.size >= SMALL);
        by_hand.other_slots = like ? copy(&by_hand.slots, 0) : other_slots(&second, routes);
        if (like)
            change_slots(&by_hand.other_slots);
        by_hand.other_counters = lend(gateway_counters_bytes(second.d, second.d_count), 0);
        m.other_slots = copy(&by_hand.other_slots, random_below(4));
        m.other_counters = lend(by_hand.other_counters.size, random_below(4));
    }
    const struct list theirs = m.other_slots, ours = by_hand.other_slots;
    const struct list their_counters = m.other_counters, our_counters = by_hand.other_counters;
    if (one_in(2)) {
        exchange_tables(&by_hand);
        exchange_tables(&m);
        first = second;
        second = *c;
    }
    first.kind = COMPARE;
    first.party = c->party;
    first.other = &second;
    lend_differences(&by_hand, &m, &first);
    compare(&first, &by_hand, &m);
    if (small)
        check_lists(&m.slots, &by_hand.slots, &first, "memory of the slots");
    if (small && !itself)
        check_lists(&m.other_slots, &by_hand.other_slots, &first, "memory of the other slots");
    if (!itself) {
        take_back(&ours);
        take_back(&theirs);
        take_back(&our_counters);
        take_back(&their_counters);
    }
    take_back(&own);
    take_back(&own_counters);
    take_back_others(&by_hand);
    take_back_others(&m);
}

/* Counters and slots of sizes that one time in so many are wrong, with anything in them. */
static void lend_wrongly(struct list *counters, struct list *slots, const struct call *c, uint32_t one_in_so_many)
{
    *counters = lend(perhaps_wrong(gateway_counters_bytes(c->d, c->d_count), one_in_so_many), 0);
    *slots = lend(perhaps_wrong(gateway_slots_bytes(c->e, c->s), one_in_so_many), 0);
    fill(slots);
}

static int refuses_memory(const struct call *c, const struct list *counters, const struct list *slots)
{
    static const uint8_t zeros[GATEWAY_COUNTERS_BYTES(11)];
    return counters->size > sizeof zeros ||
           gateway_refusal(hand.match_vector(c->k, c->d, c->d_count, c->e, c->s, c->a, c->b, c->c, zeros,
                                             counters->size, slots->at, slots->size, 0)) != GATEWAY_OK;
}

/* Two tables of which either, or both, most often have wrong settings or sizes. What is refused for these is refused
   whatever the memory holds. */
static void compare_wrongly(const struct call *c)
{
    struct call first = *c, second = *c;
    struct lent by_hand = {.d = {0}}, m = {.d = {0}};
    random_settings(&second, 0);
    if (one_in(3))
        spoil_settings(&first);
    if (one_in(3))
        spoil_settings(&second);
    first.other = &second;
    lend_wrongly(&by_hand.counters, &by_hand.slots, &first, 5);
    lend_wrongly(&by_hand.other_counters, &by_hand.other_slots, &second, 5);
    const int unread = refuses_memory(&first, &by_hand.counters, &by_hand.slots) ||
                       refuses_memory(&second, &by_hand.other_counters, &by_hand.other_slots) || c->party > 1;
    m.counters = lend(by_hand.counters.size, random_below(4));
    m.other_counters = lend(by_hand.other_counters.size, random_below(4));
    m.slots = unread ? lend(by_hand.slots.size, random_below(4)) : copy(&by_hand.slots, random_below(4));
    m.other_slots =
        unread ? lend(by_hand.other_slots.size, random_below(4)) : copy(&by_hand.other_slots, random_below(4));
    lend_differences(&by_hand, &m, &first);
    compare(&first, &by_hand, &m);
    if (!unread) {
        check_lists(&m.slots, &by_hand.slots, &first, "memory of the slots");
        check_lists(&m.other_slots, &by_hand.other_slots, &first, "memory of the other slots");
    }
    const struct list *const all[] = {&by_hand.counters, &by_hand.slots, &by_hand.other_counters, &by_hand.other_slots,
                                      &m.counters,       &m.slots,       &m.other_counters,       &m.other_slots};
    for (size_t i = 0; i < sizeof all / sizeof all[0]; i++)
        take_back(all[i]);
    take_back_others(&by_hand);
    take_back_others(&m);
}

/* Which calls are made how often. Seldom a chunk of a day is imported, and one of a dump replayed. */
static enum kind random_kind(void)
{
    static const enum kind kinds[] = {ADD,    ADD,  ADD,     ADD,     WITHDRAW, WITHDRAW, CHANGE, VECTOR, LOOKUP,
                                      LOOKUP, LIST, COMPARE, MESSAGE, MESSAGE,  WRITE,    IMPORT, IMPORT, IMPORT,
                                      IMPORT, END};
    const enum kind kind = one_in(50) ? CLEAR : kinds[random_below(sizeof kinds / sizeof kinds[0])];
    return kind == IMPORT && is_day != one_in(30) ? REPLAY : kind;
}

/* Puts anything into the counters of both. */
static void damage(const struct lent *by_hand, const struct lent *m)
{
    fill(&by_hand->counters);
    memcpy(m->counters.at, by_hand->counters.at, m->counters.size);
}

/* Puts marks at which something changes into slots that are occupied, and into the defaults, of both. */
static void damage_marks(const struct lent *by_hand, const struct lent *m)
{
    static const uint32_t some[] = {0, 1, 65536, 65537, 131072, 131073, UINT32_MAX};
    const size_t words = by_hand->slots.size / 4;
    for (size_t i = 1; i < words; i += i < words - 3 ? 2 : 1) {
        uint32_t mark;
        memcpy(&mark, by_hand->slots.at + 4 * i, sizeof mark);
        if ((mark == 0 && i < words - 2) || !one_in(4))
            continue;
        mark = one_in(4) ? random_below(131074) : some[random_below(sizeof some / sizeof some[0])];
        memcpy(by_hand->slots.at + 4 * i, &mark, sizeof mark);
        memcpy(m->slots.at + 4 * i, &mark, sizeof mark);
    }
}

/* A table, cleared or with anything in it, and what is then asked of it. Most are small, since they are quick. */
static void run_table(void)
{
    const int large = one_in(6);
    struct call c = {.kind = CLEAR};
    random_settings(&c, large);
    struct call routes[ROUTES];
    struct lent by_hand = {.counters = lend(gateway_counters_bytes(c.d, c.d_count), 0),
                           .slots = lend(gateway_slots_bytes(c.e, c.s), 0)};
    struct lent m = by_hand;
    for (size_t i = 0; i < ROUTES; i++)
        random_route(&routes[i]);
    if (one_in(4)) {
        fill(&by_hand.counters);
        fill(&by_hand.slots);
        m.counters = copy(&by_hand.counters, 0);
        m.slots = copy(&by_hand.slots, 0);
    } else {
        m.counters = lend(by_hand.counters.size, 0);
        m.slots = lend(by_hand.slots.size, 0);
        compare(&c, &by_hand, &m);
    }
    lend_stream(&by_hand, &m);
    make_file(routes);
    for (int i = 0; i < 120; i++) {
        const struct call *route = &routes[random_below(ROUTES)];
        c.kind = random_kind();
        c.party = random_party();
        c.asked = route->asked;
        c.length = route->length;
        c.hop = one_in(20) ? random_word() : random_below(65536);
        if (asks(&c))
            c.asked |= random_word() >> random_below(32);
        if (!large && one_in(100))
            damage(&by_hand, &m);
        if (!large && one_in(60))
            damage_marks(&by_hand, &m);
        if (c.kind == COMPARE && one_in(2))
            compare_wrongly(&c);
        else if (c.kind == COMPARE)
            compare_rightly(&c, by_hand, m, routes);
        else if (one_in(8) && c.kind != WRITE && c.kind != END)
            call_wrongly(c, routes);
        else
            call_rightly(&c, by_hand, m, routes);
    }
    check_lists(&m.counters, &by_hand.counters, &c, "memory of the counters");
    check_lists(&m.slots, &by_hand.slots, &c, "memory of the slots");
    take_back(&by_hand.counters);
    take_back(&by_hand.slots);
    take_back(&m.counters);
    take_back(&m.slots);
    take_back_stream(&by_hand);
    take_back_stream(&m);
}

/* Says what was met, and ends in failure where a number was not. */
static int tell(void)
{
    static const int numbers[] = {0, 1, 2, 3, 4, 5, 7, 8, 9, 10, 11, 12, 13, 14, 15, 17, 18, 19};
    static const int under[] = {7, 8, 9, 10, 11};
    int narrow = 0;
    uint64_t calls = 0;
    for (size_t i = 0; i < sizeof numbers / sizeof numbers[0]; i++) {
        uint64_t times = 0;
        for (int kind = 0; kind < KINDS; kind++)
            times += given[kind][numbers[i]];
        printf("  %s %d: %llu\n", numbers[i] == 0 ? "accepted," : "refused with", numbers[i],
               (unsigned long long)times);
        narrow |= times == 0;
        calls += times;
    }
    for (int kind = 0; kind < KINDS; kind++)
        narrow |= given[kind][0] == 0 ||
                  (kind != WRITE && kind != END && (given[kind][1] == 0 || given[kind][2] == 0)) ||
                  (names_party((enum kind)kind) && given[kind][15] == 0);
    narrow |= given[COMPARE][18] == 0 || differences_listed == 0 || without_differences == 0;
    narrow |= given[LIST][18] == 0 || given[WRITE][18] == 0 || routes_accepted == 0 || routes_refused == 0;
    narrow |= given[IMPORT][12] == 0 || given[IMPORT][14] == 0 || given[IMPORT][19] == 0 || given[END][17] == 0;
    narrow |= given[REPLAY][12] == 0 || given[REPLAY][14] == 0 || given[REPLAY][19] == 0;
    narrow |= dump_accepted == 0 || dump_refused == 0 || dump_hopless == 0;
    narrow |= day_figures[1] == 0 || day_figures[0] <= day_figures[1] || day_figures[2] == 0;
    narrow |= unequal_tables == 0 || counts_refused == 0 || values_refused == 0;
    printf("  lists of D: %llu tables with unequal ones, %llu refused for their count, %llu for a value\n",
           (unsigned long long)unequal_tables, (unsigned long long)counts_refused,
           (unsigned long long)values_refused);
    printf("  comparisons: %llu differences listed, %llu without any\n", (unsigned long long)differences_listed,
           (unsigned long long)without_differences);
    printf("  routes of messages: %llu accepted, %llu refused\n", (unsigned long long)routes_accepted,
           (unsigned long long)routes_refused);
    printf("  records of dumps: %llu accepted, %llu refused, %llu without a hop\n", (unsigned long long)dump_accepted,
           (unsigned long long)dump_refused, (unsigned long long)dump_hopless);
    printf("  records of days: %llu seen, %llu applied; their routes: %llu accepted",
           (unsigned long long)day_figures[0], (unsigned long long)day_figures[1], (unsigned long long)day_figures[2]);
    for (size_t i = 0; i < sizeof under / sizeof under[0]; i++) {
        printf(", %llu refused with %d", (unsigned long long)day_figures[3 + under[i]], under[i]);
        narrow |= day_figures[3 + under[i]] == 0;
    }
    printf("\n  streams ended by any other number: %llu\n", (unsigned long long)other_numbers);
    printf("%llu calls on %lu tables, every answer and byte agrees\n", (unsigned long long)(calls + other_numbers),
           table);
    if (narrow)
        printf("lent: too narrow a run: a call was never accepted, or a number never given\n");
    return narrow;
}

/* A whole number, or the program ends. */
static unsigned long long number(const char *word)
{
    char *end;
    unsigned long long n = strtoull(word, &end, 10);
    if (word[0] < '0' || word[0] > '9' || *end != '\0') {
        fprintf(stderr, "lent: not a number: '%s'\n", word);
        exit(2);
    }
    return n;
}

int main(int argc, char **argv)
{
    if (argc != 3) {
        fprintf(stderr, "usage: lent SEED TABLES; make memory runs it\n");
        return 2;
    }
    seed = random_state = number(argv[1]);
    const unsigned long tables = (unsigned long)number(argv[2]);
    printf("seed %llu\n", seed);
    fflush(stdout);
    for (table = 0; table < tables; table++)
        run_table();
    return tell();
}
