/* The scheme by hand: plain C, made fast without changing what is stored. */
#include "table.h"

#include <stdlib.h>
#include <string.h>

#define REFUSED(number) ((uint64_t)(number) << 48)

enum { LENGTHS = 32 };

/* The filter of length L has 2^d[L - 1] counters. */
struct settings {
    uint32_t k;
    const uint8_t *d;
    size_t d_count;
    uint32_t e, s, a, b, c;
};

static uint32_t prefix_of(uint32_t length, uint32_t address)
{
    return length == 0 ? 0 : address & (0xffffffffu << (32 - length));
}

static size_t first_slot(const struct settings *t, uint32_t length, uint32_t p)
{
    uint32_t bucket = t->e == 0 ? 0 : t->c * p >> (32 - t->e);
    return ((((size_t)length - 1) << t->e) + bucket) * t->s;
}

/* A party's mark is one of 65,536, one for each hop: party 0's begin with 1, and party 1's follow. */
static uint32_t mark_of(uint32_t party, uint32_t hop)
{
    return 65536 * party + 1 + hop;
}

static int own(uint32_t party, uint32_t mark)
{
    return mark - mark_of(party, 0) < 65536;
}

/* Whether a mark is either party's. */
static int occupied(uint32_t mark)
{
    return mark - 1 < 2 * 65536;
}

/* A word that may lie at any address. */
static uint32_t word(const uint8_t *slots, size_t i)
{
    uint32_t w;
    memcpy(&w, slots + 4 * i, 4);
    return w;
}

/* How many counters the filters have together, or 0 where a value is not of 4 to 11. The loop goes to its end
   in any case, so that the compiler can take many values at once. */
static inline size_t counters_of(const uint8_t *d)
{
    uint32_t sum = 0;
    uint8_t above = 0;
    for (int i = 0; i < LENGTHS; i++) {
        above |= (uint8_t)(d[i] - 4) & 0xf8;
        sum += 1u << (d[i] & 15);
    }
    return above == 0 ? sum : 0;
}

static uint64_t refuse_memory(const struct settings *t, size_t counters_bytes, size_t slots_words)
{
    if (t->k < 1 || t->k > 8 || t->d_count != LENGTHS || t->e > 8 || t->s < 1 || t->s > 8)
        return 1;
    size_t counters = counters_of(t->d);
    if (counters == 0)
        return 1;
    if (counters_bytes != counters || slots_words != ((size_t)64 << t->e) * t->s + 2)
        return 2;
    return 0;
}

static uint64_t refuse_party(const struct settings *t, size_t counters_bytes, size_t slots_words, uint32_t party)
{
    uint64_t refusal = refuse_memory(t, counters_bytes, slots_words);
    return refusal == 0 && party > 1 ? 15 : refusal;
}

static uint64_t refuse_bytes(const struct settings *t, size_t counters_bytes, size_t slots_bytes)
{
    uint64_t refusal = refuse_memory(t, counters_bytes, slots_bytes / 4);
    return refusal == 0 && slots_bytes % 4 != 0 ? 2 : refusal;
}

static uint64_t refuse_question(const struct settings *t, size_t counters_bytes, size_t slots_bytes, uint32_t party)
{
    uint64_t refusal = refuse_bytes(t, counters_bytes, slots_bytes);
    return refusal == 0 && party > 1 ? 15 : refusal;
}

static uint64_t refuse_route(const struct settings *t, size_t counters_bytes, size_t slots_words,
                             uint32_t party, uint32_t p, uint32_t length)
{
    uint64_t refusal = refuse_party(t, counters_bytes, slots_words, party);
    if (refusal != 0)
        return refusal;
    if (length > 32)
        return 3;
    return prefix_of(length, p) != p ? 4 : 0;
}

/* The slot that an update is about: none is one past the bucket's last. */
struct found {
    size_t held;   /* the lowest that has a mark of the party's and holds p */
    size_t vacant; /* the lowest free one before it */
    size_t none;
};

/* One pass over p's bucket. */
static struct found search(const struct settings *t, const uint32_t *slots, uint32_t party, uint32_t length,
                           uint32_t p)
{
    size_t first = first_slot(t, length, p), end = first + t->s;
    struct found found = {end, end, end};
    for (size_t n = first; n < end; n++) {
        if (slots[2 * n] == p && own(party, slots[2 * n + 1])) {
            found.held = n;
            break;
        }
        if (found.vacant == end && !occupied(slots[2 * n + 1]))
            found.vacant = n;
    }
    return found;
}

/* Where a length's filter starts. Most routes are long, so the filters are counted off from the end. */
static size_t start_of(const struct settings *t, size_t counters_bytes, uint32_t length)
{
    size_t start = counters_bytes;
    for (uint32_t l = LENGTHS; l >= length; l--)
        start -= (size_t)1 << t->d[l - 1];
    return start;
}

/* The K counters of p; the answer is how many there are. */
static uint32_t places(const struct settings *t, size_t counters_bytes, uint32_t length, uint32_t p,
                       size_t place[8])
{
    size_t start = start_of(t, counters_bytes, length);
    uint32_t g = t->a * p, growth = t->b * p, d = t->d[length - 1];
    for (uint32_t i = 0; i < t->k; i++) {
        place[i] = start + (g >> (32 - d));
        g += growth;
    }
    return t->k;
}

static uint32_t hits(const size_t *place, uint32_t many, size_t at)
{
    uint32_t n = 0;
    for (uint32_t i = 0; i < many; i++)
        n += place[i] == at;
    return n;
}

uint64_t hand_clear(uint32_t k, const uint8_t *d, size_t d_count, uint32_t e, uint32_t s,
                    uint32_t a, uint32_t b, uint32_t c, uint8_t *counters, size_t counters_bytes,
                    uint32_t *slots, size_t slots_words)
{
    const struct settings t = {k, d, d_count, e, s, a, b, c};
    uint64_t refusal = refuse_memory(&t, counters_bytes, slots_words);
    if (refusal != 0)
        return REFUSED(refusal);
    memset(counters, 0, counters_bytes);
    memset(slots, 0, 4 * slots_words);
    return 0;
}

/* The word of a party's default. */
static size_t default_word(size_t slots_words, uint32_t party)
{
    return slots_words - 2 + party;
}

/* An add and a withdrawal whose arguments are in their ranges; the answer is the number. */
static inline uint64_t add(const struct settings *t, uint8_t *counters, size_t counters_bytes,
                           uint32_t *slots, size_t slots_words, uint32_t party, uint32_t prefix,
                           uint32_t length, uint32_t hop)
{
    if (length == 0) {
        slots[default_word(slots_words, party)] = mark_of(party, hop);
        return 0;
    }
    struct found found = search(t, slots, party, length, prefix);
    if (found.held != found.none) {
        slots[2 * found.held + 1] = mark_of(party, hop);
        return 0;
    }
    if (found.vacant == found.none)
        return 8;
    size_t place[8];
    uint32_t many = places(t, counters_bytes, length, prefix, place);
    for (uint32_t i = 0; i < many; i++)
        if (counters[place[i]] + hits(place, many, place[i]) > 15)
            return 9;
    slots[2 * found.vacant] = prefix;
    slots[2 * found.vacant + 1] = mark_of(party, hop);
    for (uint32_t i = 0; i < many; i++)
        counters[place[i]]++;
    return 0;
}

/* Whether a prefix lies in 127.0.0.0/8 or in 224.0.0.0/4. */
static inline int odd(uint32_t prefix, uint32_t length)
{
    return (length >= 8 && prefix >> 24 == 127) || (length >= 4 && prefix >> 28 == 14);
}

/* An add of a route that was announced. */
static inline uint64_t add_announced(const struct settings *t, uint8_t *counters, size_t counters_bytes,
                                     uint32_t *slots, size_t slots_words, uint32_t party, uint32_t prefix,
                                     uint32_t length, uint32_t hop)
{
    return odd(prefix, length) ? 11 : add(t, counters, counters_bytes, slots, slots_words, party, prefix, length, hop);
}

static inline uint64_t withdraw(const struct settings *t, uint8_t *counters, size_t counters_bytes,
                                uint32_t *slots, size_t slots_words, uint32_t party, uint32_t prefix,
                                uint32_t length)
{
    if (length == 0) {
        if (!own(party, slots[default_word(slots_words, party)]))
            return 7;
        slots[default_word(slots_words, party)] = 0;
        return 0;
    }
    struct found found = search(t, slots, party, length, prefix);
    if (found.held == found.none)
        return 7;
    size_t place[8];
    uint32_t many = places(t, counters_bytes, length, prefix, place);
    for (uint32_t i = 0; i < many; i++)
        if (counters[place[i]] < hits(place, many, place[i]))
            return 10;
    slots[2 * found.held] = 0;
    slots[2 * found.held + 1] = 0;
    for (uint32_t i = 0; i < many; i++)
        counters[place[i]]--;
    return 0;
}

uint64_t hand_add(uint32_t k, const uint8_t *d, size_t d_count, uint32_t e, uint32_t s, uint32_t a,
                  uint32_t b, uint32_t c, uint8_t *counters, size_t counters_bytes, uint32_t *slots,
                  size_t slots_words, uint32_t party, uint32_t prefix, uint32_t length,
                  uint32_t hop)
{
    const struct settings t = {k, d, d_count, e, s, a, b, c};
    uint64_t refusal = refuse_route(&t, counters_bytes, slots_words, party, prefix, length);
    if (refusal == 0 && odd(prefix, length))
        refusal = 11;
    if (refusal == 0 && hop > 65535)
        refusal = 5;
    if (refusal == 0)
        refusal = add(&t, counters, counters_bytes, slots, slots_words, party, prefix, length, hop);
    return REFUSED(refusal);
}

uint64_t hand_withdraw(uint32_t k, const uint8_t *d, size_t d_count, uint32_t e, uint32_t s,
                       uint32_t a, uint32_t b, uint32_t c, uint8_t *counters, size_t counters_bytes,
                       uint32_t *slots, size_t slots_words, uint32_t party, uint32_t prefix,
                       uint32_t length)
{
    const struct settings t = {k, d, d_count, e, s, a, b, c};
    uint64_t refusal = refuse_route(&t, counters_bytes, slots_words, party, prefix, length);
    if (refusal == 0)
        refusal = withdraw(&t, counters, counters_bytes, slots, slots_words, party, prefix, length);
    return REFUSED(refusal);
}

uint64_t hand_change(uint32_t k, const uint8_t *d, size_t d_count, uint32_t e, uint32_t s,
                     uint32_t a, uint32_t b, uint32_t c, uint8_t *counters, size_t counters_bytes,
                     uint32_t *slots, size_t slots_words, uint32_t party, uint32_t prefix,
                     uint32_t length, uint32_t hop)
{
    (void)counters;
    const struct settings t = {k, d, d_count, e, s, a, b, c};
    uint64_t refusal = refuse_route(&t, counters_bytes, slots_words, party, prefix, length);
    if (refusal != 0)
        return REFUSED(refusal);
    if (hop > 65535)
        return REFUSED(5);
    if (length == 0) {
        if (!own(party, slots[default_word(slots_words, party)]))
            return REFUSED(7);
        slots[default_word(slots_words, party)] = mark_of(party, hop);
        return 0;
    }
    struct found found = search(&t, slots, party, length, prefix);
    if (found.held == found.none)
        return REFUSED(7);
    slots[2 * found.held + 1] = mark_of(party, hop);
    return 0;
}

/* Most filters have zero at their first place, and then need no second multiplication. */
static inline int claims(const struct settings *t, const uint8_t *filter, uint32_t d, uint32_t p)
{
    uint32_t g = t->a * p;
    if (__builtin_expect(filter[g >> (32 - d)] == 0, 1))
        return 0;
    uint32_t growth = t->b * p;
    for (uint32_t i = 1; i < t->k; i++) {
        g += growth;
        if (filter[g >> (32 - d)] == 0)
            return 0;
    }
    return 1;
}

/* From length 32 down, and from the end of the counters: the next prefix has one bit less, and the next filter
   lies just before. Once as a loop, and once unrolled, so that each length's bits are constants. */
#define VECTOR_OF(name, unroll)                                                                     \
    static inline uint32_t name(const struct settings *t, const uint8_t *end, uint32_t address)     \
    {                                                                                               \
        uint32_t vector = 0, p = address, bit = 1;                                                  \
        const uint8_t *filter = end;                                                                \
        _Pragma(unroll) for (uint32_t length = LENGTHS; length > 0; length--)                       \
        {                                                                                           \
            uint32_t d = t->d[length - 1];                                                          \
            filter -= (size_t)1 << d;                                                               \
            if (claims(t, filter, d, p))                                                            \
                vector |= 1u << (length - 1);                                                       \
            p &= ~bit;                                                                              \
            bit <<= 1;                                                                              \
        }                                                                                           \
        return vector;                                                                              \
    }

VECTOR_OF(vector_of, "GCC unroll 1")
VECTOR_OF(vector_unrolled, "GCC unroll 32")

/* The mark of the lowest slot that is the party's and holds p, or 0. */
static inline uint32_t probe(const struct settings *t, const uint8_t *slots, uint32_t party,
                             uint32_t length, uint32_t p)
{
    size_t first = first_slot(t, length, p);
    for (size_t n = first; n < first + t->s; n++)
        if (word(slots, 2 * n) == p && own(party, word(slots, 2 * n + 1)))
            return word(slots, 2 * n + 1);
    return 0;
}

/* The hop is the mark's place among the marks of its party. */
static inline uint64_t answer(uint32_t mark, uint32_t length, uint32_t probes)
{
    return (uint64_t)1 << 40 | (uint64_t)((mark - 1) % 65536) << 16 | length << 8 | probes;
}

static inline uint64_t default_answer(const uint8_t *slots, size_t slots_bytes, uint32_t party,
                                      uint32_t probes)
{
    uint32_t mark = word(slots, default_word(slots_bytes / 4, party));
    return own(party, mark) ? answer(mark, 0, probes) : probes;
}

uint64_t hand_match_vector(uint32_t k, const uint8_t *d, size_t d_count, uint32_t e, uint32_t s,
                           uint32_t a, uint32_t b, uint32_t c, const uint8_t *counters,
                           size_t counters_bytes, const uint8_t *slots, size_t slots_bytes,
                           uint32_t address)
{
    (void)slots;
    const struct settings t = {k, d, d_count, e, s, a, b, c};
    uint64_t refusal = refuse_bytes(&t, counters_bytes, slots_bytes);
    return refusal != 0 ? REFUSED(refusal) : vector_of(&t, counters + counters_bytes, address);
}

/* What the buckets of the set bits answer, in slots of the right size. */
static inline uint64_t lookup(const struct settings *t, const uint8_t *slots, size_t slots_bytes,
                              uint32_t party, uint32_t address, uint32_t vector)
{
    uint32_t probes = 0;
    for (uint32_t left = vector; left != 0;) {
        uint32_t length = 32 - (uint32_t)__builtin_clz(left);
        probes++;
        uint32_t mark = probe(t, slots, party, length, prefix_of(length, address));
        if (mark != 0)
            return answer(mark, length, probes);
        left ^= 1u << (length - 1);
    }
    return default_answer(slots, slots_bytes, party, probes);
}

uint64_t hand_lookup(uint32_t k, const uint8_t *d, size_t d_count, uint32_t e, uint32_t s,
                     uint32_t a, uint32_t b, uint32_t c, const uint8_t *counters,
                     size_t counters_bytes, const uint8_t *slots, size_t slots_bytes,
                     uint32_t party, uint32_t address)
{
    const struct settings t = {k, d, d_count, e, s, a, b, c};
    uint64_t refusal = refuse_question(&t, counters_bytes, slots_bytes, party);
    if (refusal != 0)
        return REFUSED(refusal);
    return lookup(&t, slots, slots_bytes, party, address, vector_of(&t, counters + counters_bytes, address));
}

uint64_t hand_lookup_unrolled(uint32_t k, const uint8_t *d, size_t d_count, uint32_t e, uint32_t s,
                              uint32_t a, uint32_t b, uint32_t c, const uint8_t *counters,
                              size_t counters_bytes, const uint8_t *slots, size_t slots_bytes,
                              uint32_t party, uint32_t address)
{
    const struct settings t = {k, d, d_count, e, s, a, b, c};
    uint64_t refusal = refuse_question(&t, counters_bytes, slots_bytes, party);
    if (refusal != 0)
        return REFUSED(refusal);
    return lookup(&t, slots, slots_bytes, party, address, vector_unrolled(&t, counters + counters_bytes, address));
}

uint64_t hand_lookup_list(uint32_t k, const uint8_t *d, size_t d_count, uint32_t e, uint32_t s,
                          uint32_t a, uint32_t b, uint32_t c, const uint8_t *counters,
                          size_t counters_bytes, const uint8_t *slots, size_t slots_bytes,
                          uint32_t party, const uint8_t *addresses, size_t addresses_bytes,
                          uint8_t *results, size_t results_bytes)
{
    const struct settings t = {k, d, d_count, e, s, a, b, c};
    uint64_t refusal = refuse_question(&t, counters_bytes, slots_bytes, party);
    if (refusal != 0)
        return REFUSED(refusal);
    if (addresses_bytes % 4 != 0 || results_bytes % 4 != 0 || results_bytes / 4 != addresses_bytes)
        return REFUSED(18);
    for (size_t i = 0; i < addresses_bytes / 4; i++) {
        uint32_t address = word(addresses, i);
        uint32_t vector = vector_of(&t, counters + counters_bytes, address);
        uint64_t given = lookup(&t, slots, slots_bytes, party, address, vector);
        const uint32_t result[4] = {(uint32_t)(given >> 40), (uint32_t)(given >> 16) & 0xffff,
                                    (uint32_t)(given >> 8) & 0xff, (uint32_t)given & 0xff};
        memcpy(results + 16 * i, result, sizeof result);
    }
    return 0;
}

/* A route as it is told: its mark is that of party 0 with the same hop. The default has no slot. */
struct route {
    uint32_t length, prefix, mark;
    size_t slot;
};

enum { MOST_ROUTES = LENGTHS * 256 * 8 + 1 };

static int by_prefix(const void *one, const void *other)
{
    const struct route *r = one, *q = other;
    if (r->prefix != q->prefix)
        return r->prefix < q->prefix ? -1 : 1;
    return r->slot < q->slot ? -1 : r->slot > q->slot;
}

/* The routes of a party by rising length and then rising prefix; answers how many there are. Of equals, which only
   damaged memory has, the lowest slot counts. */
static size_t collect(const struct settings *t, const uint8_t *slots, size_t slots_bytes, uint32_t party,
                      struct route routes[MOST_ROUTES])
{
    const size_t of_length = (size_t)t->s << t->e;
    size_t many = 0, slot = 0;
    uint32_t mark = word(slots, default_word(slots_bytes / 4, party));
    if (own(party, mark))
        routes[many++] = (struct route){0, 0, mark - 65536 * party, 0};
    for (uint32_t length = 1; length <= LENGTHS; length++) {
        const size_t from = many;
        for (const size_t end = slot + of_length; slot < end; slot++) {
            const uint32_t p = word(slots, 2 * slot);
            mark = word(slots, 2 * slot + 1);
            if (own(party, mark) && prefix_of(length, p) == p && slot - first_slot(t, length, p) < t->s)
                routes[many++] = (struct route){length, p, mark - 65536 * party, slot};
        }
        qsort(routes + from, many - from, sizeof routes[0], by_prefix);
        size_t kept = from;
        for (size_t i = from; i < many; i++)
            if (i == from || routes[i].prefix != routes[kept - 1].prefix)
                routes[kept++] = routes[i];
        many = kept;
    }
    return many;
}

/* Counts where two such lists differ, and writes the differences unless the list is NULL. */
static size_t merge(const struct route *r, size_t many, const struct route *q, size_t others, uint8_t *list)
{
    const struct route *const r_end = r + many, *const q_end = q + others;
    size_t count = 0;
    while (r < r_end || q < q_end) {
        uint32_t found[4];
        const uint64_t at_r = r < r_end ? (uint64_t)r->length << 32 | r->prefix : UINT64_MAX;
        const uint64_t at_q = q < q_end ? (uint64_t)q->length << 32 | q->prefix : UINT64_MAX;
        const uint64_t at = at_r < at_q ? at_r : at_q;
        found[0] = (uint32_t)(at >> 32);
        found[1] = (uint32_t)at;
        found[2] = at_r == at ? r++->mark : 0;
        found[3] = at_q == at ? q++->mark : 0;
        if (found[2] == found[3])
            continue;
        if (list != NULL)
            memcpy(list + 16 * count, found, sizeof found);
        count++;
    }
    return count;
}

uint64_t hand_list_differences(uint32_t k, const uint8_t *d, size_t d_count, uint32_t e, uint32_t s,
                               uint32_t a, uint32_t b, uint32_t c, const uint8_t *counters,
                               size_t counters_bytes, const uint8_t *slots, size_t slots_bytes,
                               uint32_t k2, const uint8_t *d2, size_t d2_count, uint32_t e2,
                               uint32_t s2, uint32_t a2, uint32_t b2, uint32_t c2,
                               const uint8_t *counters2, size_t counters2_bytes,
                               const uint8_t *slots2, size_t slots2_bytes, uint32_t party,
                               uint8_t *list, size_t list_bytes)
{
    static struct route routes[MOST_ROUTES], others[MOST_ROUTES];
    (void)counters;
    (void)counters2;
    const struct settings t = {k, d, d_count, e, s, a, b, c}, u = {k2, d2, d2_count, e2, s2, a2, b2, c2};
    uint64_t refusal = refuse_bytes(&t, counters_bytes, slots_bytes);
    if (refusal == 0)
        refusal = refuse_question(&u, counters2_bytes, slots2_bytes, party);
    if (refusal != 0)
        return REFUSED(refusal);
    const size_t many = collect(&t, slots, slots_bytes, party, routes);
    const size_t more = collect(&u, slots2, slots2_bytes, party, others);
    const size_t count = merge(routes, many, others, more, NULL);
    if (count > list_bytes / 16)
        return REFUSED(18);
    if (count > 0)
        merge(routes, many, others, more, list);
    return count;
}

uint64_t hand_lookup_in_turn(uint32_t k, const uint8_t *d, size_t d_count, uint32_t e, uint32_t s,
                             uint32_t a, uint32_t b, uint32_t c, const uint8_t *counters,
                             size_t counters_bytes, const uint8_t *slots, size_t slots_bytes,
                             uint32_t party, uint32_t address)
{
    const struct settings t = {k, d, d_count, e, s, a, b, c};
    uint64_t refusal = refuse_question(&t, counters_bytes, slots_bytes, party);
    if (refusal != 0)
        return REFUSED(refusal);
    uint32_t probes = 0, p = address, bit = 1;
    const uint8_t *filter = counters + counters_bytes;
    for (uint32_t length = LENGTHS; length > 0; length--) {
        filter -= (size_t)1 << d[length - 1];
        if (claims(&t, filter, d[length - 1], p)) {
            probes++;
            uint32_t mark = probe(&t, slots, party, length, p);
            if (mark != 0)
                return answer(mark, length, probes);
        }
        p &= ~bit;
        bit <<= 1;
    }
    return default_answer(slots, slots_bytes, party, probes);
}

/* Where a message's prefixes lie, from the marker's first byte on, and the address of its NEXT_HOP. */
struct parts {
    size_t withdrawn_to, announced_from;
    int has_hop;
    uint32_t next_hop;
};

static size_t two_bytes(const uint8_t *at)
{
    return (size_t)at[0] << 8 | at[1];
}

static size_t octets_of(uint32_t length)
{
    return (length + 7) / 8;
}

static inline int prefixes_fit(const uint8_t *at, const uint8_t *end)
{
    while (at < end) {
        if (*at > 32 || (size_t)(end - at) < 1 + octets_of(*at))
            return 0;
        at += 1 + octets_of(*at);
    }
    return 1;
}

static int attributes_fit(const uint8_t *at, const uint8_t *end, struct parts *parts)
{
    while (at < end) {
        size_t header = at[0] & 0x10 ? 4 : 3;
        if ((size_t)(end - at) < header)
            return 0;
        size_t size = header == 4 ? two_bytes(at + 2) : at[2];
        if ((size_t)(end - at) - header < size)
            return 0;
        if (at[1] == 3) {
            if (size != 4 || parts->has_hop)
                return 0;
            parts->has_hop = 1;
            parts->next_hop = (uint32_t)(two_bytes(at + header) << 16 | two_bytes(at + header + 2));
        }
        at += header + size;
    }
    return 1;
}

static inline int message_fits(const uint8_t *message, size_t bytes, struct parts *parts)
{
    static const uint8_t marker[16] = {255, 255, 255, 255, 255, 255, 255, 255,
                                       255, 255, 255, 255, 255, 255, 255, 255};
    if (bytes < 23 || bytes > 4096 || memcmp(message, marker, sizeof marker) != 0 ||
        two_bytes(message + 16) != bytes || message[18] != 2)
        return 0;
    parts->withdrawn_to = 21 + two_bytes(message + 19);
    if (parts->withdrawn_to + 2 > bytes)
        return 0;
    parts->announced_from = parts->withdrawn_to + 2 + two_bytes(message + parts->withdrawn_to);
    parts->has_hop = 0;
    return parts->announced_from <= bytes && prefixes_fit(message + 21, message + parts->withdrawn_to) &&
           attributes_fit(message + parts->withdrawn_to + 2, message + parts->announced_from, parts) &&
           prefixes_fit(message + parts->announced_from, message + bytes);
}

enum { NO_PLACE = 65536 };

/* The lowest place of an address in the list that a hop can be, or NO_PLACE. */
static uint32_t place_in(const uint32_t *hops, size_t many, uint32_t address)
{
    for (uint32_t i = 0; i < many && i < NO_PLACE; i++)
        if (hops[i] == address)
            return i;
    return NO_PLACE;
}

/* Takes the prefix at a place where one fits, and answers where the next one starts. */
static inline const uint8_t *take_prefix(const uint8_t *at, uint32_t *prefix, uint32_t *length)
{
    uint32_t address = 0;
    *length = *at++;
    switch (octets_of(*length)) {
    case 4: address |= at[3]; /* fall through */
    case 3: address |= (uint32_t)at[2] << 8; /* fall through */
    case 2: address |= (uint32_t)at[1] << 16; /* fall through */
    case 1: address |= (uint32_t)at[0] << 24;
    }
    *prefix = prefix_of(*length, address);
    return at + octets_of(*length);
}

/* A message on a table whose settings and sizes are right. What is refused under number n is also counted at place n of
   under, unless that is NULL. */
static inline uint64_t update(const struct settings *t, uint8_t *counters, size_t counters_bytes,
                              uint32_t *slots, size_t slots_words, uint32_t party,
                              const uint8_t *message, size_t message_bytes, const uint32_t *hops,
                              size_t hops_words, uint32_t *under)
{
    struct parts parts;
    uint32_t hop = 0, prefix, length;
    uint64_t refused = 0, accepted = 0, refusal;
    if (!message_fits(message, message_bytes, &parts))
        return REFUSED(12);
    if (parts.announced_from < message_bytes) {
        hop = parts.has_hop ? place_in(hops, hops_words, parts.next_hop) : NO_PLACE;
        if (hop == NO_PLACE)
            return REFUSED(13);
    }
    for (const uint8_t *at = message + 21; at < message + parts.withdrawn_to;) {
        at = take_prefix(at, &prefix, &length);
        refusal = withdraw(t, counters, counters_bytes, slots, slots_words, party, prefix, length);
        accepted += refusal == 0;
        refused += refusal != 0;
        if (under != NULL && refusal != 0)
            under[refusal]++;
    }
    for (const uint8_t *at = message + parts.announced_from; at < message + message_bytes;) {
        at = take_prefix(at, &prefix, &length);
        refusal = add_announced(t, counters, counters_bytes, slots, slots_words, party, prefix, length, hop);
        accepted += refusal == 0;
        refused += refusal != 0;
        if (under != NULL && refusal != 0)
            under[refusal]++;
    }
    return refused << 12 | accepted;
}

uint64_t hand_update(uint32_t k, const uint8_t *d, size_t d_count, uint32_t e, uint32_t s,
                     uint32_t a, uint32_t b, uint32_t c, uint8_t *counters, size_t counters_bytes,
                     uint32_t *slots, size_t slots_words, uint32_t party, const uint8_t *message,
                     size_t message_bytes, const uint32_t *hops, size_t hops_words)
{
    const struct settings t = {k, d, d_count, e, s, a, b, c};
    uint64_t refusal = refuse_party(&t, counters_bytes, slots_words, party);
    if (refusal != 0)
        return REFUSED(refusal);
    return update(&t, counters, counters_bytes, slots, slots_words, party, message, message_bytes, hops, hops_words,
                  NULL);
}

uint64_t hand_write_withdrawal(uint32_t prefix, uint32_t length, uint8_t *room, size_t room_bytes)
{
    if (length > 32)
        return REFUSED(3);
    if (prefix_of(length, prefix) != prefix)
        return REFUSED(4);
    const size_t octets = octets_of(length);
    if (room_bytes != 24 + octets)
        return REFUSED(18);
    const uint8_t header[] = {0, (uint8_t)(24 + octets), 2, 0, (uint8_t)(1 + octets), (uint8_t)length};
    const uint8_t address[] = {(uint8_t)(prefix >> 24), (uint8_t)(prefix >> 16), (uint8_t)(prefix >> 8),
                               (uint8_t)prefix};
    memset(room, 255, 16);
    memcpy(room + 16, header, sizeof header);
    memcpy(room + 22, address, octets);
    memset(room + 22 + octets, 0, 2);
    return 0;
}

enum { HEADER = 12, MOST_BODY = 65536, MOST_CHUNK = 65536 };

/* What records a stream has, and how many counts are kept of them. */
enum stream { DUMP, DAY };

static const size_t counts_of[] = {[DUMP] = 3, [DAY] = 23};

/* Whether a record is read, by its header: the route of a dump is type 13, subtype 2; the message of a day type 16,
   subtype 1 or 4. */
static inline int is_read(enum stream what, const uint8_t *header)
{
    static const uint8_t route[] = {0, 13, 0, 2}, message[] = {0, 16, 0, 1}, as4[] = {0, 16, 0, 4};
    if (what == DUMP)
        return memcmp(header + 4, route, sizeof route) == 0;
    return memcmp(header + 4, as4, sizeof as4) == 0 || memcmp(header + 4, message, sizeof message) == 0;
}

static inline size_t body_size(const uint8_t *header)
{
    return two_bytes(header + 8) << 16 | two_bytes(header + 10);
}

/* Checks the record of a route, and adds it; 0 if it is not well-formed. */
static inline int do_route(const struct settings *t, uint8_t *counters, size_t counters_bytes,
                           uint32_t *slots, size_t slots_words, uint32_t party, const uint32_t *hops,
                           size_t hops_words, uint32_t *counts, const uint8_t *record, size_t size)
{
    const uint8_t *body = record + HEADER, *end = record + size, *at;
    uint32_t prefix, length, hop = NO_PLACE;
    size -= HEADER;
    if (size < 5 || body[4] > 32 || size < 7 + octets_of(body[4]))
        return 0;
    at = take_prefix(body + 4, &prefix, &length);
    size_t entries = two_bytes(at);
    for (at += 2; entries > 0; entries--) {
        struct parts parts = {.has_hop = 0};
        if (end - at < 8)
            return 0;
        size_t attributes = two_bytes(at + 6);
        at += 8;
        if ((size_t)(end - at) < attributes || !attributes_fit(at, at + attributes, &parts))
            return 0;
        if (hop == NO_PLACE && parts.has_hop)
            hop = place_in(hops, hops_words, parts.next_hop);
        at += attributes;
    }
    if (at != end)
        return 0;
    if (hop == NO_PLACE)
        counts[2]++;
    else if (add_announced(t, counters, counters_bytes, slots, slots_words, party, prefix, length, hop) == 0)
        counts[0]++;
    else
        counts[1]++;
    return 1;
}

/* Checks the record of a message, and applies it if it is an UPDATE between addresses of IPv4; 0 if it is too short, or
   its UPDATE not well-formed. The tally is records, UPDATEs, routes accepted, and those refused under each number. */
static inline int do_message(const struct settings *t, uint8_t *counters, size_t counters_bytes,
                             uint32_t *slots, size_t slots_words, uint32_t party, const uint32_t *hops,
                             size_t hops_words, uint32_t *tally, const uint8_t *record, size_t size)
{
    const size_t family = record[7] == 1 ? HEADER + 6 : HEADER + 10, message = family + 10;
    if (size < family + 2)
        return 0;
    if (two_bytes(record + family) == 1) {
        if (size < message + 19)
            return 0;
        if (record[message + 18] == 2) {
            const uint64_t given = update(t, counters, counters_bytes, slots, slots_words, party,
                                          record + message, size - message, hops, hops_words, tally + 3);
            if (given == REFUSED(12))
                return 0;
            if (given != REFUSED(13)) {
                tally[1]++;
                tally[2] += (uint32_t)given & 0xfff;
            }
        }
    }
    tally[0]++;
    return 1;
}

/* Takes the bytes of a chunk in runs. In place a record that lies within the chunk is done where it lies; else each is
   copied into the room first. */
static inline uint64_t take_chunk(enum stream what, const struct settings *t, uint8_t *counters,
                                  size_t counters_bytes, uint32_t *slots, size_t slots_words,
                                  uint32_t party, const uint32_t *hops, size_t hops_words,
                                  uint32_t *counts, uint32_t words[3], uint8_t *room,
                                  const uint8_t *chunk, size_t chunk_bytes, int in_place)
{
    size_t kept = words[1], left = words[2], at = 0;
    uint64_t number;
    if (words[0] != 0)
        return REFUSED((words[0] - 1) & 0xffff);
    if (chunk_bytes > MOST_CHUNK)
        return REFUSED(19);
    for (size_t i = 0; i < counts_of[what]; i++)
        if (counts[i] > 4000000000u)
            return REFUSED(19);
    number = refuse_party(t, counters_bytes, slots_words, party);
    if (number != 0)
        return REFUSED(number);
    if (left == 0 ? kept >= HEADER : kept < HEADER || kept + left > HEADER + MOST_BODY || !is_read(what, room))
        kept = 0;
    while (at < chunk_bytes) {
        size_t more = chunk_bytes - at;
        const uint8_t *record = room;
        if (left == 0) {
            /* A header. */
            if (kept == 0 && more >= HEADER) {
                if (in_place)
                    record = chunk + at;
                else
                    memcpy(room, chunk + at, HEADER);
                at += HEADER;
            } else {
                size_t taken = more < HEADER - kept ? more : HEADER - kept;
                memcpy(room + kept, chunk + at, taken);
                at += taken;
                kept += taken;
                if (kept < HEADER)
                    break;
            }
            kept = HEADER;
            left = body_size(record);
            more = chunk_bytes - at;
            if (!is_read(what, record)) {
                kept = 0;
            } else if (left > MOST_BODY) {
                number = 14;
                break;
            } else if (record != room && left <= more) {
                kept += left;
                at += left;
                left = 0;
            } else if (record != room) {
                memcpy(room, record, HEADER);
                record = room;
            }
        }
        if (kept == 0) {
            /* A record of another kind. */
            size_t stepped = more < left ? more : left;
            at += stepped;
            left -= stepped;
            if (what == DAY && left == 0)
                counts[0]++;
            continue;
        }
        if (left != 0) {
            size_t taken = more < left ? more : left;
            memcpy(room + kept, chunk + at, taken);
            at += taken;
            kept += taken;
            left -= taken;
            if (left != 0)
                break;
        }
        if (!(what == DUMP ? do_route : do_message)(t, counters, counters_bytes, slots, slots_words, party, hops,
                                                    hops_words, counts, record, kept)) {
            number = 12;
            break;
        }
        kept = 0;
    }
    words[0] = number == 0 ? 0 : (uint32_t)number + 1;
    words[1] = number == 0 ? (uint32_t)kept : 0;
    words[2] = number == 0 ? (uint32_t)left : 0;
    return REFUSED(number);
}

#define TAKE_CHUNK(name, what, many, in_place)                                                     \
    uint64_t name(uint32_t k, const uint8_t *d, size_t d_count, uint32_t e, uint32_t s, uint32_t a, \
                  uint32_t b, uint32_t c, uint8_t *counters, size_t counters_bytes, uint32_t *slots, \
                  size_t slots_words, uint32_t party, const uint32_t *hops, size_t hops_words,     \
                  uint32_t counts[many], uint32_t words[3], uint8_t room[65548], const uint8_t *chunk, \
                  size_t chunk_bytes)                                                              \
    {                                                                                              \
        const struct settings t = {k, d, d_count, e, s, a, b, c};                                  \
        return take_chunk(what, &t, counters, counters_bytes, slots, slots_words, party, hops, hops_words, \
                          counts, words, room, chunk, chunk_bytes, in_place);                      \
    }

TAKE_CHUNK(hand_import, DUMP, 3, 0)
TAKE_CHUNK(hand_import_in_place, DUMP, 3, 1)
TAKE_CHUNK(hand_replay, DAY, 23, 0)
TAKE_CHUNK(hand_replay_in_place, DAY, 23, 1)

uint64_t hand_end_stream(uint32_t words[3])
{
    if (words[0] == 0) {
        words[0] = words[2] != 0 || (words[1] > 0 && words[1] < HEADER) ? 18 : 1;
        words[1] = words[2] = 0;
    }
    return REFUSED((words[0] - 1) & 0xffff);
}
