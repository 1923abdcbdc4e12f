/*
 * Measures how many routes a table takes under which settings, and how many probes a lookup costs.
 * The tables that it prints are those of docs/SETTINGS.md.
 *
 *     settings [SEED]
 *
 * The rules are modelled here once more, as plainly as C allows and without the library. A length has
 * a filter of its own size and buckets of its own, so a table is modelled by the lengths that have routes.
 */
#include "mixed.h"
#include "random.h"

#include <stdint.h>
#include <stdio.h>
#include <stdlib.h>
#include <string.h>

enum { MOST_COUNTERS = 2048, MOST_BUCKETS = 256, MOST_SLOTS = 8 };

/* The d of all lengths, where they have the same. */
struct settings {
    uint32_t k, d, e, s, a, b, c;
};

/* A length: its filter of 2^d counters, and its buckets with how many of their slots are occupied. */
struct row {
    uint32_t length, d;
    uint8_t counters[MOST_COUNTERS];
    uint32_t occupied[MOST_BUCKETS];
    uint32_t prefixes[MOST_BUCKETS][MOST_SLOTS];
};

enum { ACCEPTED = 0, BUCKET_FULL = 8, COUNTER_FULL = 9 };

/* The multipliers that gateway.h offers. */
#define GOOD 0xc2b2ae3d, 0x85ebca77, 0x9e3779b1

/* ---- the rules, for lengths from 1 up */

static uint32_t prefix_of(uint32_t address, uint32_t length)
{
    return address & 0xffffffffu << (32 - length);
}

static uint32_t bucket_of(const struct settings *t, uint32_t prefix)
{
    return t->e == 0 ? 0 : t->c * prefix >> (32 - t->e);
}

static void clear(struct row *row, uint32_t length, uint32_t d)
{
    row->length = length;
    row->d = d;
    memset(row->counters, 0, sizeof row->counters);
    memset(row->occupied, 0, sizeof row->occupied);
}

static int holds(const struct settings *t, const struct row *row, uint32_t prefix)
{
    uint32_t bucket = bucket_of(t, prefix);
    for (uint32_t s = 0; s < row->occupied[bucket]; s++)
        if (row->prefixes[bucket][s] == prefix)
            return 1;
    return 0;
}

static int claims(const struct settings *t, const struct row *row, uint32_t prefix)
{
    uint32_t g = t->a * prefix;
    for (uint32_t i = 0; i < t->k; i++, g += t->b * prefix)
        if (row->counters[g >> (32 - row->d)] == 0)
            return 0;
    return 1;
}

/* Moves each of the prefix's counters, as often as it is hit; whether none of them is above 15 then. */
static int move_counters(const struct settings *t, struct row *row, uint32_t prefix, int by)
{
    int within = 1;
    uint32_t g = t->a * prefix;
    for (uint32_t i = 0; i < t->k; i++, g += t->b * prefix) {
        uint8_t *counter = &row->counters[g >> (32 - row->d)];
        *counter = (uint8_t)(*counter + by);
        within = within && *counter <= 15;
    }
    return within;
}

/* Adds a prefix that is not stored. */
static uint32_t add(const struct settings *t, struct row *row, uint32_t prefix)
{
    uint32_t bucket = bucket_of(t, prefix);
    if (row->occupied[bucket] == t->s)
        return BUCKET_FULL;
    if (!move_counters(t, row, prefix, 1)) {
        move_counters(t, row, prefix, -1);
        return COUNTER_FULL;
    }
    row->prefixes[bucket][row->occupied[bucket]++] = prefix;
    return ACCEPTED;
}

/* ---- random tables */

/* Adds a random prefix that is not stored. */
static uint32_t add_random(const struct settings *t, struct row *row, uint32_t *prefix)
{
    do
        *prefix = prefix_of(random_word(), row->length);
    while (holds(t, row, *prefix));
    return add(t, row, *prefix);
}

/* How many random routes a cleared length takes, up to most, before it refuses one. */
static uint32_t fill(const struct settings *t, struct row *row, uint32_t length, uint32_t most)
{
    uint32_t routes = 0, prefix;
    clear(row, length, t->d);
    while (routes < most && add_random(t, row, &prefix) == ACCEPTED)
        routes++;
    return routes;
}

/* How many of so many random tables take so many routes at length 24. */
static uint32_t taken(const struct settings *t, uint32_t routes, uint32_t tables)
{
    static struct row row;
    uint32_t whole = 0;
    for (uint32_t i = 0; i < tables; i++)
        whole += fill(t, &row, 24, routes) == routes;
    return whole;
}

/* The lengths in use where probes are counted, longest first. */
static const uint32_t in_use[] = {28, 24, 20, 16};

enum { IN_USE = sizeof in_use / sizeof in_use[0] };

/* An address within a stored route of a length. */
static uint32_t random_address(const struct row *row)
{
    uint32_t bucket;
    do
        bucket = random_below(MOST_BUCKETS);
    while (row->occupied[bucket] == 0);
    uint32_t prefix = row->prefixes[bucket][random_below(row->occupied[bucket])];
    return prefix | random_word() >> row->length;
}

/* The probes of a lookup where so many lengths are in use, longest first. */
static uint32_t probes_of(const struct settings *t, const struct row *rows, size_t lengths, uint32_t address)
{
    uint32_t probes = 0;
    for (size_t i = 0; i < lengths; i++) {
        uint32_t prefix = prefix_of(address, rows[i].length);
        probes += (uint32_t)claims(t, &rows[i], prefix);
        if (holds(t, &rows[i], prefix))
            break;
    }
    return probes;
}

/* The average probes where each length in use has so many routes; 0 if no table takes them. */
static double average_probes(const struct settings *t, uint32_t routes)
{
    enum { TABLES = 100, TRIES = 1000, ADDRESSES = 500 };
    static struct row rows[IN_USE];
    uint64_t probes = 0, asked = 0;
    for (uint32_t i = 0; i < TRIES && asked < TABLES * ADDRESSES; i++) {
        size_t full = 0;
        while (full < IN_USE && fill(t, &rows[full], in_use[full], routes) == routes)
            full++;
        for (uint32_t j = 0; full == IN_USE && j < ADDRESSES; j++, asked++)
            probes += probes_of(t, rows, IN_USE, random_address(&rows[random_below(IN_USE)]));
    }
    return asked == 0 ? 0 : (double)probes / (double)asked;
}

/* ---- mixed tables */

/* The lengths that mixed routes have, longest first, with an address within each route that is stored. */
enum { LONGEST = 24, SHORTEST = 8, MIXED = LONGEST - SHORTEST + 1, MOST_MIXED = 5000, NUMBERS = COUNTER_FULL + 1 };

struct mixed {
    struct row rows[MIXED];
    uint32_t stored, addresses[MOST_MIXED];
};

/* Adds so many mixed routes to a cleared table, keeps an address within each that is stored, and counts the
   numbers that the adds give. */
static void fill_mixed(const struct settings *t, const uint8_t d[LENGTHS], uint32_t routes, struct mixed *mixed,
                       uint32_t numbers[NUMBERS])
{
    mixed->stored = 0;
    for (uint32_t i = 0; i < MIXED; i++)
        clear(&mixed->rows[i], LONGEST - i, d[LONGEST - i - 1]);
    for (uint32_t i = 0; i < routes; i++) {
        uint32_t length = random_length(), prefix;
        struct row *row = &mixed->rows[LONGEST - length];
        uint32_t number = add_random(t, row, &prefix);
        numbers[number]++;
        if (number == ACCEPTED)
            mixed->addresses[mixed->stored++] = prefix | random_word() >> length;
    }
}

/* What is measured of tables of mixed routes, on average: how many they refuse, by numbers, and the probes of
   addresses within a route and of any addresses. */
struct figures {
    double refused[NUMBERS], within, any;
};

static struct figures measure_mixed(const struct settings *t, const uint8_t d[LENGTHS], uint32_t routes)
{
    enum { TABLES = 400 };
    static struct mixed mixed;
    uint32_t numbers[NUMBERS] = {0};
    uint64_t within = 0, any = 0;
    for (uint32_t i = 0; i < TABLES; i++) {
        fill_mixed(t, d, routes, &mixed, numbers);
        for (uint32_t j = 0; j < mixed.stored; j++) {
            within += probes_of(t, mixed.rows, MIXED, mixed.addresses[j]);
            any += probes_of(t, mixed.rows, MIXED, random_word());
        }
    }
    struct figures figures;
    for (size_t i = 0; i < NUMBERS; i++)
        figures.refused[i] = (double)numbers[i] / TABLES;
    figures.within = (double)within / numbers[ACCEPTED];
    figures.any = (double)any / numbers[ACCEPTED];
    return figures;
}

/* ---- what is printed */

static uint32_t counters_bytes(const struct settings *t)
{
    return (uint32_t)LENGTHS << t->d;
}

static uint32_t listed_counters_bytes(const uint8_t d[LENGTHS])
{
    uint32_t sum = 0;
    for (size_t i = 0; i < LENGTHS; i++)
        sum += (uint32_t)1 << d[i];
    return sum;
}

static uint32_t slots_bytes(const struct settings *t)
{
    return 4 * (((uint32_t)64 << t->e) * t->s + 2);
}

static void print_number(uint32_t number)
{
    if (number < 1000)
        printf(" %7u |", (unsigned)number);
    else
        printf(" %3u,%03u |", (unsigned)(number / 1000), (unsigned)(number % 1000));
}

/* A share in percent: all and none only where not one table was otherwise. */
static void print_share(uint32_t part, uint32_t of)
{
    double percent = 100.0 * part / of;
    if (part == of || part == 0)
        printf(" %7s |", part == 0 ? "none" : "all");
    else if (percent < 0.1 || percent > 99.9)
        printf(" %7s |", percent < 0.1 ? "< 0.1%" : "> 99.9%");
    else
        printf(" %6.1f%% |", percent);
}

static void print_probes(double probes)
{
    if (probes == 0)
        printf(" %7s |", "9");
    else
        printf(" %7.2f |", probes);
}

/* A table's head: columns of names, then of numbers. */
static void print_head(const char *const *names, size_t many, const uint32_t *numbers, size_t more)
{
    printf("\n|");
    for (size_t i = 0; i < many; i++)
        printf(" %s |", names[i]);
    for (size_t i = 0; i < more; i++)
        print_number(numbers[i]);
    printf("\n|");
    for (size_t i = 0; i < many + more; i++)
        printf("---|");
    printf("\n");
}

#define MANY(list) (sizeof(list) / sizeof(list)[0])

enum { TABLES = 4000, MORE_TABLES = 40000 };

static const uint32_t few[] = {10, 30, 90, 200, 300, 500}, many[] = {10, 30, 90, 200, 300, 500, 700, 1000};

static void print_ready(void)
{
    static const char *const names[] = {"routes", "K", "D", "E", "S", "bytes", "take all", "probes"};
    static const struct {
        uint32_t routes;
        struct settings t;
    } ready[] = {
        {10, {4, 7, 3, 8, GOOD}},  {30, {4, 8, 5, 8, GOOD}},   {90, {4, 9, 6, 8, GOOD}},
        {90, {4, 10, 7, 8, GOOD}}, {200, {4, 11, 8, 8, GOOD}}, {300, {4, 11, 8, 8, GOOD}},
        {500, {3, 11, 8, 8, GOOD}},
    };
    print_head(names, MANY(names), NULL, 0);
    for (size_t i = 0; i < MANY(ready); i++) {
        const struct settings *t = &ready[i].t;
        printf("|");
        print_number(ready[i].routes);
        printf(" %u | %u | %u | %u |", (unsigned)t->k, (unsigned)t->d, (unsigned)t->e, (unsigned)t->s);
        print_number(counters_bytes(t) + slots_bytes(t));
        print_share(taken(t, ready[i].routes, MORE_TABLES), MORE_TABLES);
        print_probes(average_probes(t, ready[i].routes));
        printf("\n");
    }
}

/* The filters are the largest here, so that a refusal is 8. */
static void print_buckets(void)
{
    static const char *const names[] = {"E", "S", "bytes"};
    static const uint32_t slots[] = {2, 4, 6, 8};
    print_head(names, MANY(names), many, MANY(many));
    for (uint32_t e = 2; e <= 8; e++)
        for (size_t i = 0; i < MANY(slots); i++) {
            const struct settings t = {4, 11, e, slots[i], GOOD};
            printf("| %u | %u |", (unsigned)t.e, (unsigned)t.s);
            print_number(slots_bytes(&t));
            for (size_t j = 0; j < MANY(many); j++)
                print_share(taken(&t, many[j], TABLES), TABLES);
            printf("\n");
        }
}

/* The buckets are the largest here, so that a refusal is 9. */
static void print_filters(void)
{
    static const char *const names[] = {"D", "K", "bytes"};
    static const uint32_t steps[] = {1, 2, 4, 8};
    print_head(names, MANY(names), few, MANY(few));
    for (uint32_t d = 6; d <= 11; d++)
        for (size_t i = 0; i < MANY(steps); i++) {
            const struct settings t = {steps[i], d, 8, 8, GOOD};
            printf("| %u | %u |", (unsigned)t.d, (unsigned)t.k);
            print_number(counters_bytes(&t));
            for (size_t j = 0; j < MANY(few); j++)
                print_probes(average_probes(&t, few[j]));
            printf("\n");
        }
}

/* ---- a D for each length */

enum { SHOWN_ROUTES = 2000 };

/* The last of the lengths, one after the other, that have as many of the mixed routes as one. */
static uint32_t last_alike(uint32_t from)
{
    uint32_t last = from;
    while (last < LENGTHS && per_thousand[last + 1] == per_thousand[from])
        last++;
    return last;
}

/* A column for lengths that have as many routes. */
#define EACH_COLUMN(from, last)                                                                    \
    for (uint32_t from = 1, last = last_alike(from); from <= LENGTHS; from = last + 1, last = last_alike(from))

static void print_list(void)
{
    uint32_t columns = 1;
    printf("\n| length |");
    EACH_COLUMN (from, last) {
        columns++;
        printf(from == last ? " %u |" : " %u to %u |", (unsigned)from, (unsigned)last);
    }
    printf("\n|");
    for (uint32_t i = 0; i < columns; i++)
        printf("---|");
    printf("\n| routes |");
    EACH_COLUMN (from, last)
        print_number(routes_of(from, SHOWN_ROUTES));
    printf("\n| D |");
    EACH_COLUMN (from, last)
        print_number(smallest_d(routes_of(from, SHOWN_ROUTES), GOOD_COUNTERS));
    printf("\n");
}

/* How the list is chosen is said by a number and words. */
static void print_mixed(uint32_t routes, const struct settings *t, const uint8_t d[LENGTHS], uint32_t number,
                        const char *words)
{
    char chosen[32];
    struct figures figures = measure_mixed(t, d, routes);
    snprintf(chosen, sizeof chosen, "%u %s", (unsigned)number, words);
    printf("|");
    print_number(routes);
    printf(" %u | %u | %u | %-10s |", (unsigned)t->k, (unsigned)t->e, (unsigned)t->s, chosen);
    print_number(listed_counters_bytes(d));
    print_number(listed_counters_bytes(d) + slots_bytes(t));
    printf(" %7.1f | %7.1f | %7.2f | %7.2f |\n", figures.refused[BUCKET_FULL], figures.refused[COUNTER_FULL],
           figures.within, figures.any);
}

static void print_lists(void)
{
    static const char *const names[] = {"routes", "K", "E", "S", "D", "counters", "bytes", "refused 8",
                                        "refused 9", "probes", "any"};
    static const struct {
        uint32_t routes;
        struct settings t;
    } tables[] = {{90, {4, 0, 7, 8, GOOD}}, {300, {4, 0, 8, 8, GOOD}}, {SHOWN_ROUTES, {2, 0, 8, 8, GOOD}}};
    static const uint8_t equal[] = {11, 8}, counters[] = {4, 8, GOOD_COUNTERS, 32};
    uint8_t d[LENGTHS];
    print_head(names, MANY(names), NULL, 0);
    for (size_t i = 0; i < MANY(tables); i++) {
        for (size_t j = 0; j < MANY(equal); j++) {
            memset(d, equal[j], sizeof d);
            print_mixed(tables[i].routes, &tables[i].t, d, equal[j], "for all");
        }
        for (size_t j = 0; j < MANY(counters); j++) {
            choose_filters(d, tables[i].routes, counters[j]);
            print_mixed(tables[i].routes, &tables[i].t, d, counters[j], "a route");
        }
    }
}

/* ---- routes that follow a plan */

enum { BRANCHES = 90 };

/* How many of ninety routes are stored: rows of so many, and so many /length apart, from a base on. */
static uint32_t planned(const struct settings *t, uint32_t base, uint32_t length, uint32_t in_row, uint32_t apart)
{
    static struct row row;
    uint32_t stored = 0;
    clear(&row, length, t->d);
    for (uint32_t i = 0; i < BRANCHES; i++)
        stored += add(t, &row, base + ((i / in_row * apart + i % in_row) << (32 - length))) == ACCEPTED;
    return stored;
}

/* How many plans of a list of regular ones are stored whole, and how many there are. */
static uint32_t planned_whole(const struct settings *t, uint32_t *plans)
{
    static const uint32_t bases[] = {0x0a000000, 0xac100000, 0xc0a80000, 0},
                          lengths[] = {16, 20, 22, 24, 26, 28, 30, 32}, in_rows[] = {1, 3, 9, 10, 30},
                          aparts[] = {1, 2, 3, 4, 5, 8, 10, 16, 32, 64, 100, 128, 256, 1024, 65536};
    uint32_t whole = 0;
    *plans = 0;
    for (size_t b = 0; b < MANY(bases); b++)
        for (size_t l = 0; l < MANY(lengths); l++)
            for (size_t r = 0; r < MANY(in_rows); r++)
                for (size_t a = 0; a < MANY(aparts); a++) {
                    uint64_t span = (uint64_t)(BRANCHES / in_rows[r]) * aparts[a] << (32 - lengths[l]);
                    if (aparts[a] < in_rows[r] || span > (uint64_t)1 << 32)
                        continue;
                    ++*plans;
                    whole += planned(t, bases[b], lengths[l], in_rows[r], aparts[a]) == BRANCHES;
                }
    return whole;
}

static void print_multipliers(void)
{
    static const char *const names[] = {"A", "B", "C", "E", "10.0.y.0/24", "10.x.y.0/24", "10.x.0.0/16", "plans"};
    static const struct settings tried[] = {
        {4, 11, 8, 8, 1, 2, 1},
        {4, 11, 8, 8, 0, 0, 0},
        {4, 11, 8, 8, 0x9e370000, 0x85eb0000, 0xc2b20000},
        {4, 11, 8, 8, 1000003, 1000033, 1000037},
        {4, 10, 7, 8, GOOD},
    };
    print_head(names, MANY(names), NULL, 0);
    for (size_t i = 0; i < MANY(tried); i++) {
        const struct settings *t = &tried[i];
        uint32_t plans, whole = planned_whole(t, &plans);
        printf("| 0x%08x | 0x%08x | 0x%08x | %u |", (unsigned)t->a, (unsigned)t->b, (unsigned)t->c, (unsigned)t->e);
        print_number(planned(t, 0x0a000000, 24, BRANCHES, BRANCHES));
        print_number(planned(t, 0x0a000000, 24, 10, 256));
        print_number(planned(t, 0x0a000000, 16, BRANCHES, BRANCHES));
        printf(" %u of %u |\n", (unsigned)whole, (unsigned)plans);
    }
}

/* ---- where it ends */

struct spread {
    uint32_t runs, least, most;
    uint64_t sum;
};

static void note(struct spread *spread, uint32_t number)
{
    spread->least = spread->runs == 0 || number < spread->least ? number : spread->least;
    spread->most = number > spread->most ? number : spread->most;
    spread->sum += number;
    spread->runs++;
}

static void print_spread(const char *what, const struct spread *spread)
{
    printf("| %s |", what);
    print_number(spread->runs);
    print_number(spread->least);
    print_number((uint32_t)((spread->sum + spread->runs / 2) / spread->runs));
    print_number(spread->most);
    printf("\n");
}

static void print_end(void)
{
    static const char *const names[] = {"with the largest settings", "runs", "least", "average", "most"};
    static const struct {
        uint32_t routes;
        const char *what;
    } offered[] = {{1000, "of 1,000 mixed routes refused"},
                   {2000, "of 2,000 mixed routes refused"},
                   {MOST_MIXED, "of 5,000 mixed routes refused"}};
    const struct settings largest = {2, 11, 8, 8, GOOD};
    static struct row row;
    static struct mixed mixed;
    uint8_t d[LENGTHS];
    struct spread first = {0, 0, 0, 0};
    memset(d, (int)largest.d, sizeof d);
    print_head(names, MANY(names), NULL, 0);
    for (uint32_t i = 0; i < TABLES; i++)
        note(&first, fill(&largest, &row, 24, MOST_BUCKETS * MOST_SLOTS));
    print_spread("routes of one length before its first refusal", &first);
    for (size_t i = 0; i < MANY(offered); i++) {
        struct spread refused = {0, 0, 0, 0};
        for (uint32_t j = 0; j < TABLES / 10; j++) {
            uint32_t numbers[NUMBERS] = {0};
            fill_mixed(&largest, d, offered[i].routes, &mixed, numbers);
            note(&refused, offered[i].routes - mixed.stored);
        }
        print_spread(offered[i].what, &refused);
    }
}

int main(int argc, char **argv)
{
    char *end = NULL;
    unsigned long long seed = argc == 2 ? strtoull(argv[1], &end, 10) : 1;
    if (argc > 2 || (argc == 2 && (end == argv[1] || *end != '\0' || argv[1][0] == '-'))) {
        fprintf(stderr, "usage: settings [SEED]\n");
        return 2;
    }
    random_state = seed;
    printf("seed %llu\n", seed);
    print_ready();
    print_buckets();
    print_filters();
    print_list();
    print_lists();
    print_multipliers();
    print_end();
    return fflush(stdout) != 0 || ferror(stdout);
}
