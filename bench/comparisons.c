/* Two tables that hold the same routes but for a few, or with other hops, one beside an empty one, and full ones. All
   routes are party 0's. */
#include "comparisons.h"
#include "measure.h"
#include "mixed.h"

#include <stdio.h>
#include <string.h>

enum { E = 8, S = 8, MOST = GATEWAY_MOST_DIFFERENCES(E, S, E, S), ROUTES = 2000 };
enum { LENGTH = 24, TRIES = 1 << 17, GROWTHS = 4 };

/* A table, with memory for the largest settings, and how many routes it holds. */
struct side {
    struct gateway_table table;
    uint32_t many;
    uint8_t counters[GATEWAY_COUNTERS_BYTES(MOST_D)];
    uint32_t slots[GATEWAY_SLOTS_WORDS(E, S)];
};

static struct side first, second;
static struct gateway_difference by_hand[MOST], by_proof[MOST];

static void clear(struct side *side, struct gateway_settings settings)
{
    const struct gateway_table table = {.settings = settings,
                                        .counters = side->counters,
                                        .counters_bytes = gateway_counters_bytes(settings.d, GATEWAY_LENGTHS),
                                        .slots = side->slots,
                                        .slots_words = gateway_slots_words(settings.e, settings.s)};
    side->table = table;
    side->many = 0;
    check(gateway_table_clear(&side->table) == GATEWAY_OK, "clear");
}

static int add(struct side *side, uint32_t prefix, uint32_t length, uint32_t hop)
{
    const int took = gateway_table_add(&side->table, prefix, length, hop) == GATEWAY_OK;
    side->many += (uint32_t)took;
    return took;
}

static void withdraw(struct side *side, uint32_t prefix, uint32_t length)
{
    check(gateway_table_withdraw(&side->table, prefix, length) == GATEWAY_OK, "a withdrawal");
    side->many--;
}

/* Empties both. Their settings differ in all but E and S. */
static void clear_both(uint32_t e)
{
    const struct gateway_settings one = {2, GATEWAY_EQUAL(11), e, S, GATEWAY_GOOD_A, GATEWAY_GOOD_B, GATEWAY_GOOD_C};
    const struct gateway_settings other = {3, GATEWAY_EQUAL(10), e, S, GATEWAY_GOOD_B, GATEWAY_GOOD_C, GATEWAY_GOOD_A};
    clear(&first, one);
    clear(&second, other);
}

static uint32_t random_prefix(uint32_t length)
{
    return random_word() & 0xffffffffu << (32 - length);
}

/* So many routes that both tables take, spread over the lengths. At so many of them the tables differ: by turns the
   second has another hop, the first alone has the route, and the second alone has it; or all have another hop. */
static void fill_both(uint32_t e, uint32_t routes, uint32_t differences)
{
    static uint64_t drawn[ROUTES];
    clear_both(e);
    random_state = routes;
    for (uint32_t i = 0; i < routes;) {
        const uint32_t length = random_length(), prefix = random_prefix(length), hop = random_below(65535);
        const uint32_t turn = differences == routes ? 0 : i < differences ? i % 3 : 3;
        uint32_t before = 0;
        drawn[i] = (uint64_t)length << 32 | prefix;
        while (drawn[before] != drawn[i])
            before++;
        if (before < i || !add(&first, prefix, length, hop))
            continue;
        if (!add(&second, prefix, length, turn == 0 ? hop + 1 : hop)) {
            withdraw(&first, prefix, length);
            continue;
        }
        if (turn == 1 || turn == 2)
            withdraw(turn == 1 ? &second : &first, prefix, length);
        i++;
    }
}

/* Adds so many routes of a length, or as many as its prefixes find room for: all of them are tried where they are
   few. */
static void fill_length(struct side *side, uint32_t length, uint32_t routes)
{
    const uint64_t prefixes = (uint64_t)1 << length;
    for (uint32_t i = 0, many = 0; i < TRIES && i < prefixes && many < routes; i++) {
        const uint32_t prefix = prefixes <= TRIES ? i << (32 - length) : random_prefix(length);
        if (gateway_table_change(&side->table, prefix, length, random_below(65536)) == GATEWAY_NOT_STORED)
            many += (uint32_t)add(side, prefix, length, random_below(65536));
    }
}

/* Keeps the best nanoseconds of a comparison so far. */
static uint64_t compare(double *best, const struct calls *calls, struct gateway_difference list[MOST])
{
    const struct gateway_table *const one = &first.table, *const other = &second.table;
    const struct gateway_settings *const t = &one->settings, *const u = &other->settings;
    const double start = nanoseconds();
    const uint64_t number = calls->list_differences(
        t->k, t->d, GATEWAY_LENGTHS, t->e, t->s, t->a, t->b, t->c, one->counters, one->counters_bytes,
        (const uint8_t *)one->slots, 4 * one->slots_words, u->k, u->d, GATEWAY_LENGTHS, u->e, u->s, u->a, u->b, u->c,
        other->counters, other->counters_bytes, (const uint8_t *)other->slots, 4 * other->slots_words, 0,
        (uint8_t *)list, MOST * sizeof *list);
    keep_least(best, nanoseconds() - start);
    return number;
}

/* What a comparison takes in microseconds, by hand and proved; answers how many differences there are. */
static uint32_t compare_each(const struct calls *hand, const struct calls *proved, double us[2])
{
    uint64_t count = 0;
    us[0] = us[1] = 0;
    for (int round = 0; round < ROUNDS; round++) {
        memset(by_hand, 0xa5, sizeof by_hand);
        memset(by_proof, 0xa5, sizeof by_proof);
        count = compare(&us[0], hand, by_hand);
        check(compare(&us[1], proved, by_proof) == count && gateway_refusal(count) == GATEWAY_OK &&
                  memcmp(by_hand, by_proof, sizeof by_proof) == 0,
              "a comparison");
    }
    us[0] /= 1e3;
    us[1] /= 1e3;
    return gateway_count(count);
}

static void print_comparison(const struct calls *hand, const struct calls *proved, const char *what)
{
    double us[2];
    const uint32_t count = compare_each(hand, proved, us);
    printf("%-19s  %6u  %6u  %u %u  %11u  %9.1f  %9.1f  %6.2f\n", what, (unsigned)first.many, (unsigned)second.many,
           (unsigned)first.table.settings.e, (unsigned)first.table.settings.s, (unsigned)count, us[0], us[1],
           us[1] / us[0]);
    fflush(stdout);
}

/* So many routes of one length in the first table, and none in the second. */
static void fill_growth(uint32_t e, uint32_t routes)
{
    clear_both(e);
    random_state = routes;
    fill_length(&first, LENGTH, routes);
    check(first.many == routes, "routes of one length");
}

void measure_comparisons(const struct calls *hand, const struct calls *proved)
{
    printf("\nmicroseconds to a comparison of two tables, best of %d rounds; first, second: so many routes each has\n",
           ROUNDS);
    printf("hand: in C, which collects the routes of each table in memory of its own, sorts them and merges the two\n");
    printf("proved: keeps nothing; for each route all slots of its length are gone through, to count and to write\n");
    printf("E, S: of both tables, whose other settings differ; ratio: the proved time over hand's\n\n");
    printf("%19s   first  second  E S  differences    hand us  proved us   ratio\n", "");
    clear_both(E);
    print_comparison(hand, proved, "both empty");
    fill_both(7, 90, 10);
    print_comparison(hand, proved, "ten differences");
    fill_both(E, ROUTES, 0);
    print_comparison(hand, proved, "the same routes");
    fill_both(E, ROUTES, 10);
    print_comparison(hand, proved, "ten differences");
    fill_both(E, ROUTES, ROUTES);
    print_comparison(hand, proved, "all with other hops");
    clear(&second, second.table.settings);
    print_comparison(hand, proved, "the second is empty");
    clear_both(E);
    random_state = 1;
    for (uint32_t length = 1; length <= GATEWAY_LENGTHS; length++) {
        fill_length(&first, length, S << E);
        fill_length(&second, length, S << E);
    }
    print_comparison(hand, proved, "full to the brim");

    printf("\nhow this grows: so many routes of length %d, and an empty second table, where a length has just slots\n",
           LENGTH);
    printf("enough, and where it has the most there are; grows: the proved time over that of the line above\n\n");
    printf("routes  slots    hand us  proved us   ratio  grows  slots    hand us  proved us   ratio  grows\n");
    double before[2] = {0, 0};
    for (uint32_t i = 0; i < GROWTHS; i++) {
        const uint32_t routes = 250u << i, es[2] = {E - GROWTHS + 1 + i, E};
        printf("%6u", (unsigned)routes);
        for (int j = 0; j < 2; j++) {
            double us[2];
            fill_growth(es[j], routes);
            compare_each(hand, proved, us);
            printf("  %5u  %9.1f  %9.1f  %6.2f", (unsigned)S << es[j], us[0], us[1], us[1] / us[0]);
            if (before[j] == 0)
                printf("  %5s", "");
            else
                printf("  %5.2f", us[1] / before[j]);
            before[j] = us[1];
        }
        printf("\n");
        fflush(stdout);
    }
}
