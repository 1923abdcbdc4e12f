/*
 * Measures the library beside that of an earlier commit: the same calls on the same tables, in turns within one
 * run. The earlier one's functions are called before_lookup and so on, this one's now_lookup. Every answer of
 * the two is compared, and after updates every byte. Who goes first changes from round to round, and who has
 * which memory. Messages, imports and replays are left out where the earlier library does not have them, and so are
 * tables with a D for each length. It is told whether the earlier one takes one D for all lengths, a list of D, or a
 * list and a party. All calls are party 0's.
 *
 *     before NAME one-d|list|parties
 */
#include "measure.h"

#include <stdio.h>
#include <string.h>

#define LIBRARY(word)                                                                              \
    extern __typeof__(gateway_clear) word##_clear;                                                 \
    extern __typeof__(gateway_add) word##_add;                                                     \
    extern __typeof__(gateway_withdraw) word##_withdraw;                                           \
    extern __typeof__(gateway_change) word##_change;                                               \
    extern __typeof__(gateway_lookup) word##_lookup;                                               \
    extern __typeof__(gateway_match_vector) word##_match_vector;                                   \
    extern __typeof__(gateway_lookup_list) word##_lookup_list;                                     \
    extern __typeof__(gateway_list_differences) word##_list_differences __attribute__((weak));     \
    extern __typeof__(gateway_update) word##_update __attribute__((weak));                         \
    extern __typeof__(gateway_write_withdrawal) word##_write_withdrawal __attribute__((weak));     \
    extern __typeof__(gateway_import) word##_import __attribute__((weak));                         \
    extern __typeof__(gateway_replay) word##_replay __attribute__((weak));                         \
    extern __typeof__(gateway_end_stream) word##_end_stream __attribute__((weak));                 \
    static struct calls word = CALLS_OF(word)

LIBRARY(before);
LIBRARY(now);

enum { BOTH = 2 };

/* Both in turns within a round: i counts them, one is which. */
#define IN_TURNS(i, one) for (int i = 0, one = round % BOTH; i < BOTH; i++, one = !one)

static struct calls *const libraries[BOTH] = {&before, &now};
static answers given[BOTH];
static results listed[BOTH];

static void print_times(const struct table *t, uint32_t many, const char *what, const double ns[BOTH])
{
    print_table(t, many);
    printf("  %-22s  %9.1f  %6.1f  %5.2f\n", what, ns[0], ns[1], ns[1] / ns[0]);
}

static void check_answers(size_t many, const char *what)
{
    check(memcmp(given[0], given[1], many * sizeof given[0][0]) == 0, what);
}

static void measure_questions(const struct table *t)
{
    struct memory memory[BOTH] = {lend_table(t), lend_table(t)};
    uint32_t many = fill(t, &before, &memory[0], &now, &memory[1]);

    double lookup[BOTH] = {0}, vector[BOTH] = {0}, short_list[BOTH] = {0}, long_list[BOTH] = {0};
    for (int round = 0; round < ROUNDS; round++) {
        const struct memory *m = &memory[round % BOTH];
        IN_TURNS (i, one)
            ask_vectors(&vector[one], t, m, libraries[one], given[one]);
        check_answers(ADDRESSES, "a match vector");
        IN_TURNS (i, one)
            ask_each(&lookup[one], t, m, libraries[one], libraries[one]->lookup, given[one]);
        check_answers(ADDRESSES, "a lookup");
        IN_TURNS (i, one)
            ask_lists(&short_list[one], t, m, libraries[one], SHORT_LIST, listed[one]);
        check_results(listed[0], given[0]);
        check_results(listed[1], given[0]);
        IN_TURNS (i, one)
            ask_lists(&long_list[one], t, m, libraries[one], LONG_LIST, listed[one]);
        check_results(listed[0], given[0]);
        check_results(listed[1], given[0]);
    }
    print_times(t, many, "lookup", lookup);
    print_times(t, many, "match vector", vector);
    print_times(t, many, "short list", short_list);
    print_times(t, many, "long list", long_list);
    take_back(&memory[0]);
    take_back(&memory[1]);
}

static void measure_updates(const struct table *t)
{
    struct memory memory[BOTH] = {lend_table(t), lend_table(t)};
    uint32_t many = fill(t, &before, &memory[0], &now, &memory[1]);

    double again[BOTH] = {0}, replaced[BOTH] = {0};
    for (int round = 0; round < ROUNDS; round++) {
        IN_TURNS (i, one)
            withdraw_and_add(&again[one], t, &memory[i], libraries[one], given[one]);
        check_answers(2 * TURNS, "an update");
        IN_TURNS (i, one)
            replace(&replaced[one], t, &memory[i], libraries[one], given[one]);
        check_answers(TURNS, "an update");
        check_memory(&memory[0], &memory[1]);
    }
    print_times(t, many, "withdrawn, added again", again);
    print_times(t, many, "replaced", replaced);
    take_back(&memory[0]);
    take_back(&memory[1]);
}

static void measure_messages(const struct table *t)
{
    struct memory memory[BOTH] = {lend_table(t), lend_table(t)};
    uint32_t many = fill(t, &before, &memory[0], &now, &memory[1]);
    choose_told(t, &before, &memory[0], &now, &memory[1]);

    for (int i = 0; i < SIZES; i++) {
        size_t messages = make_messages(message_routes[i]);
        double ns[BOTH][TELLINGS] = {{0}};
        for (int round = 0; round < ROUNDS; round++) {
            IN_TURNS (turn, one)
                tell_each(ns[one], t, &memory[turn], libraries[one], given[one]);
            check_answers(TELLINGS * TIMES_TOLD * messages, "a message");
            check_memory(&memory[0], &memory[1]);
        }
        char what[32];
        snprintf(what, sizeof what, "announced, %u each", (unsigned)message_routes[i]);
        print_times(t, many, what, (const double[BOTH]){ns[0][ANNOUNCED], ns[1][ANNOUNCED]});
        snprintf(what, sizeof what, "withdrawn, %u each", (unsigned)message_routes[i]);
        print_times(t, many, what, (const double[BOTH]){ns[0][WITHDRAWN], ns[1][WITHDRAWN]});
    }
    take_back(&memory[0]);
    take_back(&memory[1]);
}

static void measure_imports(const struct table *t)
{
    struct memory memory[BOTH] = {lend_table(t), lend_table(t)};
    const uint32_t many = fill(t, &before, &memory[0], &now, &memory[1]);

    for (int i = 0; i < DUMPS; i++) {
        make_dump(t, record_entries[i]);
        for (int j = 0; j < CHUNKS; j++) {
            struct gateway_counts counts[BOTH];
            double ns[BOTH] = {0};
            for (int round = 0; round < ROUNDS; round++) {
                IN_TURNS (turn, one)
                    import_each(&ns[one], t, &memory[turn], libraries[one], libraries[one]->import, chunk_bytes[j],
                                &counts[one]);
                check_counts(&counts[0], &counts[1]);
                check_memory(&memory[0], &memory[1]);
            }
            char what[32];
            snprintf(what, sizeof what, "imported, %u, %u", (unsigned)record_entries[i], (unsigned)chunk_bytes[j]);
            print_times(t, many, what, (const double[BOTH]){ns[0] / t->routes, ns[1] / t->routes});
        }
    }
    take_back(&memory[0]);
    take_back(&memory[1]);
}

static void measure_replays(const struct table *t)
{
    struct memory memory[BOTH] = {lend_table(t), lend_table(t)};
    const uint32_t many = fill(t, &before, &memory[0], &now, &memory[1]);
    choose_told(t, &before, &memory[0], &now, &memory[1]);

    for (int i = 0; i < DAYS; i++) {
        make_day(day_routes[i]);
        for (int j = 0; j < CHUNKS; j++) {
            double ns[BOTH] = {0};
            for (int round = 0; round < ROUNDS; round++) {
                IN_TURNS (turn, one)
                    replay_each(&ns[one], t, &memory[turn], libraries[one], libraries[one]->replay, chunk_bytes[j]);
                check_memory(&memory[0], &memory[1]);
            }
            char what[32];
            snprintf(what, sizeof what, "replayed, %u, %u", (unsigned)day_routes[i], (unsigned)chunk_bytes[j]);
            print_times(t, many, what, (const double[BOTH]){ns[0] / DAY_ROUTES, ns[1] / DAY_ROUTES});
        }
    }
    take_back(&memory[0]);
    take_back(&memory[1]);
}

static void measure(void (*each)(const struct table *), const struct table *tables, int many)
{
    for (int i = 0; i < many; i++) {
        if (tables[i].d == BY_LENGTH && before.one_d)
            continue;
        each(&tables[i]);
        fflush(stdout);
    }
}

int main(int argc, char **argv)
{
    if (argc != 3) {
        fprintf(stderr, "usage: before NAME one-d|list|parties; make bench BEFORE=COMMIT runs it\n");
        return 2;
    }
    before.one_d = strcmp(argv[2], "one-d") == 0;
    before.one_party = strcmp(argv[2], "parties") != 0;
    printf("before: the library of %s; now: that of the tree as it stands; ratio: now over before\n", argv[1]);
    printf("nanoseconds to a call, or to an address of a list, best of %d rounds over %d addresses or %d routes\n",
           ROUNDS, ADDRESSES, TURNS);
    printf("offered, stored: routes; short and long: lists of %d and of %d\n", SHORT_LIST, LONG_LIST);
    if (before.import != NULL)
        printf("imported: nanoseconds to a record of so many entries, in chunks of so many bytes\n");
    if (before.replay != NULL)
        printf("replayed: nanoseconds to a route, so many to an UPDATE, in chunks of so many bytes\n");
    if (before.one_party)
        printf("the library before knows one party; now party 0 is measured\n");
    printf("%s\n\n", before.one_d ? "the library before takes one D for all lengths, now it is a list of 32"
                                 : "D *: each length has the D that suits its routes, else all have the same");
    printf("offered  stored  K  D E S                          before ns  now ns  ratio\n");
    measure(measure_questions, asked, TABLES);
    measure(measure_updates, updated, TABLES);
    if (before.update != NULL)
        measure(measure_messages, updated, TOLD_TABLES);
    if (before.import != NULL)
        measure(measure_imports, updated, IMPORT_TABLES);
    if (before.replay != NULL)
        measure(measure_replays, updated, TOLD_TABLES);
    printf("\nevery answer agrees, and every byte\n");
    return 0;
}
