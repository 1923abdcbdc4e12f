/*
 * Measures the proved calls beside calls written by hand in C: lookups and match vectors of the same million
 * addresses, withdrawals and adds of the same routes, and adds that replace a route, on the same tables, in
 * turns within one run; a neighbour's messages; dumps that are imported and days that are replayed; the lookup
 * of a list beside as many single ones; and comparisons of two tables. Every answer of the two is compared, and
 * after updates and comparisons every byte. Settings are arguments to both, so neither compiler knows them.
 */
#include "comparisons.h"
#include "measure.h"
#include "table.h"

#include <stdio.h>
#include <string.h>

static const struct calls hand = CALLS_OF(hand), proved = CALLS_OF(gateway);

static answers by_hand, unrolled, by_turns, by_proof;
static results listed;

static void measure_lookups(const struct table *t)
{
    struct memory first = lend_table(t), second = lend_table(t);
    uint32_t many = fill(t, &hand, &first, &proved, &second);

    double hand_ns = 0, unrolled_ns = 0, turn_ns = 0, proved_ns = 0;
    for (int round = 0; round < ROUNDS; round++) {
        ask_each(&hand_ns, t, &second, &hand, hand.lookup, by_hand);
        ask_each(&proved_ns, t, &second, &proved, proved.lookup, by_proof);
        ask_each(&unrolled_ns, t, &second, &hand, hand_lookup_unrolled, unrolled);
        ask_each(&turn_ns, t, &second, &hand, hand_lookup_in_turn, by_turns);
    }
    check(memcmp(by_hand, by_proof, sizeof by_proof) == 0, "a lookup");
    check(memcmp(unrolled, by_proof, sizeof by_proof) == 0, "a lookup");
    check(memcmp(by_turns, by_proof, sizeof by_proof) == 0, "a lookup");

    uint64_t probes = 0, none = 0;
    for (size_t i = 0; i < ADDRESSES; i++) {
        probes += gateway_probes(by_proof[i]);
        none += gateway_length(by_proof[i]) == 0;
    }
    print_table(t, many);
    printf("  %6.2f  %6.1f%%  %7.1f  %9.1f  %5.2f  %8.1f  %5.2f  %7.1f  %5.2f\n", (double)probes / ADDRESSES,
           100.0 * (double)none / ADDRESSES, hand_ns, proved_ns, proved_ns / hand_ns, unrolled_ns,
           proved_ns / unrolled_ns, turn_ns, proved_ns / turn_ns);
    take_back(&first);
    take_back(&second);
}

static void measure_vectors(const struct table *t)
{
    struct memory first = lend_table(t), second = lend_table(t);
    uint32_t many = fill(t, &hand, &first, &proved, &second);

    double hand_ns = 0, proved_ns = 0;
    for (int round = 0; round < ROUNDS; round++) {
        ask_vectors(&hand_ns, t, &second, &hand, by_hand);
        ask_vectors(&proved_ns, t, &second, &proved, by_proof);
    }
    check(memcmp(by_hand, by_proof, sizeof by_proof) == 0, "a match vector");

    uint64_t claims = 0;
    for (size_t i = 0; i < ADDRESSES; i++)
        for (uint32_t left = gateway_vector(by_proof[i]); left != 0; left &= left - 1)
            claims++;
    print_table(t, many);
    printf("  %6.2f  %7.1f  %9.1f  %5.2f\n", (double)claims / ADDRESSES, hand_ns, proved_ns, proved_ns / hand_ns);
    take_back(&first);
    take_back(&second);
}

/* The answers of both to so many updates, and what these leave. */
static void check_updates(size_t many, const struct memory *first, const struct memory *second)
{
    check(memcmp(by_hand, by_proof, many * sizeof by_proof[0]) == 0, "an update");
    check_memory(first, second);
}

static void measure_updates(const struct table *t)
{
    struct memory first = lend_table(t), second = lend_table(t);
    uint32_t many = fill(t, &hand, &first, &proved, &second);

    double hand_ns = 0, proved_ns = 0, hand_replacing_ns = 0, proved_replacing_ns = 0;
    for (int round = 0; round < ROUNDS; round++) {
        withdraw_and_add(&hand_ns, t, &first, &hand, by_hand);
        withdraw_and_add(&proved_ns, t, &second, &proved, by_proof);
        check_updates(2 * TURNS, &first, &second);
        replace(&hand_replacing_ns, t, &first, &hand, by_hand);
        replace(&proved_replacing_ns, t, &second, &proved, by_proof);
        check_updates(TURNS, &first, &second);
    }
    print_table(t, many);
    printf("  %7.1f  %9.1f  %5.2f  %7.1f  %9.1f  %5.2f\n", hand_ns, proved_ns, proved_ns / hand_ns,
           hand_replacing_ns, proved_replacing_ns, proved_replacing_ns / hand_replacing_ns);
    take_back(&first);
    take_back(&second);
}

static void measure_messages(const struct table *t)
{
    struct memory first = lend_table(t), second = lend_table(t);
    uint32_t many = fill(t, &hand, &first, &proved, &second);
    choose_told(t, &hand, &first, &proved, &second);

    for (int i = 0; i < SIZES; i++) {
        size_t messages = make_messages(message_routes[i]);
        double hand_ns[TELLINGS] = {0}, proved_ns[TELLINGS] = {0};
        for (int round = 0; round < ROUNDS; round++) {
            tell_each(hand_ns, t, &first, &hand, by_hand);
            tell_each(proved_ns, t, &second, &proved, by_proof);
            check_updates(TELLINGS * TIMES_TOLD * messages, &first, &second);
        }
        for (int j = 0; j < TELLINGS; j++) {
            tell((enum telling)j, t, &first, &hand, by_hand);
            tell((enum telling)j, t, &second, &proved, by_proof);
            check_updates(messages, &first, &second);
        }
        print_table(t, many);
        printf("  %6u", (unsigned)message_routes[i]);
        for (int j = 0; j < TELLINGS; j++)
            printf("  %7.1f  %9.1f  %5.2f", hand_ns[j], proved_ns[j], proved_ns[j] / hand_ns[j]);
        printf("  %6.1f  %6.1f\n", 2e3 / (hand_ns[ANNOUNCED] + hand_ns[WITHDRAWN]),
               2e3 / (proved_ns[ANNOUNCED] + proved_ns[WITHDRAWN]));
    }
    take_back(&first);
    take_back(&second);
}

static void measure_imports(const struct table *t)
{
    struct memory first = lend_table(t), second = lend_table(t);
    fill(t, &hand, &first, &proved, &second);

    for (int i = 0; i < DUMPS; i++) {
        const size_t size = make_dump(t, record_entries[i]);
        for (int j = 0; j < CHUNKS; j++) {
            const size_t chunk = chunk_bytes[j];
            double hand_ns = 0, place_ns = 0, proved_ns = 0;
            struct gateway_counts ours, theirs;
            for (int round = 0; round < ROUNDS; round++) {
                import_each(&hand_ns, t, &first, &hand, hand.import, chunk, &ours);
                import_each(&proved_ns, t, &second, &proved, proved.import, chunk, &theirs);
                check_counts(&ours, &theirs);
                check_memory(&first, &second);
                import_each(&place_ns, t, &first, &hand, hand_import_in_place, chunk, &ours);
                check_counts(&ours, &theirs);
                check_memory(&first, &second);
            }
            print_table(t, theirs.accepted);
            printf("  %7u  %5.0f  %5u  %7.1f  %9.1f  %5.2f  %8.1f  %5.2f  %6.2f  %6.2f  %6.0f  %6.0f\n",
                   (unsigned)record_entries[i], (double)size / t->routes, (unsigned)chunk, hand_ns / t->routes,
                   proved_ns / t->routes, proved_ns / hand_ns, place_ns / t->routes, proved_ns / place_ns,
                   1e3 * t->routes / hand_ns, 1e3 * t->routes / proved_ns, 1e3 * (double)size / hand_ns,
                   1e3 * (double)size / proved_ns);
        }
    }
    take_back(&first);
    take_back(&second);
}

static void measure_steps(const struct table *t)
{
    struct memory memory = lend_table(t);
    for (int i = 0; i < BODIES; i++) {
        const double size = (double)make_other_dump(stepped_bodies[i]);
        double hand_ns = 0, proved_ns = 0, read_ns = 0;
        struct gateway_counts ours, theirs;
        for (int round = 0; round < ROUNDS; round++) {
            import_each(&hand_ns, t, &memory, &hand, hand.import, chunk_bytes[0], &ours);
            import_each(&proved_ns, t, &memory, &proved, proved.import, chunk_bytes[0], &theirs);
            check_counts(&ours, &theirs);
            read_each(&read_ns);
        }
        printf("%7u  %7.1f  %7.1f  %5.2f  %6.1f\n", (unsigned)stepped_bodies[i], size / hand_ns, size / proved_ns,
               proved_ns / hand_ns, size / read_ns);
    }
    take_back(&memory);
}

static void measure_replays(const struct table *t)
{
    struct memory first = lend_table(t), second = lend_table(t);
    uint32_t many = fill(t, &hand, &first, &proved, &second);
    choose_told(t, &hand, &first, &proved, &second);

    for (int i = 0; i < DAYS; i++) {
        const size_t size = make_day(day_routes[i]);
        for (int j = 0; j < CHUNKS; j++) {
            const size_t chunk = chunk_bytes[j];
            double hand_ns = 0, place_ns = 0, proved_ns = 0;
            for (int round = 0; round < ROUNDS; round++) {
                replay_each(&hand_ns, t, &first, &hand, hand.replay, chunk);
                replay_each(&proved_ns, t, &second, &proved, proved.replay, chunk);
                replay_each(&place_ns, t, &first, &hand, hand_replay_in_place, chunk);
                check_memory(&first, &second);
            }
            print_table(t, many);
            printf("  %6u  %5.0f  %5u  %7.1f  %9.1f  %5.2f  %8.1f  %5.2f  %6.1f  %6.1f  %6.0f  %6.0f\n",
                   (unsigned)day_routes[i], (double)size * (double)day_routes[i] / DAY_ROUTES, (unsigned)chunk,
                   hand_ns / DAY_ROUTES, proved_ns / DAY_ROUTES, proved_ns / hand_ns, place_ns / DAY_ROUTES,
                   proved_ns / place_ns, 1e3 * DAY_ROUTES / hand_ns, 1e3 * DAY_ROUTES / proved_ns,
                   1e3 * (double)size / hand_ns, 1e3 * (double)size / proved_ns);
        }
    }
    take_back(&first);
    take_back(&second);
}

static void measure_lists(const struct table *t)
{
    struct memory first = lend_table(t), second = lend_table(t);
    uint32_t many = fill(t, &hand, &first, &proved, &second);

    double single_ns = 0, short_ns = 0, long_ns = 0;
    for (int round = 0; round < ROUNDS; round++) {
        ask_each(&single_ns, t, &second, &proved, proved.lookup, by_proof);
        ask_lists(&short_ns, t, &second, &proved, SHORT_LIST, listed);
        check_results(listed, by_proof);
        ask_lists(&long_ns, t, &second, &proved, LONG_LIST, listed);
        check_results(listed, by_proof);
    }
    print_table(t, many);
    printf("  %9.1f  %8.1f  %5.2f  %7.1f  %5.2f\n", single_ns, short_ns, short_ns / single_ns, long_ns,
           long_ns / single_ns);
    take_back(&first);
    take_back(&second);
}

static void measure(void (*each)(const struct table *), const struct table *tables, int many)
{
    for (int i = 0; i < many; i++) {
        each(&tables[i]);
        fflush(stdout);
    }
}

int main(void)
{
    printf("nanoseconds to a lookup, best of %d rounds over %d addresses\n", ROUNDS, ADDRESSES);
    printf("hand: the same scheme in C; unrolled: in C, with its loop over the lengths unrolled; in turn: in C,\n");
    printf("with a filter asked only when its length's turn comes\n");
    printf("offered, stored: routes; D *: each length has the D that suits its routes, else all have the same\n");
    printf("probes: buckets searched to a lookup; default: how many take the default route\n");
    printf("ratio: the proved time over hand's, over unrolled's and over in turn's\n\n");
    printf("offered  stored  K  D E S  probes  default  hand ns  proved ns  ratio  unrolled  ratio  in turn  ratio\n");
    measure(measure_lookups, asked, TABLES);
    printf("\nnanoseconds to a match vector, best of %d rounds over %d addresses; claims: how many bits are set\n\n",
           ROUNDS, ADDRESSES);
    printf("offered  stored  K  D E S  claims  hand ns  proved ns  ratio\n");
    measure(measure_vectors, asked, TABLES);
    printf("\nnanoseconds to an update, best of %d rounds: %d times a stored route is withdrawn and added again;\n",
           ROUNDS, TURNS);
    printf("then as often one is replaced: added with another hop\n\n");
    printf("                           withdrawn, added again     replaced\n");
    printf("offered  stored  K  D E S  hand ns  proved ns  ratio  hand ns  proved ns  ratio\n");
    measure(measure_updates, updated, TABLES);
    printf("\nnanoseconds to a route of a neighbour's messages, best of %d times that %d routes of length 24, which\n",
           ROUNDS * TIMES_TOLD, TOLD);
    printf("find room, are announced, so many to a message, and then withdrawn\n");
    printf("hand: a reader in C, which checks the whole message and then does its routes\n");
    printf("millions: so many routes a second, announced and withdrawn ones together\n\n");
    printf("                                   announced                  withdrawn                  millions\n");
    printf("offered  stored  K  D E S  routes  hand ns  proved ns  ratio  hand ns  proved ns  ratio    hand  proved\n");
    measure(measure_messages, updated, TOLD_TABLES);
    printf("\nnanoseconds to a record of a dump, best of %d times, or of %d where there are many chunks, that a\n",
           ROUNDS * TIMES_IMPORTED, ROUNDS);
    printf("record for each route offered is imported into a cleared table, in chunks of so many bytes\n");
    printf("hand: a reader in C, which copies each record into the room, checks it there and does its route;\n");
    printf("in place: one that does this where a record lies, if it lies within a chunk, and leaves it there\n");
    printf("entries, bytes: of a record; millions: so many records a second; MB/s: of the dump\n\n");
    printf("%97s%s", "", "millions            MB/s\n");
    printf("offered  stored  K  D E S  entries  bytes  chunk  hand ns  proved ns  ratio  in place  ratio  ");
    printf("  hand  proved    hand  proved\n");
    measure(measure_imports, updated, IMPORT_TABLES);
    printf("\nGB/s of records that are stepped over, best of %d times over %d MiB in chunks of %u bytes\n",
           ROUNDS * TIMES_IMPORTED, STEPPED >> 20, (unsigned)chunk_bytes[0]);
    printf("bytes: of a record's body on average; ratio: the proved time over hand's; read: every byte is summed up\n\n");
    printf("  bytes     hand   proved  ratio    read\n");
    measure_steps(&updated[0]);
    printf("\nnanoseconds to a route of a recorded day, best of %d times, or of %d where there are many chunks, that\n",
           ROUNDS * TIMES_IMPORTED, ROUNDS);
    printf("the day is replayed: %d times %d routes, which find room, are announced, so many to an UPDATE, and then\n",
           TIMES_A_DAY, TOLD);
    printf("withdrawn; hand and in place: readers in C, as for imports\n");
    printf("bytes: of a record on average; millions: so many routes a second; MB/s: of the day\n\n");
    printf("%96s%s", "", "millions            MB/s\n");
    printf("offered  stored  K  D E S  routes  bytes  chunk  hand ns  proved ns  ratio  in place  ratio  ");
    printf("  hand  proved    hand  proved\n");
    measure(measure_replays, updated, TOLD_TABLES);
    printf("\nnanoseconds to an address, best of %d rounds over %d addresses\n", ROUNDS, ADDRESSES);
    printf("single: a call to each; short and long: a call to each list of %d and of %d\n\n", SHORT_LIST, LONG_LIST);
    printf("offered  stored  K  D E S  single ns  short ns  ratio  long ns  ratio\n");
    measure(measure_lists, asked, TABLES);
    measure_comparisons(&hand, &proved);
    printf("\nevery answer agrees, and every byte\n");
    return 0;
}
