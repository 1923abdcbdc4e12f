/*
 * Tells which routes differ between two tables: what is lost, gained and changed where one is swapped for the other.
 *
 *     differences FIRST SECOND
 *
 * Each of the two is a file with a route to a line, a prefix and its hop, as 10.0.0.0/8 7; - is standard input. Where a
 * prefix comes again, its last hop stands. The routes of each go into a table of its own. The second table is the
 * larger one: the settings of two tables that are compared need not be the same.
 *
 * For each difference one line is written, by rising length and then rising prefix:
 *
 *     - 10.1.0.0/16 7             lost: the first alone has it
 *     + 10.3.0.0/16 9             gained: the second alone has it
 *     ~ 10.2.0.0/16 7 -> 9        changed: both have it, with two hops
 *
 * and then one that says how many there are of each. So with /dev/null for SECOND the routes of FIRST are listed.
 *
 * The exit status is that of diff: 0 if there is no difference, and 1 if there is one. A line that is no route, or
 * whose route the table refuses, is reported on standard error and passed over; the exit status is then 2, as it is
 * where a file cannot be read and nothing is compared.
 */
#include "lines.h"

#include <gateway.h>

#include <errno.h>
#include <stdio.h>
#include <stdlib.h>
#include <string.h>

enum { SAME, DIFFERENT, TROUBLE };

/* The first table is for ninety routes of each length, and the second is the largest there is: docs/SETTINGS.md has
   others. */
enum { FIRST_D = 10, FIRST_E = 7, SECOND_D = 11, SECOND_E = 8, S = 8 };

static uint8_t first_counters[GATEWAY_COUNTERS_BYTES(FIRST_D)], second_counters[GATEWAY_COUNTERS_BYTES(SECOND_D)];
static uint32_t first_slots[GATEWAY_SLOTS_WORDS(FIRST_E, S)], second_slots[GATEWAY_SLOTS_WORDS(SECOND_E, S)];

static struct gateway_table first = {
    .settings = {.k = 4,
                 .d = GATEWAY_EQUAL(FIRST_D),
                 .e = FIRST_E,
                 .s = S,
                 .a = GATEWAY_GOOD_A,
                 .b = GATEWAY_GOOD_B,
                 .c = GATEWAY_GOOD_C},
    .counters = first_counters,
    .counters_bytes = sizeof first_counters,
    .slots = first_slots,
    .slots_words = sizeof first_slots / sizeof first_slots[0],
};

static struct gateway_table second = {
    .settings = {.k = 3,
                 .d = GATEWAY_EQUAL(SECOND_D),
                 .e = SECOND_E,
                 .s = S,
                 .a = GATEWAY_GOOD_A,
                 .b = GATEWAY_GOOD_B,
                 .c = GATEWAY_GOOD_C},
    .counters = second_counters,
    .counters_bytes = sizeof second_counters,
    .slots = second_slots,
    .slots_words = sizeof second_slots / sizeof second_slots[0],
};

/* Room for as many differences as there can be. */
static struct gateway_difference list[GATEWAY_MOST_DIFFERENCES(FIRST_E, S, SECOND_E, S)];

/* A line's characters that are kept. */
enum { LINE = 64 };

/* Whether a line of either file was passed over. */
static int passed_over;

static int add_route(struct gateway_table *table, const struct line *line)
{
    const char *at = line->text;
    uint32_t prefix, length, hop;
    if (!read_prefix(&at, &prefix, &length) || !skip(&at, ' ') || !read_number(&at, UINT32_MAX, &hop) ||
        !at_end(line, at))
        return unreadable(line, "a prefix and a hop (10.0.0.0/8 7 has them)", at);
    return accepted(line, gateway_table_add(table, prefix, length, hop));
}

/* Says why a file cannot be read. */
static int unread(const char *what, const char *name, int error)
{
    fprintf(stderr, "differences: %s: %s: ", what, strerror(error));
    show_text(name, strlen(name));
    return 0;
}

/* Fills a table with the routes of a file; 0 if its end is not reached. */
static int fill(struct gateway_table *table, const char *name)
{
    static char text[LINE + 1];
    const int is_input = strcmp(name, "-") == 0;
    struct line line = {.program = "differences", .name = is_input ? "standard input" : name, .text = text,
                        .most = LINE};
    if (!accepted(&line, gateway_table_clear(table)))
        return 0;
    line.file = is_input ? stdin : fopen(name, "r");
    if (line.file == NULL)
        return unread("cannot be opened", line.name, errno);
    while (read_line(&line))
        if (!add_route(table, &line))
            passed_over = 1;
    const int read = ferror(line.file) ? unread("cannot be read", line.name, errno) : 1;
    if (!is_input)
        fclose(line.file);
    return read;
}

static void print_route(char sign, const struct gateway_difference *difference)
{
    printf("%c ", sign);
    print_address(difference->prefix);
    printf("/%u ", (unsigned)difference->length);
}

/* Writes the differences, and how many there are of each kind. What a table has is the hop and one, or 0. */
static void print_differences(uint32_t count)
{
    uint32_t lost = 0, gained = 0;
    for (const struct gateway_difference *difference = list; difference < list + count; difference++) {
        if (difference->second == 0) {
            print_route('-', difference);
            printf("%u\n", (unsigned)difference->first - 1);
            lost++;
        } else if (difference->first == 0) {
            print_route('+', difference);
            printf("%u\n", (unsigned)difference->second - 1);
            gained++;
        } else {
            print_route('~', difference);
            printf("%u -> %u\n", (unsigned)difference->first - 1, (unsigned)difference->second - 1);
        }
    }
    printf("%u lost, %u gained, %u changed\n", (unsigned)lost, (unsigned)gained, (unsigned)(count - lost - gained));
}

/* The two files, compared; answers the exit status. */
static int compare(const char *first_name, const char *second_name)
{
    const struct line none = {.program = "differences"};
    if (!fill(&first, first_name) || !fill(&second, second_name))
        return TROUBLE;
    const struct gateway_differences differences =
        gateway_table_difference(&first, &second, 0, list, sizeof list / sizeof list[0]);
    if (!accepted(&none, differences.refusal))
        return TROUBLE;
    print_differences(differences.count);
    return passed_over ? TROUBLE : differences.count == 0 ? SAME : DIFFERENT;
}

static int is_option(const char *argument)
{
    return argument[0] == '-' && argument[1] != '\0';
}

int main(int argc, char **argv)
{
    static const char usage[] = "usage: differences FIRST SECOND\n";
    int status = SAME;
    if (argc == 2 && strcmp(argv[1], "--help") == 0) {
        printf("%s", usage);
        printf("Each file has a route to a line, as 10.0.0.0/8 7; - is standard input. The exit status is 0 if the\n"
               "routes are the same, 1 if they differ, and 2 if something is wrong.\n");
    } else if (argc != 3 || is_option(argv[1]) || is_option(argv[2])) {
        fprintf(stderr, "%s", usage);
        return TROUBLE;
    } else if (strcmp(argv[1], "-") == 0 && strcmp(argv[2], "-") == 0) {
        fprintf(stderr, "differences: standard input cannot be both\n");
        return TROUBLE;
    } else {
        status = compare(argv[1], argv[2]);
    }
    if (fflush(stdout) != 0 || ferror(stdout)) {
        fprintf(stderr, "differences: standard output cannot be written\n");
        status = TROUBLE;
    }
    return status;
}
