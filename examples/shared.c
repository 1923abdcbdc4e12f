/*
 * A library and the school next door share a box: their routes lie in one memory, and each finds its own.
 *
 *     shared
 *
 * Each line of standard input is one of these, for the library or for the school:
 *
 *     library add 10.0.0.0/8 7          a prefix and its hop
 *     school withdraw 10.0.0.0/8        a prefix
 *     school find 10.1.2.3              an address
 *     clear                             empties the table, for both
 *
 * For each, one line is written: "ok"; for an address hop, length and probes, or "none" and the probes. A line that is
 * refused, or is none of these, is reported on standard error and passed over; the exit status is then 1.
 *
 * The table is small, so that a few lines show what the two share: each length has four slots. Once four routes of a
 * length are stored, whoever's they are, a fifth is refused with number 8.
 */
#include "lines.h"

#include <gateway.h>

#include <stdio.h>
#include <stdlib.h>
#include <string.h>

/* docs/SETTINGS.md has settings for use. */
enum { K = 4, D = 6, E = 0, S = 4 };

static uint8_t counters[GATEWAY_COUNTERS_BYTES(D)];
static uint32_t slots[GATEWAY_SLOTS_WORDS(E, S)];

/* The library's table names no party, so that it is party 0's. The school's is a copy that names party 1: it has the
   same settings and the same memory. */
static struct gateway_table library = {
    .settings = {.k = K,
                 .d = GATEWAY_EQUAL(D),
                 .e = E,
                 .s = S,
                 .a = GATEWAY_GOOD_A,
                 .b = GATEWAY_GOOD_B,
                 .c = GATEWAY_GOOD_C},
    .counters = counters,
    .counters_bytes = sizeof counters,
    .slots = slots,
    .slots_words = sizeof slots / sizeof slots[0],
};
static struct gateway_table school;

/* A line's characters that are kept. */
enum { LINE = 64 };

static char text[LINE + 1];
static struct line line = {.program = "shared", .text = text, .most = LINE};

/* Steps past a word and the space after it, if the word is there. */
static int skip_word(const char **at, const char *word)
{
    const size_t length = strlen(word);
    if (strncmp(*at, word, length) != 0 || ((*at)[length] != ' ' && (*at)[length] != '\0'))
        return 0;
    *at += length;
    skip(at, ' ');
    return 1;
}

/* Writes that an update was accepted. */
static int done(uint32_t refusal)
{
    if (!accepted(&line, refusal))
        return 0;
    printf("ok\n");
    return 1;
}

static int add(struct gateway_table *table, const char *at)
{
    uint32_t prefix, length, hop;
    if (!read_prefix(&at, &prefix, &length) || !skip(&at, ' ') || !read_number(&at, UINT32_MAX, &hop) ||
        !at_end(&line, at))
        return unreadable(&line, "a prefix and a hop (library add 10.0.0.0/8 7 has them)", at);
    return done(gateway_table_add(table, prefix, length, hop));
}

static int withdraw(struct gateway_table *table, const char *at)
{
    uint32_t prefix, length;
    if (!read_prefix(&at, &prefix, &length) || !at_end(&line, at))
        return unreadable(&line, "a prefix (school withdraw 10.0.0.0/8 has one)", at);
    return done(gateway_table_withdraw(table, prefix, length));
}

static int find(const struct gateway_table *table, const char *at)
{
    uint32_t address;
    if (!read_address(&at, &address) || !at_end(&line, at))
        return unreadable(&line, "an address (school find 10.1.2.3 has one)", at);
    const struct gateway_answer answer = gateway_table_lookup(table, address);
    if (!accepted(&line, answer.refusal))
        return 0;
    if (answer.found)
        printf("%u %u %u\n", (unsigned)answer.hop, (unsigned)answer.length, (unsigned)answer.probes);
    else
        printf("none %u\n", (unsigned)answer.probes);
    return 1;
}

static int do_line(void)
{
    const char *at = line.text;
    struct gateway_table *table = &school;
    if (strcmp(line.text, "clear") == 0 && at_end(&line, at + strlen("clear")))
        return done(gateway_table_clear(&library));
    if (skip_word(&at, "library"))
        table = &library;
    else if (!skip_word(&at, "school"))
        return unreadable(&line, "library, school or clear", at);
    if (skip_word(&at, "add"))
        return add(table, at);
    if (skip_word(&at, "withdraw"))
        return withdraw(table, at);
    if (skip_word(&at, "find"))
        return find(table, at);
    return unreadable(&line, "add PREFIX HOP, withdraw PREFIX or find ADDRESS", at);
}

int main(int argc, char **argv)
{
    (void)argv;
    if (argc != 1) {
        fprintf(stderr, "usage: shared <LINES\n");
        return 2;
    }
    school = library;
    school.party = 1;
    /* One clear does for both. */
    if (!accepted(&line, gateway_table_clear(&library)))
        return EXIT_FAILURE;
    return do_lines(&line, do_line);
}
