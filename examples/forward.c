/*
 * Fills a table and forwards by it.
 *
 *     forward [-d D[,D]...] [PREFIX HOP]...
 *
 * The routes are the arguments, as 10.0.0.0/8 7; without any they are 10.0.0.0/8 to hop 7 and 10.1.0.0/16 to
 * hop 9. Where a prefix is given again, its last hop stands. D says how large the filters are, from 4 to 11: one
 * number for all lengths, or 32 separated by commas, that of length 1 first. Without -d it is 10.
 *
 * Each line of standard input is an address. For each, one line is written: hop, length and probes, or
 * "none" and the probes. A line that is no address is reported on standard error, its odd bytes as \xNN, and
 * passed over; the exit status is then 1.
 *
 * Addresses that come in together are looked up together, a lot by one call, and are answered before more
 * is read. So a line that a person types is answered at once.
 */
#define _POSIX_C_SOURCE 200112L

#include "text.h"

#include <gateway.h>

#include <errno.h>
#include <stdio.h>
#include <stdlib.h>
#include <string.h>
#include <unistd.h>

/* These hold ninety routes of each length with room to spare: docs/SETTINGS.md has others. The counters have room
   for any D that is given. */
enum { K = 4, D = 10, LARGEST_D = 11, E = 7, S = 8 };

static uint8_t counters[GATEWAY_COUNTERS_BYTES(LARGEST_D)];
static uint32_t slots[GATEWAY_SLOTS_WORDS(E, S)];
static struct gateway_table table = {
    .settings = {.k = K,
                 .d = GATEWAY_EQUAL(D),
                 .e = E,
                 .s = S,
                 .a = GATEWAY_GOOD_A,
                 .b = GATEWAY_GOOD_B,
                 .c = GATEWAY_GOOD_C},
    .counters = counters,
    .counters_bytes = GATEWAY_COUNTERS_BYTES(D),
    .slots = slots,
    .slots_words = sizeof slots / sizeof slots[0],
};

/* A line's characters that are kept, the most addresses in a lot, the most bytes in one read. */
enum { LINE = 64, LOT = 256, READ = 4096 };

static uint32_t addresses[LOT];
static struct gateway_result results[LOT];
static size_t waiting; /* so many addresses of the lot have no answer yet */

/* Says what is wrong on standard error, and shows the text. */
static void complain(const char *wrong, const char *text, size_t size)
{
    fprintf(stderr, "forward: %s: ", wrong);
    show_text(text, size);
}

/* Whether a call was accepted; says on standard error why it was not. */
static int accepted(const char *call, uint32_t refusal)
{
    if (refusal != GATEWAY_OK)
        fprintf(stderr, "forward: %s: refused, number %u: %s\n", call, (unsigned)refusal,
                gateway_refusal_text(refusal));
    return refusal == GATEWAY_OK;
}

/* Adds a route given as text, in place of one with the same prefix; says on standard error why it cannot be. */
static int add_route(const char *route, const char *hop)
{
    const char *at = route, *hop_at = hop;
    uint32_t prefix, length, to;
    if (!read_prefix(&at, &prefix, &length) || *at != '\0') {
        complain("not a prefix (10.0.0.0/8 is one)", route, strlen(route));
        return 0;
    }
    if (!read_number(&hop_at, UINT32_MAX, &to) || *hop_at != '\0') {
        complain("not a hop (a number up to 65535)", hop, strlen(hop));
        return 0;
    }
    return accepted(route, gateway_table_add(&table, prefix, length, to));
}

/* Answers the addresses that wait. None is refused where clear was accepted on the same table. */
static void answer_lot(void)
{
    if (!accepted("lookup", gateway_table_lookup_list(&table, addresses, waiting, results)))
        exit(EXIT_FAILURE);
    for (const struct gateway_result *result = results; result < results + waiting; result++)
        if (result->found)
            printf("%u %u %u\n", (unsigned)result->hop, (unsigned)result->length, (unsigned)result->probes);
        else
            printf("none %u\n", (unsigned)result->probes);
    fflush(stdout);
    waiting = 0;
}

/* A line as far as it has come in: its first LINE characters, and how many it has. */
struct line {
    char text[LINE + 1];
    size_t length;
    unsigned long number;
};

static void take_character(struct line *line, char character)
{
    if (line->length < LINE)
        line->text[line->length] = character;
    line->length++;
}

/* Puts the address that is a whole line into the lot, and is ready for the next line. A line that is no
   address is reported, after the answers to those before it, and 0 given. */
static int take_line(struct line *line)
{
    const size_t kept = line->length < LINE ? line->length : LINE;
    const char *at = line->text;
    line->text[kept] = '\0';
    const int right = read_address(&at, &addresses[waiting]) && (size_t)(at - line->text) == line->length;
    if (right) {
        if (++waiting == LOT)
            answer_lot();
    } else {
        char wrong[64];
        answer_lot();
        snprintf(wrong, sizeof wrong, "line %lu: not an address", line->number);
        complain(wrong, line->text, kept);
    }
    line->length = 0;
    line->number++;
    return right;
}

/* Answers standard input to its end; 0 if it has a line that is no address, or cannot be read. */
static int forward(void)
{
    static struct line line = {.number = 1};
    static char input[READ];
    int right = 1;
    ssize_t got;
    while ((got = read(STDIN_FILENO, input, sizeof input)) > 0 || (got < 0 && errno == EINTR)) {
        for (ssize_t i = 0; i < got; i++)
            if (input[i] != '\n')
                take_character(&line, input[i]);
            else if (!take_line(&line))
                right = 0;
        answer_lot();
    }
    if (line.length > 0 && !take_line(&line))
        right = 0;
    answer_lot();
    if (got < 0) {
        fprintf(stderr, "forward: standard input cannot be read\n");
        right = 0;
    }
    return right;
}

int main(int argc, char **argv)
{
    static const char *const worked[] = {"10.0.0.0/8", "7", "10.1.0.0/16", "9"};
    int status;

    if (!take_filters("forward", &argc, &argv, &table))
        return EXIT_FAILURE;
    if (argc % 2 == 0) {
        fprintf(stderr, "usage: forward [-d D[,D]...] [PREFIX HOP]... <ADDRESSES\n");
        return 2;
    }
    if (!accepted("clear", gateway_table_clear(&table)))
        return EXIT_FAILURE;
    for (int i = 1; i < argc; i += 2)
        if (!add_route(argv[i], argv[i + 1]))
            return EXIT_FAILURE;
    for (size_t i = 0; argc == 1 && i < sizeof worked / sizeof worked[0]; i += 2)
        if (!add_route(worked[i], worked[i + 1]))
            return EXIT_FAILURE;

    status = forward() ? EXIT_SUCCESS : EXIT_FAILURE;
    if (fflush(stdout) != 0 || ferror(stdout)) {
        fprintf(stderr, "forward: standard output cannot be written\n");
        status = EXIT_FAILURE;
    }
    return status;
}
