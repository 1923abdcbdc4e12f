/*
 * Does the messages of a neighbour that speaks BGP, and tells where addresses then go.
 *
 *     neighbour [-d D] [NEXT_HOP]...
 *
 * The arguments are the addresses of next hops; the first is hop 0. D says how large the filters are, from 4 to
 * 11: one number for all lengths, or 32 separated by commas, that of length 1 first. Without -d it is 10. Each line of
 * standard input is one of
 *
 *     ff ff ff ...                an UPDATE message, two hexadecimal digits to a byte, with or without spaces
 *     find 192.0.2.7              an address
 *     withdrawal 10.0.0.0/8       a prefix
 *
 * For each, one line is written: how many of the message's routes the table accepted and refused; the next hop
 * of the address and the route that it goes by, or "none"; the message that withdraws the prefix, which another
 * neighbour can read. A line that is refused, or is none of these, is reported on standard error and passed over; the
 * exit status is then 1.
 */
#include "lines.h"

#include <gateway.h>

#include <ctype.h>
#include <stdio.h>
#include <stdlib.h>
#include <string.h>

/* These hold ninety routes of each length with room to spare: docs/SETTINGS.md has others. The counters have room
   for any D that is given. */
enum { K = 4, D = 10, LARGEST_D = 11, E = 7, S = 8 };

static uint8_t counters[GATEWAY_COUNTERS_BYTES(LARGEST_D)];
static uint32_t slots[GATEWAY_SLOTS_WORDS(E, S)];
static struct gateway_table table = {
    .settings = {.k = K,
                 .d = GATEWAY_EQUAL(D),
                 .e = E,
                 .s = S,
                 .a = GATEWAY_GOOD_A,
                 .b = GATEWAY_GOOD_B,
                 .c = GATEWAY_GOOD_C},
    .counters = counters,
    .counters_bytes = GATEWAY_COUNTERS_BYTES(D),
    .slots = slots,
    .slots_words = sizeof slots / sizeof slots[0],
};

/* The next hops that can be given, and a line's characters that are kept. */
enum { MOST_HOPS = 256, LINE = 3 * GATEWAY_MESSAGE_BYTES };

static uint32_t hops[MOST_HOPS];
static size_t many_hops;

static char text[LINE + 1];
static struct line line = {.program = "neighbour", .text = text, .most = LINE};

static int read_digit(const char **text, unsigned *number)
{
    static const char digits[] = "0123456789abcdef";
    const char *digit = **text == '\0' ? NULL : strchr(digits, tolower((unsigned char)**text));
    if (digit == NULL)
        return 0;
    ++*text;
    *number = *number << 4 | (unsigned)(digit - digits);
    return 1;
}

static int do_message(const char *at)
{
    static uint8_t message[LINE / 2];
    size_t size = 0;
    while (!at_end(&line, at)) {
        unsigned byte = 0;
        if (skip(&at, ' '))
            continue;
        if (!read_digit(&at, &byte) || !read_digit(&at, &byte))
            return unreadable(&line, "a message in hexadecimal digits, find ADDRESS or withdrawal PREFIX", at);
        message[size++] = (uint8_t)byte;
    }
    const struct gateway_report report = gateway_table_update(&table, message, size, hops, many_hops);
    if (!accepted(&line, report.refusal))
        return 0;
    printf("%u accepted, %u refused\n", (unsigned)report.accepted, (unsigned)report.refused);
    return 1;
}

static int find(const char *at)
{
    uint32_t address;
    if (!read_address(&at, &address) || !at_end(&line, at))
        return unreadable(&line, "an address (find 192.0.2.7 has one)", at);
    const struct gateway_answer answer = gateway_table_lookup(&table, address);
    if (!accepted(&line, answer.refusal))
        return 0;
    /* Only messages filled the table, so that each of its hops is a place in the list. */
    print_answer(address, answer, hops);
    return 1;
}

static int write_withdrawal(const char *at)
{
    uint8_t message[GATEWAY_WITHDRAWAL_BYTES(32)];
    uint32_t prefix, length;
    if (!read_prefix(&at, &prefix, &length) || !at_end(&line, at))
        return unreadable(&line, "a prefix (withdrawal 10.0.0.0/8 has one)", at);
    const size_t size = gateway_withdrawal_bytes(length);
    if (!accepted(&line, gateway_withdrawal_message(prefix, length, message, size)))
        return 0;
    for (size_t i = 0; i < size; i++)
        printf("%02x", (unsigned)message[i]);
    printf("\n");
    return 1;
}

static int do_line(void)
{
    static const char find_word[] = "find ", withdrawal_word[] = "withdrawal ";
    if (line.length > LINE)
        return unreadable(&line, "short enough for a message", line.text + LINE);
    if (strncmp(line.text, find_word, strlen(find_word)) == 0)
        return find(line.text + strlen(find_word));
    if (strncmp(line.text, withdrawal_word, strlen(withdrawal_word)) == 0)
        return write_withdrawal(line.text + strlen(withdrawal_word));
    return do_message(line.text);
}

int main(int argc, char **argv)
{
    if (!take_filters("neighbour", &argc, &argv, &table))
        return EXIT_FAILURE;
    if (argc - 1 > MOST_HOPS) {
        fprintf(stderr, "neighbour: more than %d next hops\n", MOST_HOPS);
        return EXIT_FAILURE;
    }
    for (int i = 1; i < argc; i++) {
        const char *at = argv[i];
        if (!read_address(&at, &hops[many_hops++]) || *at != '\0') {
            fprintf(stderr, "neighbour: not the address of a next hop: ");
            show_text(argv[i], strlen(argv[i]));
            return EXIT_FAILURE;
        }
    }
    if (!accepted(&line, gateway_table_clear(&table)))
        return EXIT_FAILURE;
    return do_lines(&line, do_line);
}
