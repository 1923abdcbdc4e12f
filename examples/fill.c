/*
 * Fills a table from dumps of routes, and tells where addresses then go.
 *
 *     fill [-d D[,D]...] [-n NEXT_HOP[,NEXT_HOP]...] [-a ADDRESS[,ADDRESS]...] [FILE]...
 *
 * Each FILE is a dump: MRT records (RFC 6396), unpacked. Without any it is standard input, and so is -:
 *
 *     bzcat rib.bz2 | fill -n 10.9.9.1,10.9.9.2 -a 192.0.2.7
 *
 * The next hops are those that the gateway knows; the first is hop 0. A route is added with the first next hop of
 * its record that is among them, and left out if none is. D says how large the filters are, from 4 to 11: one number
 * for all lengths, or 32 separated by commas, that of length 1 first. Without -d it is 11.
 *
 * For each dump one line is written: how many of its routes the table accepted and refused, and how many were left
 * out. Then there is one for each address, with its next hop and the route that it goes by, or "none". A dump that
 * cannot be read to its end, or has a bad record, is reported on standard error; the routes before that stay in the
 * table, and the exit status is then 1. On a terminal a long dump shows how far it has come.
 */
#define _POSIX_C_SOURCE 200112L

#include "files.h"

#include <gateway.h>

#include <stdio.h>
#include <stdlib.h>
#include <string.h>

/* The largest table there is, for 500 routes of each length: docs/SETTINGS.md has others. */
enum { K = 3, D = 11, E = 8, S = 8 };

static uint8_t counters[GATEWAY_COUNTERS_BYTES(D)];
static uint32_t slots[GATEWAY_SLOTS_WORDS(E, S)];
static struct gateway_table table = {
    .settings = {.k = K,
                 .d = GATEWAY_EQUAL(D),
                 .e = E,
                 .s = S,
                 .a = GATEWAY_GOOD_A,
                 .b = GATEWAY_GOOD_B,
                 .c = GATEWAY_GOOD_C},
    .counters = counters,
    .counters_bytes = sizeof counters,
    .slots = slots,
    .slots_words = sizeof slots / sizeof slots[0],
};

static struct list hops, asked;

/* Imports what a file holds, chunk by chunk, and ends the stream; answers the refusal. */
static uint32_t import(struct source *source, struct gateway_counts *counts)
{
    static struct gateway_stream stream;
    static uint8_t chunk[GATEWAY_CHUNK_BYTES];
    size_t size;
    memset(stream.words, 0, sizeof stream.words); /* the dump before has ended it */
    while ((size = read_chunk(source, chunk)) > 0) {
        const uint32_t refusal =
            gateway_table_import(&table, &stream, counts, hops.addresses, hops.count, chunk, size);
        if (refusal != GATEWAY_OK)
            return refusal;
        show_progress(source, counts->accepted, "accepted");
    }
    return source->error != 0 ? GATEWAY_OK : gateway_stream_end(&stream);
}

/* Imports a dump and writes what was counted; 0 if its end is not reached, or not a good one. */
static int fill(const char *name)
{
    struct gateway_counts counts = {0, 0, 0};
    struct source source;
    if (!open_source(&source, "fill", name))
        return 0;
    const uint32_t refusal = import(&source, &counts);
    clear_progress(&source);
    printf("%lu accepted, %lu refused, %lu without a hop\n", (unsigned long)counts.accepted,
           (unsigned long)counts.refused, (unsigned long)counts.without_hop);
    fflush(stdout);
    return close_source(&source, refusal);
}

int main(int argc, char **argv)
{
    int status = EXIT_SUCCESS;

    if (!take_options("fill", &argc, &argv, &table, &hops, &asked) ||
        !accepted("fill", "clear", gateway_table_clear(&table)))
        return EXIT_FAILURE;
    for (int i = 1; i < argc; i++)
        if (!fill(argv[i]))
            status = EXIT_FAILURE;
    if (argc == 1 && !fill("-"))
        status = EXIT_FAILURE;
    for (size_t i = 0; i < asked.count; i++)
        if (!answer("fill", &table, &hops, asked.addresses[i]))
            status = EXIT_FAILURE;
    if (fflush(stdout) != 0 || ferror(stdout)) {
        fprintf(stderr, "fill: standard output cannot be written\n");
        status = EXIT_FAILURE;
    }
    return status;
}
