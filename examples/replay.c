/*
 * Replays recorded days into a table, and tells where addresses then go.
 *
 *     replay [-d D[,D]...] [-n NEXT_HOP[,NEXT_HOP]...] [-a ADDRESS[,ADDRESS]...] [FILE]...
 *
 * Each FILE has what neighbours sent, as route servers and daemons record it: MRT records (RFC 6396), unpacked.
 * Without any it is standard input, and so is -. The files of a day are given in their order, and go into one table:
 *
 *     replay -n 10.9.9.1,10.9.9.2 -a 192.0.2.7 updates.0000 updates.0015 updates.0030
 *
 * The next hops are those that the gateway knows; the first is hop 0. An UPDATE that announces routes by another is
 * seen, and not applied. D says how large the filters are, from 4 to 11: one number for all lengths, or 32 separated
 * by commas, that of length 1 first. Without -d it is 11.
 *
 * Then the tally of all files is written: how many records were seen, how many UPDATEs applied, how many routes the
 * table accepted, and, in a line for each number that came up, how many it refused and why. After it there is a line
 * for each address, with its next hop and the route that it goes by, or "none". A file that cannot be read to its
 * end, or has a bad record, is reported on standard error; what was done before that stays done, the next file is
 * taken, and the exit status is then 1. On a terminal a long day shows how far it has come.
 */
#define _POSIX_C_SOURCE 200112L

#include "files.h"

#include <gateway.h>

#include <stdio.h>
#include <stdlib.h>
#include <string.h>

/* The largest table there is, for 500 routes of each length: docs/SETTINGS.md has others. */
enum { K = 3, D = 11, E = 8, S = 8 };

static uint8_t counters[GATEWAY_COUNTERS_BYTES(D)];
static uint32_t slots[GATEWAY_SLOTS_WORDS(E, S)];
static struct gateway_table table = {
    .settings = {.k = K,
                 .d = GATEWAY_EQUAL(D),
                 .e = E,
                 .s = S,
                 .a = GATEWAY_GOOD_A,
                 .b = GATEWAY_GOOD_B,
                 .c = GATEWAY_GOOD_C},
    .counters = counters,
    .counters_bytes = sizeof counters,
    .slots = slots,
    .slots_words = sizeof slots / sizeof slots[0],
};

static struct list hops, asked;

/* It runs on from file to file. */
static struct gateway_tally tally;

/* Replays what a file holds, chunk by chunk, and ends the stream; answers the refusal. */
static uint32_t replay_chunks(struct source *source)
{
    static struct gateway_stream stream;
    static uint8_t chunk[GATEWAY_CHUNK_BYTES];
    size_t size;
    memset(stream.words, 0, sizeof stream.words); /* the file before has ended it */
    while ((size = read_chunk(source, chunk)) > 0) {
        const uint32_t refusal =
            gateway_table_replay(&table, &stream, &tally, hops.addresses, hops.count, chunk, size);
        if (refusal != GATEWAY_OK)
            return refusal;
        show_progress(source, tally.seen, "records seen");
    }
    return source->error != 0 ? GATEWAY_OK : gateway_stream_end(&stream);
}

/* Replays a file; 0 if its end is not reached, or not a good one. */
static int replay(const char *name)
{
    struct source source;
    return open_source(&source, "replay", name) && close_source(&source, replay_chunks(&source));
}

static void print_tally(void)
{
    printf("records seen: %lu\n", (unsigned long)tally.seen);
    printf("UPDATEs applied: %lu\n", (unsigned long)tally.applied);
    printf("routes accepted: %lu\n", (unsigned long)tally.accepted);
    for (uint32_t number = 0; number < sizeof tally.refused / sizeof tally.refused[0]; number++)
        if (tally.refused[number] != 0)
            printf("routes refused: %lu, number %u: %s\n", (unsigned long)tally.refused[number], (unsigned)number,
                   gateway_refusal_text(number));
    fflush(stdout);
}

int main(int argc, char **argv)
{
    int status = EXIT_SUCCESS;

    if (!take_options("replay", &argc, &argv, &table, &hops, &asked) ||
        !accepted("replay", "clear", gateway_table_clear(&table)))
        return EXIT_FAILURE;
    for (int i = 1; i < argc; i++)
        if (!replay(argv[i]))
            status = EXIT_FAILURE;
    if (argc == 1 && !replay("-"))
        status = EXIT_FAILURE;
    print_tally();
    for (size_t i = 0; i < asked.count; i++)
        if (!answer("replay", &table, &hops, asked.addresses[i]))
            status = EXIT_FAILURE;
    if (fflush(stdout) != 0 || ferror(stdout)) {
        fprintf(stderr, "replay: standard output cannot be written\n");
        status = EXIT_FAILURE;
    }
    return status;
}
