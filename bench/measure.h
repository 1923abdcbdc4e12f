/*
 * What the programs that measure share: the calls of two are given the same routes and addresses, which a seed
 * fixes, on memory of the same contents, and their answers are compared. All are party 0's.
 */
#ifndef MEASURE_H
#define MEASURE_H

#include "calls.h"

#include <stddef.h>
#include <stdint.h>

enum { ADDRESSES = 1000000, TURNS = 100000, ROUNDS = 9, TABLES = 6, SHORT_LIST = 64, LONG_LIST = 1000 };

/* A neighbour tells so many routes, so many times a round, by messages of one of so many sizes, to the first of
   the tables that are updated: the others have no room for them. */
enum { TOLD = 500, TIMES_TOLD = 100, SIZES = 3, TOLD_TABLES = 4 };

/* Dumps of so many kinds are imported in chunks of so many sizes, so many times a round, or once if there are many
   chunks, into the first of the tables that are updated. Records of another kind have bodies of so many sizes, and
   fill so many bytes. */
enum { DUMPS = 2, CHUNKS = 3, TIMES_IMPORTED = 10, MANY_CHUNKS = 10000, IMPORT_TABLES = 4 };
enum { BODIES = 3, STEPPED = 64 << 20 };

/* Days of so many kinds are replayed in chunks of the same sizes. In a day a neighbour tells its routes and withdraws
   them again, so many times. */
enum { DAYS = 2, TIMES_A_DAY = 10 };

/* So many routes are offered, and what the buckets have room for is stored. All lengths have the same D, or each
   has the one that suits its routes, which is printed as '*'. */
struct table {
    uint32_t routes, k, d, e, s;
};

enum { BY_LENGTH = 0 };

/* What is lent: the D of each length, counters and slots. */
struct memory {
    uint8_t d[GATEWAY_LENGTHS];
    uint8_t *counters;
    uint32_t *slots;
    size_t bytes, words;
};

/* The tables that are asked, and those that are updated. */
extern const struct table asked[TABLES], updated[TABLES];

/* How many routes a message has, and how many one of a day. */
extern const size_t message_routes[SIZES], day_routes[DAYS];

/* How many entries a record of a dump has, how many bytes a chunk, and how many the body of a record that is stepped
   over. */
extern const size_t record_entries[DUMPS], chunk_bytes[CHUNKS], stepped_bodies[BODIES];

/* What the measured calls answer. */
typedef uint64_t answers[ADDRESSES];
typedef struct gateway_result results[ADDRESSES];

struct memory lend_table(const struct table *t);
void take_back(const struct memory *m);

/* Fills two tables by the calls of each, and chooses the addresses and the updates that are then measured;
   answers how many routes are stored. */
uint32_t fill(const struct table *t, const struct calls *one, const struct memory *first, const struct calls *other,
              const struct memory *second);

/* These keep the best nanoseconds a call so far, in *best: all addresses by single calls of a lookup, which takes what
   calls do; all of them by match vectors; by lists of so many, which must divide them, to an address; each route
   withdrawn and added again; and each added with another hop than it has. */
void ask_each(double *best, const struct table *t, const struct memory *m, const struct calls *calls,
              __typeof__(gateway_lookup) *call, answers given);
void ask_vectors(double *best, const struct table *t, const struct memory *m, const struct calls *calls,
                 answers given);
void ask_lists(double *best, const struct table *t, const struct memory *m, const struct calls *calls, size_t many,
               results given);
void withdraw_and_add(double *best, const struct table *t, const struct memory *m, const struct calls *calls,
                      answers given);
void replace(double *best, const struct table *t, const struct memory *m, const struct calls *calls,
             answers given);

/* Chooses TOLD routes of length 24 that both tables have room for besides those stored. */
void choose_told(const struct table *t, const struct calls *one, const struct memory *first,
                 const struct calls *other, const struct memory *second);

/* Makes the messages that announce them, so many to a message, which must divide them, and those that withdraw
   them again; answers how many messages either takes. */
size_t make_messages(size_t many);

/* What all those messages take in nanoseconds. */
enum telling { ANNOUNCED, WITHDRAWN, TELLINGS };
double tell(enum telling telling, const struct table *t, const struct memory *m, const struct calls *calls,
            uint64_t *given);

/* Announces and withdraws them by turns, and keeps the best nanoseconds a route of either. */
void tell_each(double best[TELLINGS], const struct table *t, const struct memory *m, const struct calls *calls,
               answers given);

/* Makes a dump of the routes that were offered, with so many entries to each, or of records of another kind with
   bodies of so many bytes on average; answers how many bytes it has. */
size_t make_dump(const struct table *t, size_t entries);
size_t make_other_dump(size_t body);

/* Imports the dump in chunks of so many bytes into a table that is cleared each time, by one of the calls that take
   what an import takes; keeps the best nanoseconds of one time, and what was counted. */
void import_each(double *best, const struct table *t, const struct memory *m, const struct calls *calls,
                 __typeof__(gateway_import) *call, size_t chunk, struct gateway_counts *counts);

/* Makes a day of the routes that a neighbour tells, so many to an UPDATE, which must divide them; answers how many
   bytes it has. */
size_t make_day(size_t many);

/* How many routes a day announces and withdraws. */
enum { DAY_ROUTES = TIMES_A_DAY * TELLINGS * TOLD };

/* Replays the day in chunks of so many bytes into a table, which is then as it was, by one of the calls that take what
   a replay takes; keeps the best nanoseconds of one time. Every route must be accepted. */
void replay_each(double *best, const struct table *t, const struct memory *m, const struct calls *calls,
                 __typeof__(gateway_replay) *call, size_t chunk);

/* Reads every byte of the dump, and keeps the best nanoseconds. */
void read_each(double *best);

/* The time, and the least of what was taken so far. */
double nanoseconds(void);
void keep_least(double *best, double took);

/* End the program where two that should agree do not. */
void check(int agrees, const char *what);
void check_memory(const struct memory *one, const struct memory *other);
void check_results(const results listed, const answers single);
void check_counts(const struct gateway_counts *one, const struct gateway_counts *other);

/* Offered and stored routes, K, D, E and S. */
void print_table(const struct table *t, uint32_t many);

#endif
