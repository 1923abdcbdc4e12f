/*
 * The library's side of the second program: does each call that it is sent on memory that both have
 * mapped, and sends the answer back. It decides nothing. A process of its own lets the second program
 * tell which call brings it down, and run on a machine that is no x86-64.
 *
 *     host FILE SIZE
 *
 * A request is thirty-three numbers of 64 bits: the call, k, where the values of d begin in the file and how
 * many are lent, e, s, a, b, c, where the counters begin and how many are lent, the same of the slots, the
 * party, then what the call has beside them: for a list where its addresses begin and how many bytes they
 * have, and the same of its results; for a message the same of its bytes and of the words of its next hops;
 * for a withdrawal to be written prefix and length, and the same of its room; for an import the same of its
 * chunk and of the words of its next hops, and where the counts, the words and the room of its stream begin;
 * for a replay the same, with the tally in place of the counts; for the end of a stream where its words
 * begin, the sixth of these; for a comparison where its list begins and how many bytes it has. After these
 * seven a comparison has its second table, from k to the slots. What a call does not have is zero. An answer
 * is one such number.
 */
#define _XOPEN_SOURCE 600

#include <gateway.h>

#include <errno.h>
#include <fcntl.h>
#include <stdio.h>
#include <stdlib.h>
#include <string.h>
#include <sys/mman.h>
#include <sys/time.h>
#include <unistd.h>

enum {
    CLEAR, ADD, WITHDRAW, CHANGE, VECTOR, LOOKUP, LOOKUP_LIST, UPDATE, WRITE_WITHDRAWAL, IMPORT, REPLAY,
    END_STREAM, LIST_DIFFERENCES
};

enum { NUMBERS = 33, SECOND = 21, SECONDS_TO_END = 20, CALLS_BETWEEN = 256 };

static void fail(const char *what)
{
    fprintf(stderr, "host: %s: %s\n", what, strerror(errno));
    exit(2);
}

/* A table whose numbers begin here. */
#define NUMBER(at) (uint32_t)n[at]
#define SETTINGS(at) \
    NUMBER(at), memory + n[(at) + 1], n[(at) + 2], NUMBER((at) + 3), NUMBER((at) + 4), NUMBER((at) + 5), \
    NUMBER((at) + 6), NUMBER((at) + 7)
#define COUNTERS(at) memory + n[(at) + 8], n[(at) + 9]
#define WORDS SETTINGS(1), COUNTERS(1), words_at(memory, n[11]), n[12]
#define BYTES(at) SETTINGS(at), COUNTERS(at), memory + n[(at) + 10], n[(at) + 11]

static uint32_t *words_at(uint8_t *memory, uint64_t place)
{
    return (uint32_t *)(void *)(memory + place);
}

static uint64_t answer(uint8_t *memory, const uint64_t n[NUMBERS])
{
    const uint32_t party = NUMBER(13), asked = NUMBER(14), length = NUMBER(15), hop = NUMBER(16);
    switch (n[0]) {
    case CLEAR: return gateway_clear(WORDS);
    case ADD: return gateway_add(WORDS, party, asked, length, hop);
    case WITHDRAW: return gateway_withdraw(WORDS, party, asked, length);
    case CHANGE: return gateway_change(WORDS, party, asked, length, hop);
    case VECTOR: return gateway_match_vector(BYTES(1), asked);
    case LOOKUP: return gateway_lookup(BYTES(1), party, asked);
    case LOOKUP_LIST: return gateway_lookup_list(BYTES(1), party, memory + n[14], n[15], memory + n[16], n[17]);
    case UPDATE: return gateway_update(WORDS, party, memory + n[14], n[15], words_at(memory, n[16]), n[17]);
    case WRITE_WITHDRAWAL: return gateway_write_withdrawal(asked, length, memory + n[16], n[17]);
    case IMPORT:
        return gateway_import(WORDS, party, words_at(memory, n[16]), n[17], words_at(memory, n[18]),
                              words_at(memory, n[19]), memory + n[20], memory + n[14], n[15]);
    case REPLAY:
        return gateway_replay(WORDS, party, words_at(memory, n[16]), n[17], words_at(memory, n[18]),
                              words_at(memory, n[19]), memory + n[20], memory + n[14], n[15]);
    case END_STREAM: return gateway_end_stream(words_at(memory, n[19]));
    case LIST_DIFFERENCES:
        return gateway_list_differences(BYTES(1), BYTES(SECOND), party, memory + n[14], n[15]);
    default: errno = EINVAL; fail("an unknown call"); return 0;
    }
}

/* 0 at the end of the requests. */
static int read_request(uint64_t n[NUMBERS])
{
    size_t have = 0;
    while (have < NUMBERS * sizeof n[0]) {
        ssize_t got = read(STDIN_FILENO, (char *)n + have, NUMBERS * sizeof n[0] - have);
        if (got == 0)
            return 0;
        if (got < 0 && errno != EINTR)
            fail("read");
        if (got > 0)
            have += (size_t)got;
    }
    return 1;
}

int main(int argc, char **argv)
{
    if (argc != 3) {
        fprintf(stderr, "usage: host FILE SIZE; the second program runs it\n");
        return 2;
    }
    int file = open(argv[1], O_RDWR);
    if (file < 0)
        fail(argv[1]);
    void *memory = mmap(NULL, strtoul(argv[2], NULL, 10), PROT_READ | PROT_WRITE, MAP_SHARED, file, 0);
    if (memory == MAP_FAILED)
        fail("mmap");

    uint64_t n[NUMBERS];
    for (unsigned long calls = 0; read_request(n); calls++) {
        /* A call that does not end is ended, by the time that this process has worked. */
        const struct itimerval limit = {{0, 0}, {SECONDS_TO_END, 0}};
        if (calls % CALLS_BETWEEN == 0 && setitimer(ITIMER_VIRTUAL, &limit, NULL) != 0)
            fail("setitimer");
        uint64_t result = answer(memory, n);
        if (write(STDOUT_FILENO, &result, sizeof result) != sizeof result)
            fail("write");
    }
    return 0;
}
