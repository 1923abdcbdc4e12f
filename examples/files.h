/* Files of MRT records that the examples take in chunks, the options before them, and the addresses that are asked for
   afterwards. Whatever is wrong is reported on standard error, with the program's name, and 0 is answered. */
#ifndef FILES_H
#define FILES_H

#include "text.h"

#include <gateway.h>

#include <errno.h>
#include <stdio.h>
#include <stdlib.h>
#include <string.h>
#include <time.h>
#include <unistd.h>

/* The next hops and the addresses that can be given. */
enum { MOST = 256 };

struct list {
    uint32_t addresses[MOST];
    size_t count;
};

/* Adds addresses that are separated by commas to a list. */
static inline int take_addresses(const char *program, const char *option, const char *text, struct list *list)
{
    const char *at = text;
    do {
        uint32_t address;
        if (!read_address(&at, &address) || (*at != ',' && *at != '\0')) {
            fprintf(stderr, "%s: %s, value %lu: not an address: ", program, option, (unsigned long)list->count + 1);
            show_text(text, strlen(text));
            return 0;
        }
        if (list->count == MOST) {
            fprintf(stderr, "%s: %s: more than %d addresses\n", program, option, MOST);
            return 0;
        }
        list->addresses[list->count++] = address;
    } while (skip(&at, ','));
    return 1;
}

/* Takes the options from the front of the arguments: -d for the table, -n for the next hops, -a for what is asked. Ends
   the program where there is another one. */
static inline int take_options(const char *program, int *argc, char ***argv, struct gateway_table *table,
                               struct list *hops, struct list *asked)
{
    while (*argc > 1 && (*argv)[1][0] == '-' && (*argv)[1][1] != '\0') {
        const char *const option = (*argv)[1], *const value = *argc > 2 ? (*argv)[2] : "";
        if (strcmp(option, "-d") == 0) {
            if (!take_filters(program, argc, argv, table))
                return 0;
            continue;
        }
        if (strcmp(option, "-n") != 0 && strcmp(option, "-a") != 0) {
            fprintf(stderr, "usage: %s [-d D[,D]...] [-n NEXT_HOP[,NEXT_HOP]...] [-a ADDRESS[,ADDRESS]...] [FILE]...\n",
                    program);
            exit(2);
        }
        if (!take_addresses(program, option, value, option[1] == 'n' ? hops : asked))
            return 0;
        *argc -= 2;
        *argv += 2;
    }
    return 1;
}

/* Whether a call was accepted. */
static inline int accepted(const char *program, const char *call, uint32_t refusal)
{
    if (refusal != GATEWAY_OK)
        fprintf(stderr, "%s: %s: refused, number %u: %s\n", program, call, (unsigned)refusal,
                gateway_refusal_text(refusal));
    return refusal == GATEWAY_OK;
}

/* A file as far as it has been read. */
struct source {
    const char *program, *name;
    FILE *file;
    unsigned long long bytes;
    int error; /* why it can be read no further, or 0 */
    int shown; /* whether a line on standard error shows how far it has come */
};

/* Opens a file; - is standard input. */
static inline int open_source(struct source *source, const char *program, const char *name)
{
    const int is_input = strcmp(name, "-") == 0;
    const struct source opened = {program, is_input ? "standard input" : name,
                                  is_input ? stdin : fopen(name, "rb"), 0, 0, 0};
    *source = opened;
    if (source->file == NULL) {
        fprintf(stderr, "%s: cannot be opened: %s: ", program, strerror(errno));
        show_text(source->name, strlen(source->name));
    }
    return source->file != NULL;
}

/* Reads the next chunk; answers how many bytes it has, and 0 where there is none. */
static inline size_t read_chunk(struct source *source, uint8_t chunk[GATEWAY_CHUNK_BYTES])
{
    const size_t size = fread(chunk, 1, GATEWAY_CHUNK_BYTES, source->file);
    if (ferror(source->file) && source->error == 0)
        source->error = errno;
    source->bytes += size;
    return size;
}

/* Shows once a second how far it has come, on a terminal. */
static inline void show_progress(struct source *source, unsigned long many, const char *what)
{
    static time_t last;
    const time_t now = time(NULL);
    if (last != 0 && last != now && isatty(STDERR_FILENO)) {
        fprintf(stderr, "\r%s: %llu MB, %lu %s", source->program, source->bytes / 1000000, many, what);
        source->shown = 1;
    }
    last = now;
}

/* Removes that line. */
static inline void clear_progress(struct source *source)
{
    if (source->shown)
        fprintf(stderr, "\r\033[K");
    source->shown = 0;
}

/* Closes it; 0 if its end was not reached, or its last call was refused. */
static inline int close_source(struct source *source, uint32_t refusal)
{
    const int right = refusal == GATEWAY_OK && source->error == 0;
    clear_progress(source);
    if (refusal != GATEWAY_OK)
        fprintf(stderr, "%s: refused, number %u: %s: by byte %llu of ", source->program, (unsigned)refusal,
                gateway_refusal_text(refusal), source->bytes);
    else if (!right)
        fprintf(stderr, "%s: cannot be read: %s: after byte %llu of ", source->program, strerror(source->error),
                source->bytes);
    if (!right)
        show_text(source->name, strlen(source->name));
    if (source->file != stdin)
        fclose(source->file);
    return right;
}

/* Writes where an address goes. Only files filled the table, so that each of its hops is a place in the list. */
static inline int answer(const char *program, const struct gateway_table *table, const struct list *hops,
                         uint32_t address)
{
    const struct gateway_answer found = gateway_table_lookup(table, address);
    if (!accepted(program, "lookup", found.refusal))
        return 0;
    print_address(address);
    printf(": ");
    print_answer(address, found, hops->addresses);
    return 1;
}

#endif
