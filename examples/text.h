/* Addresses, prefixes, answers and sizes of filters as text, for the examples. Each reader steps past what it has read,
   and answers 0 where that is not there. */
#ifndef TEXT_H
#define TEXT_H

#include <gateway.h>

#include <stddef.h>
#include <stdint.h>
#include <stdio.h>
#include <string.h>

/* A decimal number up to most, with no leading zero. */
static inline int read_number(const char **text, uint32_t most, uint32_t *number)
{
    const char *at = *text;
    uint64_t n = 0;
    if (*at < '0' || *at > '9' || (*at == '0' && at[1] >= '0' && at[1] <= '9'))
        return 0;
    while (*at >= '0' && *at <= '9') {
        n = 10 * n + (uint64_t)(*at++ - '0');
        if (n > most)
            return 0;
    }
    *text = at;
    *number = (uint32_t)n;
    return 1;
}

/* One character. */
static inline int skip(const char **text, char character)
{
    if (**text != character)
        return 0;
    ++*text;
    return 1;
}

/* Four octets separated by dots. */
static inline int read_address(const char **text, uint32_t *address)
{
    uint32_t octet;
    *address = 0;
    for (int i = 0; i < 4; i++) {
        if ((i > 0 && !skip(text, '.')) || !read_number(text, 255, &octet))
            return 0;
        *address = *address << 8 | octet;
    }
    return 1;
}

/* An address, a slash and a number. */
static inline int read_prefix(const char **text, uint32_t *prefix, uint32_t *length)
{
    return read_address(text, prefix) && skip(text, '/') && read_number(text, UINT32_MAX, length);
}

static inline void print_address(uint32_t address)
{
    printf("%u.%u.%u.%u", (unsigned)(address >> 24), (unsigned)(address >> 16 & 255),
           (unsigned)(address >> 8 & 255), (unsigned)(address & 255));
}

/* The next hop of an address, out of the list that its hop is a place in, and the route that it goes by; or "none". */
static inline void print_answer(uint32_t address, struct gateway_answer answer, const uint32_t *hops)
{
    if (!answer.found) {
        printf("none\n");
        return;
    }
    print_address(hops[answer.hop]);
    printf(" by ");
    print_address(answer.length == 0 ? 0 : address & 0xffffffff << (32 - answer.length));
    printf("/%u\n", (unsigned)answer.length);
}

/* Shows a text between quotes on standard error; what a terminal might obey is escaped. */
static inline void quote_text(const char *text, size_t size)
{
    fputc('\'', stderr);
    for (size_t i = 0; i < size; i++) {
        unsigned char c = (unsigned char)text[i];
        fprintf(stderr, c < ' ' || c > '~' || c == '\\' ? "\\x%02x" : "%c", c);
    }
    fputc('\'', stderr);
}

/* The same, at the end of a line. */
static inline void show_text(const char *text, size_t size)
{
    quote_text(text, size);
    fputc('\n', stderr);
}

/* Each length's D: one number from 4 to 11 for all lengths, or 32 separated by commas, that of length 1 first. What
   is wrong is reported on standard error, and 0 answered. */
static inline int read_filters(const char *program, const char *text, uint8_t d[GATEWAY_LENGTHS])
{
    const char *at = text;
    unsigned long count = 0;
    do {
        uint32_t value;
        const int right = read_number(&at, 11, &value) && value >= 4 && (*at == ',' || *at == '\0');
        if (right && count < GATEWAY_LENGTHS)
            d[count] = (uint8_t)value;
        count++;
        if (!right) {
            fprintf(stderr, "%s: -d, value %lu: not a number from 4 to 11: ", program, count);
            show_text(text, strlen(text));
            return 0;
        }
    } while (skip(&at, ','));
    if (count == 1)
        memset(d, d[0], GATEWAY_LENGTHS);
    if (count != 1 && count != GATEWAY_LENGTHS) {
        fprintf(stderr, "%s: -d has %lu values, not 1 or %d: ", program, count, GATEWAY_LENGTHS);
        show_text(text, strlen(text));
        return 0;
    }
    return 1;
}

/* Takes -d and what stands after it from the front of the arguments, if it is there, as the D of each length of
   a table whose counters have room for the largest. */
static inline int take_filters(const char *program, int *argc, char ***argv, struct gateway_table *table)
{
    if (*argc < 2 || strcmp((*argv)[1], "-d") != 0)
        return 1;
    if (!read_filters(program, *argc > 2 ? (*argv)[2] : "", table->settings.d))
        return 0;
    table->counters_bytes = gateway_counters_bytes(table->settings.d, GATEWAY_LENGTHS);
    *argc -= 2;
    *argv += 2;
    return 1;
}

#endif
