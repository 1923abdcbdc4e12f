/* A file of MRT records that is put together from hexadecimal digits, and next hops, for the tests of imports and of
   replays. */
#ifndef RECORDS_H
#define RECORDS_H

#include <stddef.h>
#include <stdint.h>
#include <stdlib.h>
#include <string.h>

/* 10.9.9.1 is hop 1, its lowest place. */
static const uint32_t hops[] = {7, 0x0a090901, 0x0a090901, 0x0a090902};
enum { HOPS = sizeof hops / sizeof hops[0] };

#define NEXT_HOP "40 03 04 0a 09 09 01 "
#define OTHER_HOP "40 03 04 0a 09 09 02 "
#define UNKNOWN_HOP "40 03 04 0a 09 09 03 "
#define ORIGIN "40 01 01 00 "
#define AS_PATH "40 02 0a 02 02 00 00 fd e8 00 00 fd e9 "

enum { HEADER = 12, MOST_BODY = 65536, MOST_RECORDS = 24 };

/* Records one after the other, and where each starts. */
static struct {
    uint8_t bytes[2 * (HEADER + MOST_BODY)];
    size_t size, starts[MOST_RECORDS + 1], records;
} file;

static inline void put(const char *hex)
{
    while (*hex != '\0') {
        char *end;
        file.bytes[file.size++] = (uint8_t)strtoul(hex, &end, 16);
        for (hex = end; *hex == ' '; hex++)
            ;
    }
}

static inline void put_bytes(uint8_t byte, size_t many)
{
    memset(file.bytes + file.size, byte, many);
    file.size += many;
}

/* A number of so many bytes, the first one the highest. */
static inline void write_number(size_t at, size_t bytes, size_t number)
{
    for (; bytes > 0; number >>= 8)
        file.bytes[at + --bytes] = (uint8_t)number;
}

static inline void empty_file(void)
{
    file.size = file.records = 0;
}

/* Begins a record of this type and subtype: what is put next is its body. */
static inline void begin_record(const char *kind)
{
    file.starts[file.records++] = file.size;
    put("65 00 00 01");
    put(kind);
    put_bytes(0, 4);
}

/* The record is complete, and says how long its body is. */
static inline void end_record(void)
{
    const size_t start = file.starts[file.records - 1];
    write_number(start + 8, 4, file.size - start - HEADER);
    file.starts[file.records] = file.size;
}

static inline void put_record(const char *kind, const char *body)
{
    begin_record(kind);
    put(body);
    end_record();
}

/* Which record a place of the file lies within, or after. */
static inline size_t record_at(size_t place)
{
    size_t i = 0;
    while (i + 1 < file.records && file.starts[i + 1] <= place)
        i++;
    return i;
}

#endif
