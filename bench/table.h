/* The scheme written by hand in C, to measure the proved one against. The calls are those of gateway.h. */
#ifndef TABLE_H
#define TABLE_H

#include <stddef.h>
#include <stdint.h>

uint64_t hand_clear(uint32_t k, const uint8_t *d, size_t d_count, uint32_t e, uint32_t s,
                    uint32_t a, uint32_t b, uint32_t c, uint8_t *counters, size_t counters_bytes,
                    uint32_t *slots, size_t slots_words);

uint64_t hand_add(uint32_t k, const uint8_t *d, size_t d_count, uint32_t e, uint32_t s, uint32_t a,
                  uint32_t b, uint32_t c, uint8_t *counters, size_t counters_bytes, uint32_t *slots,
                  size_t slots_words, uint32_t party, uint32_t prefix, uint32_t length,
                  uint32_t hop);

uint64_t hand_withdraw(uint32_t k, const uint8_t *d, size_t d_count, uint32_t e, uint32_t s,
                       uint32_t a, uint32_t b, uint32_t c, uint8_t *counters, size_t counters_bytes,
                       uint32_t *slots, size_t slots_words, uint32_t party, uint32_t prefix,
                       uint32_t length);

uint64_t hand_change(uint32_t k, const uint8_t *d, size_t d_count, uint32_t e, uint32_t s,
                     uint32_t a, uint32_t b, uint32_t c, uint8_t *counters, size_t counters_bytes,
                     uint32_t *slots, size_t slots_words, uint32_t party, uint32_t prefix,
                     uint32_t length, uint32_t hop);

/* The filters are asked first, all of them, then the buckets of the set bits from the highest down. */
uint64_t hand_lookup(uint32_t k, const uint8_t *d, size_t d_count, uint32_t e, uint32_t s,
                     uint32_t a, uint32_t b, uint32_t c, const uint8_t *counters,
                     size_t counters_bytes, const uint8_t *slots, size_t slots_bytes,
                     uint32_t party, uint32_t address);

/* The same, with the loop over the lengths unrolled. */
uint64_t hand_lookup_unrolled(uint32_t k, const uint8_t *d, size_t d_count, uint32_t e, uint32_t s,
                              uint32_t a, uint32_t b, uint32_t c, const uint8_t *counters,
                              size_t counters_bytes, const uint8_t *slots, size_t slots_bytes,
                              uint32_t party, uint32_t address);

uint64_t hand_match_vector(uint32_t k, const uint8_t *d, size_t d_count, uint32_t e, uint32_t s,
                           uint32_t a, uint32_t b, uint32_t c, const uint8_t *counters,
                           size_t counters_bytes, const uint8_t *slots, size_t slots_bytes,
                           uint32_t address);

uint64_t hand_lookup_list(uint32_t k, const uint8_t *d, size_t d_count, uint32_t e, uint32_t s,
                          uint32_t a, uint32_t b, uint32_t c, const uint8_t *counters,
                          size_t counters_bytes, const uint8_t *slots, size_t slots_bytes,
                          uint32_t party, const uint8_t *addresses, size_t addresses_bytes,
                          uint8_t *results, size_t results_bytes);

/* The routes of each table are collected into memory of its own and sorted by length and prefix. Then the
   two are merged, once to count and once to write. */
uint64_t hand_list_differences(uint32_t k, const uint8_t *d, size_t d_count, uint32_t e, uint32_t s,
                               uint32_t a, uint32_t b, uint32_t c, const uint8_t *counters,
                               size_t counters_bytes, const uint8_t *slots, size_t slots_bytes,
                               uint32_t k2, const uint8_t *d2, size_t d2_count, uint32_t e2,
                               uint32_t s2, uint32_t a2, uint32_t b2, uint32_t c2,
                               const uint8_t *counters2, size_t counters2_bytes,
                               const uint8_t *slots2, size_t slots2_bytes, uint32_t party,
                               uint8_t *list, size_t list_bytes);

/* The whole message is checked first, and then each route done. */
uint64_t hand_update(uint32_t k, const uint8_t *d, size_t d_count, uint32_t e, uint32_t s,
                     uint32_t a, uint32_t b, uint32_t c, uint8_t *counters, size_t counters_bytes,
                     uint32_t *slots, size_t slots_words, uint32_t party, const uint8_t *message,
                     size_t message_bytes, const uint32_t *hops, size_t hops_words);

uint64_t hand_write_withdrawal(uint32_t prefix, uint32_t length, uint8_t *room, size_t room_bytes);

/* Each record is copied into the room, and then checked and done there. */
uint64_t hand_import(uint32_t k, const uint8_t *d, size_t d_count, uint32_t e, uint32_t s,
                     uint32_t a, uint32_t b, uint32_t c, uint8_t *counters, size_t counters_bytes,
                     uint32_t *slots, size_t slots_words, uint32_t party, const uint32_t *hops,
                     size_t hops_words, uint32_t counts[3], uint32_t words[3], uint8_t room[65548],
                     const uint8_t *chunk, size_t chunk_bytes);

/* The same but for the room: a record that lies within one chunk is done where it lies. */
uint64_t hand_import_in_place(uint32_t k, const uint8_t *d, size_t d_count, uint32_t e, uint32_t s,
                              uint32_t a, uint32_t b, uint32_t c, uint8_t *counters,
                              size_t counters_bytes, uint32_t *slots, size_t slots_words,
                              uint32_t party, const uint32_t *hops, size_t hops_words,
                              uint32_t counts[3], uint32_t words[3], uint8_t room[65548],
                              const uint8_t *chunk, size_t chunk_bytes);

/* Both ways with the records of a day. */
uint64_t hand_replay(uint32_t k, const uint8_t *d, size_t d_count, uint32_t e, uint32_t s,
                     uint32_t a, uint32_t b, uint32_t c, uint8_t *counters, size_t counters_bytes,
                     uint32_t *slots, size_t slots_words, uint32_t party, const uint32_t *hops,
                     size_t hops_words, uint32_t tally[23], uint32_t words[3], uint8_t room[65548],
                     const uint8_t *chunk, size_t chunk_bytes);

uint64_t hand_replay_in_place(uint32_t k, const uint8_t *d, size_t d_count, uint32_t e, uint32_t s,
                              uint32_t a, uint32_t b, uint32_t c, uint8_t *counters,
                              size_t counters_bytes, uint32_t *slots, size_t slots_words,
                              uint32_t party, const uint32_t *hops, size_t hops_words,
                              uint32_t tally[23], uint32_t words[3], uint8_t room[65548],
                              const uint8_t *chunk, size_t chunk_bytes);

uint64_t hand_end_stream(uint32_t words[3]);

/* The same answers as of hand_lookup, but a length's filter is asked only when the search gets there. */
uint64_t hand_lookup_in_turn(uint32_t k, const uint8_t *d, size_t d_count, uint32_t e, uint32_t s,
                             uint32_t a, uint32_t b, uint32_t c, const uint8_t *counters,
                             size_t counters_bytes, const uint8_t *slots, size_t slots_bytes,
                             uint32_t party, uint32_t address);

#endif
