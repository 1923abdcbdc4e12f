/* The calls of a library, or by hand, so that a program can make the same call of two of them. */
#ifndef CALLS_H
#define CALLS_H

#include <gateway.h>

struct calls {
    __typeof__(gateway_clear) *clear;
    __typeof__(gateway_add) *add;
    __typeof__(gateway_withdraw) *withdraw;
    __typeof__(gateway_change) *change;
    __typeof__(gateway_lookup) *lookup;
    __typeof__(gateway_match_vector) *match_vector;
    __typeof__(gateway_lookup_list) *lookup_list;
    __typeof__(gateway_list_differences) *list_differences;
    __typeof__(gateway_update) *update;
    __typeof__(gateway_write_withdrawal) *write_withdrawal;
    __typeof__(gateway_import) *import;
    __typeof__(gateway_replay) *replay;
    __typeof__(gateway_end_stream) *end_stream;
    int one_party; /* whether they are of a library up to 0.9, which names no party and has one word of slots less */
    int one_d;     /* whether they are of one up to 0.5, which besides takes one D for all lengths */
};

/* Those whose names begin with a word. */
#define CALLS_OF(word)                                                                             \
    {                                                                                              \
        word##_clear, word##_add, word##_withdraw, word##_change, word##_lookup, word##_match_vector, \
            word##_lookup_list, word##_list_differences, word##_update, word##_write_withdrawal,   \
            word##_import, word##_replay, word##_end_stream, 0, 0                                  \
    }

#endif
