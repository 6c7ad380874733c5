/* Refused calls over what is lent: `call` must give the number and leave every byte of the arena. */
#ifndef REFUSED_H
#define REFUSED_H

#include "lent.h"

static uint8_t before[sizeof arena];

#define REFUSED(call, number)                                      \
    do {                                                           \
        memcpy(before, arena, arena_len);                          \
        IS(call, number);                                          \
        IS(memcmp(before, arena, arena_len), 0);                   \
    } while (0)

#endif
