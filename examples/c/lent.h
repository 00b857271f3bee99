/* The calls of Bahrufaz, with what its header asks of a caller tested before each is made.
 *
 * Each function returns the call's own number, or one of the negative ones below, and then nothing was
 * called and nothing changed. A call that asks for more stack than is left runs on a thread of its own.
 *
 * 'make install' puts it beside the library: #include <bahrufaz/lent.h>, and link with what
 * 'pkg-config --cflags --libs bahrufaz-lent' says. */
#ifndef LENT_H
#define LENT_H

#include <bahrufaz.h>

#ifdef __cplusplus
extern "C" {
#endif

enum lent_misuse {
    LENT_NULL = -1,      /* a pointer is null, also where the length is 0 */
    LENT_LENGTH = -2,    /* a run goes beyond the end of all addresses */
    LENT_ALIGNMENT = -3, /* words do not stand at a multiple of 4 */
    LENT_OVERLAP = -4,   /* a room, or the results, overlap something else that is lent */
    LENT_STACK = -5      /* there is too little stack, and no thread with enough can be started */
};

int lent_build(const uint8_t *draft, size_t draft_length, uint8_t *room, size_t room_length,
               uint32_t results[8]);
int lent_admit(const uint8_t *store, size_t store_length);
int lent_plan(const uint8_t *store, size_t store_length, const uint8_t *pattern,
              size_t pattern_length, uint32_t *room, size_t room_length, uint32_t results[8]);
int lent_list(const uint8_t *store, size_t store_length, const uint8_t *pattern,
              size_t pattern_length, uint32_t *work, size_t work_length, uint32_t *room,
              size_t room_length, uint32_t results[8]);

/* What a number says, or what was wrong about a call. */
const char *lent_sentence(int number);

#ifdef __cplusplus
}
#endif

#endif
