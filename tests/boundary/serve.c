/* Makes the calls of the library on cases from standard input, and writes whole outcomes to standard
 * output. All words are 32 bits, little-endian, as on x86-64.
 *
 * A case: the call (1 build, 2 admit, 3 plan, 4 list), how often to make it, the lengths of store
 * (or draft), pattern, working room and result room in bytes, then these four as they are before.
 * Its outcome: the number, 8 results, the shortest time of the call in nanoseconds (two words, low
 * one first), then working room and result room as they are after.
 * At the end of input: one word, how many bytes of stack the calls used at most. */
#define _DEFAULT_SOURCE
#include <pthread.h>
#include <stdio.h>
#include <stdlib.h>
#include <string.h>
#include <sys/mman.h>
#include <time.h>

#include "bahrufaz.h"

enum { MARGIN = 32, STACK = 32 << 20 };
static const unsigned char mark = 0xa5;

static void fail(const char *why) {
    fprintf(stderr, "serve: %s\n", why);
    exit(1);
}

/* What is lent stands between two margins, which no call may change. */
struct part {
    unsigned char *block, *at;
    size_t bytes, held;
};

/* Reads a part; shift says how far it is from an address that is a multiple of 16. */
static void take(struct part *part, size_t bytes, size_t shift) {
    size_t all = MARGIN + shift + bytes + MARGIN;
    if (all > part->held) {
        free(part->block);
        part->block = malloc(all);
        if (!part->block) fail("no memory");
        part->held = all;
    }
    part->at = part->block + MARGIN + shift;
    part->bytes = bytes;
    memset(part->block, mark, MARGIN + shift);
    memset(part->at + bytes, mark, MARGIN);
    if (fread(part->at, 1, bytes, stdin) != bytes) fail("a case ends early");
}

static void check_margins(const struct part *part) {
    for (const unsigned char *b = part->block; b < part->at; b++)
        if (*b != mark) fail("a byte before what was lent is changed");
    for (size_t i = 0; i < MARGIN; i++)
        if (part->at[part->bytes + i] != mark) fail("a byte after what was lent is changed");
}

static struct part store, pattern, work, room;
static uint32_t results[8];

static uint32_t call(uint32_t which) {
    switch (which) {
#ifdef HAVE_BUILD
    case 1:
        return bahrufaz_build(store.at, store.bytes, room.at, room.bytes, results);
#endif
#ifdef HAVE_ADMIT
    case 2:
        memset(results, 0, sizeof results);
        return bahrufaz_admit(store.at, store.bytes);
#endif
#ifdef HAVE_PLAN
    case 3:
        return bahrufaz_plan(store.at, store.bytes, pattern.at, pattern.bytes, (uint32_t *)room.at,
                             room.bytes / 4, results);
#endif
#ifdef HAVE_LIST
    case 4:
        return bahrufaz_list(store.at, store.bytes, pattern.at, pattern.bytes, (uint32_t *)work.at,
                             work.bytes / 4, (uint32_t *)room.at, room.bytes / 4, results);
#endif
    default:
        fail("no such call in this library");
        return 0;
    }
}

static uint64_t now(void) {
    struct timespec t;
    clock_gettime(CLOCK_MONOTONIC, &t);
    return (uint64_t)t.tv_sec * 1000000000 + (uint64_t)t.tv_nsec;
}

static unsigned char *top;

static void *serve(void *unused) {
    uint32_t asked[6], told[11];
    top = (unsigned char *)asked;
    while (fread(asked, sizeof asked, 1, stdin) == 1) {
        /* Bytes at an odd address; words at a multiple of 4 and of no more. */
        take(&store, asked[2], 1);
        take(&pattern, asked[3], 3);
        take(&work, asked[4], 4);
        take(&room, asked[5], asked[0] == 1 ? 1 : 4);
        if (asked[1] == 0) fail("a case that asks for no call");
        uint64_t best = UINT64_MAX;
        for (uint32_t turn = 0; turn < asked[1]; turn++) {
            memset(results, mark, sizeof results);
            uint64_t from = now();
            told[0] = call(asked[0]);
            uint64_t took = now() - from;
            if (took < best) best = took;
        }
        check_margins(&store);
        check_margins(&pattern);
        check_margins(&work);
        check_margins(&room);
        memcpy(told + 1, results, sizeof results);
        told[9] = (uint32_t)best;
        told[10] = (uint32_t)(best >> 32);
        fwrite(told, sizeof told, 1, stdout);
        fwrite(work.at, 1, work.bytes, stdout);
        fwrite(room.at, 1, room.bytes, stdout);
        if (fflush(stdout)) fail("an outcome cannot be written");
    }
    return unused;
}

/* The calls are made on a stack filled with marks: the lowest byte that is none tells its use. */
int main(void) {
    pthread_attr_t attributes;
    pthread_t thread;
    unsigned char *stack =
        mmap(NULL, STACK, PROT_READ | PROT_WRITE, MAP_PRIVATE | MAP_ANONYMOUS, -1, 0);
    if (stack == MAP_FAILED) fail("no memory");
    memset(stack, mark, STACK);
    setvbuf(stdin, NULL, _IOFBF, 1 << 16);
    setvbuf(stdout, NULL, _IOFBF, 1 << 16);
    if (pthread_attr_init(&attributes) || pthread_attr_setstack(&attributes, stack, STACK) ||
        pthread_create(&thread, &attributes, serve, NULL) || pthread_join(thread, NULL))
        fail("no thread");
    unsigned char *low = stack;
    while (low < top && *low == mark) low++;
    uint32_t used = (uint32_t)(top - low);
    fwrite(&used, sizeof used, 1, stdout);
    return fflush(stdout) != 0;
}
