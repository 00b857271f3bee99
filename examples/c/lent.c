#define _GNU_SOURCE /* pthread_getattr_np */
#include "lent.h"

#include <pthread.h>

enum {
    BUILD_STACK = 4 << 20,
    PLAN_STACK = 64 << 10,
    MARGIN = 64 << 10 /* what the thread itself and the caller take beside the call */
};

/* A run that is lent: where it starts, its length in bytes, and whether it may be changed. */
struct run {
    const void *at;
    size_t length, size; /* in elements, and the bytes of one */
    int is_room;
};

/* Whether two runs have an address in common. */
static int overlap(const struct run *one, const struct run *other) {
    uintptr_t a = (uintptr_t)one->at, b = (uintptr_t)other->at;
    size_t m = one->length * one->size, n = other->length * other->size;
    return m && n && a < b + n && b < a + m;
}

static int check_run(const struct run *run) {
    uintptr_t at = (uintptr_t)run->at;
    if (!run->at) return LENT_NULL;
    if (run->length > (UINTPTR_MAX - at) / run->size) return LENT_LENGTH;
    return at % run->size ? LENT_ALIGNMENT : 0;
}

static int check_runs(const struct run *runs, size_t count) {
    for (size_t i = 0; i < count; i++) {
        int wrong = check_run(&runs[i]);
        if (wrong) return wrong;
    }
    for (size_t i = 0; i < count; i++)
        for (size_t j = 0; j < i; j++)
            if ((runs[i].is_room || runs[j].is_room) && overlap(&runs[i], &runs[j]))
                return LENT_OVERLAP;
    return 0;
}

/* How many bytes of stack this thread has left; 0 where that cannot be known. */
static size_t stack_left(void) {
    pthread_attr_t attributes;
    void *lowest = NULL;
    size_t size = 0;
    char here;
    if (pthread_getattr_np(pthread_self(), &attributes)) return 0;
    int told = pthread_attr_getstack(&attributes, &lowest, &size);
    pthread_attr_destroy(&attributes);
    return told || (char *)lowest > &here ? 0 : (size_t)(&here - (char *)lowest);
}

static int run_on_thread(size_t bytes, void *(*work)(void *), void *argument) {
    pthread_attr_t attributes;
    pthread_t thread;
    if (pthread_attr_init(&attributes)) return LENT_STACK;
    int wrong = pthread_attr_setstacksize(&attributes, bytes) ||
                pthread_create(&thread, &attributes, work, argument);
    pthread_attr_destroy(&attributes);
    if (wrong || pthread_join(thread, NULL)) return LENT_STACK;
    return 0;
}

/* Does the work with so many bytes of stack. */
static int run_with_stack(size_t bytes, void *(*work)(void *), void *argument) {
    if (stack_left() < bytes + MARGIN) return run_on_thread(bytes + MARGIN, work, argument);
    work(argument);
    return 0;
}

/* A call that is to be made, with all that it is lent. */
struct call {
    const uint8_t *store, *pattern;
    size_t store_length, pattern_length;
    uint8_t *bytes;
    uint32_t *work, *words, *results;
    size_t work_length, room_length;
    uint32_t number;
};

static void *make_build(void *argument) {
    struct call *c = argument;
    c->number = bahrufaz_build(c->store, c->store_length, c->bytes, c->room_length, c->results);
    return NULL;
}

static void *make_admit(void *argument) {
    struct call *c = argument;
    c->number = bahrufaz_admit(c->store, c->store_length);
    return NULL;
}

static void *make_plan(void *argument) {
    struct call *c = argument;
    c->number = bahrufaz_plan(c->store, c->store_length, c->pattern, c->pattern_length, c->words,
                              c->room_length, c->results);
    return NULL;
}

static void *make_list(void *argument) {
    struct call *c = argument;
    c->number = bahrufaz_list(c->store, c->store_length, c->pattern, c->pattern_length, c->work,
                              c->work_length, c->words, c->room_length, c->results);
    return NULL;
}

/* Tests what is lent and makes the call. */
static int make(struct call *call, const struct run *runs, size_t count, size_t stack,
                void *(*work)(void *)) {
    int wrong = check_runs(runs, count);
    if (!wrong) wrong = run_with_stack(stack, work, call);
    return wrong ? wrong : (int)call->number;
}

int lent_build(const uint8_t *draft, size_t draft_length, uint8_t *room, size_t room_length,
               uint32_t results[8]) {
    struct run runs[] = {{draft, draft_length, 1, 0}, {room, room_length, 1, 1}, {results, 8, 4, 1}};
    struct call call = {.store = draft,
                        .store_length = draft_length,
                        .bytes = room,
                        .room_length = room_length,
                        .results = results};
    return make(&call, runs, 3, BUILD_STACK, make_build);
}

int lent_admit(const uint8_t *store, size_t store_length) {
    struct run runs[] = {{store, store_length, 1, 0}};
    struct call call = {.store = store, .store_length = store_length};
    return make(&call, runs, 1, BUILD_STACK, make_admit);
}

int lent_plan(const uint8_t *store, size_t store_length, const uint8_t *pattern,
              size_t pattern_length, uint32_t *room, size_t room_length, uint32_t results[8]) {
    struct run runs[] = {{store, store_length, 1, 0},
                         {pattern, pattern_length, 1, 0},
                         {room, room_length, 4, 1},
                         {results, 8, 4, 1}};
    struct call call = {.store = store,
                        .store_length = store_length,
                        .pattern = pattern,
                        .pattern_length = pattern_length,
                        .words = room,
                        .room_length = room_length,
                        .results = results};
    return make(&call, runs, 4, PLAN_STACK, make_plan);
}

int lent_list(const uint8_t *store, size_t store_length, const uint8_t *pattern,
              size_t pattern_length, uint32_t *work, size_t work_length, uint32_t *room,
              size_t room_length, uint32_t results[8]) {
    struct run runs[] = {{store, store_length, 1, 0},
                         {pattern, pattern_length, 1, 0},
                         {work, work_length, 4, 1},
                         {room, room_length, 4, 1},
                         {results, 8, 4, 1}};
    struct call call = {.store = store,
                        .store_length = store_length,
                        .pattern = pattern,
                        .pattern_length = pattern_length,
                        .work = work,
                        .work_length = work_length,
                        .words = room,
                        .room_length = room_length,
                        .results = results};
    return make(&call, runs, 5, PLAN_STACK, make_list);
}

const char *lent_sentence(int number) {
    switch (number) {
    case LENT_NULL: return "a pointer is null";
    case LENT_LENGTH: return "a run goes beyond the end of all addresses";
    case LENT_ALIGNMENT: return "words do not stand at a multiple of 4";
    case LENT_OVERLAP: return "a room overlaps something else that is lent";
    case LENT_STACK: return "too little stack";
    default: return bahrufaz_sentence((uint32_t)number);
    }
}
