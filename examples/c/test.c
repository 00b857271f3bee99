/* Tests of lent.h: the small world, refusals, and what no call may be lent. */
#include "lent.h"

#include <pthread.h>
#include <stdio.h>
#include <stdlib.h>
#include <string.h>

static int failed;

static void expect(int told, int expected, const char *what, int line) {
    if (told == expected) return;
    fprintf(stderr, "test.c:%d: %s is %d, expected %d\n", line, what, told, expected);
    failed = 1;
}

#define EXPECT(told, expected) expect((int)(told), (int)(expected), #told, __LINE__)

static size_t put(uint8_t *to, size_t at, size_t size, uint32_t value) {
    for (size_t i = 0; i < size; i++) to[at + i] = (uint8_t)(value >> (8 * i));
    return at + size;
}

/* The draft of the small world: 200 bytes. */
static size_t small_draft(uint8_t *to) {
    static const uint32_t header[] = {1, 7, 6, 4, 0, 0, 48, 104, 152, 200, 200, 200};
    static const uint16_t nodes[][2] = {{1, 1}, {1, 2}, {2, 46}, {2, 44}, {3, 10}, {4, 100}, {4, 101}};
    static const uint32_t edges[][2] = {{0, 2}, {1, 3}, {4, 5}, {4, 6}, {5, 3}, {6, 2}};
    static const uint16_t constraints[][3] = {{0, 1, 2}, {1, 2, 1}, {2, 4, 4}, {4, 3, 1}};
    size_t at = 0;
    for (size_t i = 0; i < 12; i++) at = put(to, at, 4, header[i]);
    for (size_t i = 0; i < 7; i++) at = put(to, put(to, at, 4, nodes[i][0]), 4, nodes[i][1]);
    for (size_t i = 0; i < 6; i++) at = put(to, put(to, at, 4, edges[i][0]), 4, edges[i][1]);
    for (size_t i = 0; i < 4; i++) {
        at = put(to, put(to, at, 2, constraints[i][0]), 4, 0);
        at = put(to, put(to, at, 2, constraints[i][1]), 4, constraints[i][2]);
    }
    return at;
}

/* Pattern A: 94 bytes. */
static size_t pattern_a(uint8_t *to) {
    static const uint32_t header[] = {1, 4, 3, 24, 88, 94};
    static const uint8_t labels[] = {1, 2, 4, 3}, edges[] = {0, 1, 2, 1, 3, 2};
    size_t at = 0;
    for (size_t i = 0; i < 6; i++) at = put(to, at, 4, header[i]);
    for (size_t i = 0; i < 4; i++) {
        at = put(to, at, 2, labels[i]);
        at = put(to, put(to, at, 2, i ? 0 : 1), 4, i ? 0 : 2);
        at = put(to, put(to, at, 4, 0), 4, 0);
    }
    memcpy(to + at, edges, sizeof edges);
    return at + sizeof edges;
}

static uint8_t draft[200], store[440], pattern[94];
static uint32_t work[80], room[80], results[8];
static uint32_t *volatile nothing; /* null, and no compiler may know it */

/* The row of edge 1 of pattern A, field to format: the field is fetched from the format. */
static void test_plan_row(const uint32_t row[BAHRUFAZ_PLAN_ROW]) {
    EXPECT(row[BAHRUFAZ_PLAN_KIND], 1);
    EXPECT(row[BAHRUFAZ_PLAN_NUMBER], 1);
    EXPECT(row[BAHRUFAZ_PLAN_FETCHED], 2);
    EXPECT(row[BAHRUFAZ_PLAN_CONSTRAINT], 2);
    EXPECT(row[BAHRUFAZ_PLAN_CHOSEN_0], 1);
    EXPECT(row[BAHRUFAZ_PLAN_CHOSEN_1], BAHRUFAZ_PLAN_NONE);
    EXPECT(row[BAHRUFAZ_PLAN_CHOSEN_2], BAHRUFAZ_PLAN_NONE);
    EXPECT(row[BAHRUFAZ_PLAN_FIGURE], 8);
}

static void test_small_world(void) {
    EXPECT(small_draft(draft), 200);
    EXPECT(pattern_a(pattern), 94);
    EXPECT(lent_build(draft, 200, store, 440, results), 0);
    EXPECT(results[0], 432);
    EXPECT(lent_admit(store, 432), 0);
    EXPECT(lent_plan(store, 432, pattern, 94, room, 80, results), 0);
    EXPECT(results[0], 38);
    test_plan_row(room + 5 * BAHRUFAZ_PLAN_ROW);
    EXPECT(lent_list(store, 432, pattern, 94, work, 76, room, 4, results), 0);
    EXPECT(bahrufaz_matches(results), 1);
    EXPECT(results[BAHRUFAZ_LIST_NODE_ENTRIES], 5);
    EXPECT(results[BAHRUFAZ_LIST_EDGE_ENTRIES], 3);
    EXPECT(results[BAHRUFAZ_LIST_BOUND], 38);
    static const uint32_t row[] = {1, 3, 5, 4};
    EXPECT(memcmp(room, row, sizeof row), 0);
}

static void test_refusals(void) {
    EXPECT(lent_build(store, 432, store + 432, 0, results), 1);
    EXPECT(lent_build(draft, 200, store, 431, results), 10);
    EXPECT(lent_admit(draft, 200), 5);
    EXPECT(lent_admit(draft, 199), 1);
    EXPECT(lent_plan(store, 432, pattern, 93, room, 80, results), 6);
    EXPECT(lent_plan(store, 432, pattern, 94, room, 55, results), 10);
    EXPECT(lent_list(store, 432, pattern, 94, work, 75, room, 4, results), 9);
    EXPECT(lent_list(store, 432, pattern, 94, work, 76, room, 3, results), 10);
    uint8_t other[200];
    memcpy(other, draft, 200);
    other[48] = 0; /* the label of node 0 */
    EXPECT(lent_build(other, 200, store, 432, results), 2);
    memcpy(other, draft, 200);
    other[152 + 8] = 0; /* N of the first constraint */
    EXPECT(lent_build(other, 200, store, 432, results), 3);
    other[152 + 8] = 1;
    EXPECT(lent_build(other, 200, store, 432, results), 4);
}

/* Every number has a sentence of its own, and no other has one. */
static void test_sentences(void) {
    const char *none = bahrufaz_sentence(BAHRUFAZ_INDEX + 1);
    EXPECT(strcmp(none, "no such number"), 0);
    for (uint32_t number = 0; number <= BAHRUFAZ_INDEX; number++) {
        EXPECT(strcmp(lent_sentence((int)number), bahrufaz_sentence(number)), 0);
        for (uint32_t lower = 0; lower < number; lower++)
            EXPECT(strcmp(bahrufaz_sentence(lower), bahrufaz_sentence(number)) != 0, 1);
        EXPECT(strcmp(bahrufaz_sentence(number), none) != 0, 1);
    }
    for (int misuse = LENT_STACK; misuse <= LENT_NULL; misuse++)
        EXPECT(strcmp(lent_sentence(misuse), none) != 0, 1);
    EXPECT(strcmp(bahrufaz_sentence(BAHRUFAZ_UNCOVERED), "a pattern node or edge is not covered"), 0);
}

/* The upper half of the matches is read from its own word. */
static void test_matches(void) {
    uint32_t told[8] = {5};
    EXPECT(bahrufaz_matches(told) == 5, 1);
    told[BAHRUFAZ_LIST_MATCHES_UPPER] = 3;
    EXPECT(bahrufaz_matches(told) == 0x300000005, 1);
}

/* What is lent wrongly is told before any call: the rooms stay as they are. */
static void test_misuse(void) {
    uint8_t *bytes = (uint8_t *)room;
    memset(room, 7, sizeof room);
    EXPECT(lent_build((uint8_t *)nothing, 0, store, 440, results), LENT_NULL);
    EXPECT(lent_build(draft, 200, (uint8_t *)nothing, 0, results), LENT_NULL);
    EXPECT(lent_build(draft, 200, store, 440, nothing), LENT_NULL);
    EXPECT(lent_admit((uint8_t *)nothing, 0), LENT_NULL);
    EXPECT(lent_admit(draft, SIZE_MAX), LENT_LENGTH);
    EXPECT(lent_plan(store, 432, pattern, 94, room, SIZE_MAX / 2, results), LENT_LENGTH);
    EXPECT(lent_plan(store, 432, pattern, 94, (uint32_t *)(void *)(bytes + 2), 70, results), LENT_ALIGNMENT);
    EXPECT(lent_list(store, 432, pattern, 94, (uint32_t *)(void *)(bytes + 1), 76, work, 4, results), LENT_ALIGNMENT);
    EXPECT(lent_build(draft, 200, draft + 199, 1, results), LENT_OVERLAP);
    EXPECT(lent_plan(store, 432, pattern, 94, room, 73, room + 72), LENT_OVERLAP);
    EXPECT(lent_list(store, 432, pattern, 94, room, 76, room + 75, 4, results), LENT_OVERLAP);
    EXPECT(lent_list(store, 432, pattern, 94, room, 76, work, 4, room + 70), LENT_OVERLAP);
    for (size_t i = 0; i < sizeof room; i++) EXPECT(bytes[i], 7);
    EXPECT(lent_list(store, 432, pattern, 94, room, 76, room + 76, 4, results), 0);
    EXPECT(lent_plan(store, 432, store, 94, room, 80, results), 6); /* what is const may overlap */
}

static void *build_and_list(void *unused) {
    EXPECT(lent_build(draft, 200, store, 440, results), 0);
    EXPECT(lent_list(store, 432, pattern, 94, work, 76, room, 4, results), 0);
    return unused;
}

/* Without a stack of its own, building would end the program here. */
static void test_little_stack(void) {
    pthread_attr_t attributes;
    pthread_t thread;
    if (pthread_attr_init(&attributes) || pthread_attr_setstacksize(&attributes, 256 << 10) ||
        pthread_create(&thread, &attributes, build_and_list, NULL) || pthread_join(thread, NULL))
        EXPECT(0, 1);
}

int main(void) {
    test_small_world();
    test_refusals();
    test_sentences();
    test_matches();
    EXPECT(lent_build(draft, 200, store, 440, results), 0);
    test_misuse();
    test_little_stack();
    if (!failed) printf("c: all tests passed\n");
    return failed;
}
