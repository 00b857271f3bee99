/* Bahrufaz: matches of a pattern in a graph store, from the part of the store that its plan names.
 *
 * Link with -lbahrufaz ('pkg-config --cflags --libs bahrufaz' says where). docs/LAYOUTS.md has the bytes
 * of drafts, stores and patterns. Every call answers any bytes: none has a condition on what
 * they say. Calls keep nothing between them, take no memory and start no thread, so they may run at
 * the same time on rooms of their own.
 *
 * What is lent:
 * - A run is a pointer and its length, counted in its elements: bytes for uint8_t, words for uint32_t.
 * - A pointer is never null, also where the length is 0. It points to as many elements as said, all
 *   of them set to something, also in the rooms.
 * - Bytes may stand at any address; words stand at a multiple of 4.
 * - A room, and the results, overlap nothing else that the same call is lent. What is lent as const may
 *   overlap other such, and is not changed.
 * - Nobody else changes what is lent, or reads a room, before the call is back.
 *
 * What is given back: the number, returned; 8 words of results, those beyond the ones named 0; the
 * rooms. On a refusal (a number other than 0) all results are 0 and the result room is unchanged.
 * On 0, what lies past the result is unchanged.
 */
#ifndef BAHRUFAZ_H
#define BAHRUFAZ_H

#include <stddef.h>
#include <stdint.h>

#ifdef __cplusplus
extern "C" {
#endif

/* The version of this header. Here and below, what is static is compiled into the program that includes
 * it: the library holds the calls alone, as they are proved. */
#define BAHRUFAZ_VERSION "0.1.0"
static inline const char *bahrufaz_version(void) { return BAHRUFAZ_VERSION; }

/* The numbers given back, each exactly when it is said. The calls look in this order:
 * building 1, 2, 3, 4, 11, 10; admitting 1, 2, 3, 4, 5; planning 1, 3, 6, 7, 8, 10;
 * listing 1, 3, 6, 7, 8, 9, 5, 10. */
enum bahrufaz_number {
    BAHRUFAZ_ANSWERED = 0,   /* answered */
    BAHRUFAZ_HEADER = 1,     /* header, count limit, offset or length wrong; building only: also g or e not 0 */
    BAHRUFAZ_RECORD = 2,     /* a node or edge record breaks its rule */
    BAHRUFAZ_CONSTRAINT = 3, /* a constraint breaks its rule */
    BAHRUFAZ_LONG_LIST = 4,  /* a list of the graph exceeds its N */
    BAHRUFAZ_UNFIT = 5,      /* admitting: index differs from the one built, or building would answer 11;
                                listing: a list read is unfit */
    BAHRUFAZ_PATTERN = 6,    /* pattern breaks its rules */
    BAHRUFAZ_UNCOVERED = 7,  /* a pattern node or edge is not covered */
    BAHRUFAZ_BOUND = 8,      /* T above 65,536 */
    BAHRUFAZ_WORK = 9,       /* working room below 2T words */
    BAHRUFAZ_ROOM = 10,      /* room for result too short */
    BAHRUFAZ_INDEX = 11      /* built index needs too many groups or entries */
};

/* What a number says: the sentence that stands beside it above. */
static inline const char *bahrufaz_sentence(uint32_t number) {
    switch (number) {
    case BAHRUFAZ_ANSWERED: return "answered";
    case BAHRUFAZ_HEADER:
        return "header, count limit, offset or length wrong; building only: also g or e not 0";
    case BAHRUFAZ_RECORD: return "a node or edge record breaks its rule";
    case BAHRUFAZ_CONSTRAINT: return "a constraint breaks its rule";
    case BAHRUFAZ_LONG_LIST: return "a list of the graph exceeds its N";
    case BAHRUFAZ_UNFIT:
        return "admitting: index differs from the one built, or building would answer 11; "
               "listing: a list read is unfit";
    case BAHRUFAZ_PATTERN: return "pattern breaks its rules";
    case BAHRUFAZ_UNCOVERED: return "a pattern node or edge is not covered";
    case BAHRUFAZ_BOUND: return "T above 65,536";
    case BAHRUFAZ_WORK: return "working room below 2T words";
    case BAHRUFAZ_ROOM: return "room for result too short";
    case BAHRUFAZ_INDEX: return "built index needs too many groups or entries";
    default: return "no such number";
    }
}

/* Writes the store of a draft into the room. Results: its length in bytes.
 * A store is at most 17,301,928 bytes long. Stack: under 4 MiB (3,935,592 bytes were measured at
 * most, over small drafts, feed panels and worlds at the limits).
 * Time follows nodes, edges and entries, times a logarithm, also round a node with very many
 * neighbours: 0.2 s at most were measured over feed panels of 60,000 nodes and worlds at the limits.
 * Only where the index would have more than 1,048,576 entries, and the answer is 4 or 11, a list
 * above its N is searched for, which may take longer: 9 s for a draft that was made for it, 1,020
 * nodes of which nearly all of three labels neighbour all of a fourth. */
uint32_t bahrufaz_build(const uint8_t *draft, size_t draft_length, uint8_t *room, size_t room_length,
                        uint32_t results[8]);

/* Whether building from the store's own nodes, edges and constraints gives the same bytes.
 * Stack and time: as building. */
uint32_t bahrufaz_admit(const uint8_t *store, size_t store_length);

/* The 8 words of a plan row, by their place in it. Nodes are pattern nodes. */
enum bahrufaz_plan_word {
    BAHRUFAZ_PLAN_KIND = 0,       /* 0 node, 1 edge */
    BAHRUFAZ_PLAN_NUMBER = 1,     /* of that node or edge in the pattern */
    BAHRUFAZ_PLAN_FETCHED = 2,    /* the fetched end; for a node, itself */
    BAHRUFAZ_PLAN_CONSTRAINT = 3, /* the number of the constraint that fetches it */
    BAHRUFAZ_PLAN_CHOSEN_0 = 4,   /* the chosen nodes, in the order of S; BAHRUFAZ_PLAN_NONE for none */
    BAHRUFAZ_PLAN_CHOSEN_1 = 5,
    BAHRUFAZ_PLAN_CHOSEN_2 = 6,
    BAHRUFAZ_PLAN_FIGURE = 7 /* N times the figures of the chosen nodes */
};
enum {
    BAHRUFAZ_PLAN_ROW = 8,    /* words of a row */
    BAHRUFAZ_PLAN_ROOM = 512, /* words that are always enough for all rows */
    BAHRUFAZ_PLAN_NONE = 255  /* stands for a chosen node that there is not */
};

/* Writes the rows of the plan, p + q of them, into the room: node rows in plan order, then edge rows in
 * pattern order. Results: T. Stack: under 64 KiB. */
uint32_t bahrufaz_plan(const uint8_t *store, size_t store_length, const uint8_t *pattern,
                       size_t pattern_length, uint32_t *room, size_t room_length, uint32_t results[8]);

/* The results of listing, by their place among the 8 words. */
enum bahrufaz_list_result {
    BAHRUFAZ_LIST_MATCHES = 0,      /* the lower 32 bits */
    BAHRUFAZ_LIST_NODE_ENTRIES = 1, /* read for node rows */
    BAHRUFAZ_LIST_EDGE_ENTRIES = 2, /* read for edge rows */
    BAHRUFAZ_LIST_BOUND = 3,        /* T */
    BAHRUFAZ_LIST_MATCHES_UPPER = 7 /* the upper 32 bits */
};

/* How many matches listing told. */
static inline uint64_t bahrufaz_matches(const uint32_t results[8]) {
    return (uint64_t)results[BAHRUFAZ_LIST_MATCHES_UPPER] << 32 | results[BAHRUFAZ_LIST_MATCHES];
}

/* Writes the matches, a word for each pattern node, into the room. They are the matches of the whole
 * graph if the store is admitted; a store that is not may lack some, so admit one that came from
 * elsewhere first. Results: matches, node entries read, edge entries read, T. Answers 0, 5 and 10 leave
 * the first 2T words of work 0 and the rest unchanged; any other answer changes none: 131,072 words are
 * always enough. Stack: under 64 KiB. */
uint32_t bahrufaz_list(const uint8_t *store, size_t store_length, const uint8_t *pattern,
                       size_t pattern_length, uint32_t *work, size_t work_length, uint32_t *room,
                       size_t room_length, uint32_t results[8]);

#ifdef __cplusplus
}
#endif

#endif
