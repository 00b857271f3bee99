/* match STORE PATTERN: the matches of a pattern in a store, from two files of bytes.
 *
 * 'bahrufaz build' and 'bahrufaz pattern' make such files. It admits the store first, since one that is
 * not admitted may lack matches. It plans, lends the working room that the bound asks for, and prints the
 * number, the four results, and a line of node ids for each match.
 * Exit status: 0 answered, 1 refused, 2 wrong use. */
#include <inttypes.h>
#include <stdio.h>
#include <stdlib.h>

#include "lent.h"

enum { ROOM_WORDS = 1 << 20 };

struct bytes {
    uint8_t *at;
    size_t length;
};

/* A whole file; at is never null where it could be read. */
static struct bytes read_file(const char *path) {
    struct bytes file = {NULL, 0};
    FILE *stream = fopen(path, "rb");
    if (!stream) return file;
    size_t held = 1 << 16;
    file.at = malloc(held);
    while (file.at) {
        file.length += fread(file.at + file.length, 1, held - file.length, stream);
        if (file.length < held) break;
        uint8_t *longer = realloc(file.at, held *= 2);
        if (!longer) free(file.at);
        file.at = longer;
    }
    if (ferror(stream)) {
        free(file.at);
        file.at = NULL;
    }
    fclose(stream);
    return file;
}

static int refuse(int number) {
    fprintf(stderr, "match: refused with %d: %s\n", number, lent_sentence(number));
    return number < 0 ? 2 : 1;
}

/* Lists with the working room that the plan's bound asks for, and prints. */
static int list(struct bytes store, struct bytes pattern, uint32_t bound) {
    uint32_t results[8];
    int status = 2;
    uint32_t *work = calloc(2 * (size_t)bound + 1, 4), *room = calloc(ROOM_WORDS, 4);
    if (work && room) {
        int number = lent_list(store.at, store.length, pattern.at, pattern.length, work,
                               2 * (size_t)bound, room, ROOM_WORDS, results);
        status = number ? refuse(number) : 0;
    }
    if (!status) {
        size_t width = pattern.at[4]; /* p, which is at most 8 in a pattern that is not refused */
        uint64_t matches = bahrufaz_matches(results);
        printf("answer 0 matches %" PRIu64 " nodes %" PRIu32 " edges %" PRIu32 " bound %" PRIu32 "\n",
               matches, results[BAHRUFAZ_LIST_NODE_ENTRIES], results[BAHRUFAZ_LIST_EDGE_ENTRIES],
               results[BAHRUFAZ_LIST_BOUND]);
        for (size_t i = 0; i < matches * width; i++)
            printf("%" PRIu32 "%c", room[i], (i + 1) % width ? ' ' : '\n');
    }
    free(work);
    free(room);
    return status;
}

int main(int count, char **arguments) {
    if (count != 3) {
        fprintf(stderr, "usage: match STORE PATTERN\n");
        return 2;
    }
    struct bytes store = read_file(arguments[1]), pattern = read_file(arguments[2]);
    if (!store.at || !pattern.at) {
        fprintf(stderr, "match: %s cannot be read\n", arguments[store.at ? 2 : 1]);
        return 2;
    }
    uint32_t rows[BAHRUFAZ_PLAN_ROOM] = {0}, results[8];
    int number = lent_admit(store.at, store.length);
    if (!number)
        number = lent_plan(store.at, store.length, pattern.at, pattern.length, rows,
                           BAHRUFAZ_PLAN_ROOM, results);
    int status = number ? refuse(number) : list(store, pattern, results[0]);
    free(store.at);
    free(pattern.at);
    return status;
}
