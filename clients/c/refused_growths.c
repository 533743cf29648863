/* Refuses each memory growth of a script in turn, by an allocator that replaces heap.c: up to that growth each reply is
 * the expected one, then a call reports no memory or a reply is error 90, and closing the store frees all memory. */
#include <stdbool.h>
#include <stdio.h>
#include <stdlib.h>
#include <string.h>

#include "bitcol.h"

typedef struct {
    bool is_there;
    void *block;
} answer;

/* The growths so far, the number of the growth that is refused, and the blocks that are allocated. */
static long growths, refused_growth, held;
static char nothing;

static answer block_of(void *block) { return block ? (answer){true, block} : (answer){false, &nothing}; }

static bool refuses(void) { return ++growths == refused_growth; }

answer rattle_alloc(size_t size, size_t align);
answer rattle_alloc(size_t size, size_t align) {
    void *block = refuses() ? NULL : malloc(size ? size : align);
    held += block != NULL;
    return block_of(block);
}

answer rattle_realloc(void *block, size_t old_size, size_t size, size_t align);
answer rattle_realloc(void *block, size_t old_size, size_t size, size_t align) {
    (void)old_size;
    return block_of(refuses() ? NULL : realloc(block, size ? size : align));
}

void rattle_dealloc(void *block);
void rattle_dealloc(void *block) {
    held--;
    free(block);
}

static const char *const statements[] = {
    "CREATE TABLE t (a INT, b INT USING H DICTIONARY, c INT USING S, d INT USING P);",
    "INSERT INTO t VALUES (1, 2, 3, 4), (NULL, NULL, NULL, NULL), (-5, 100000, 7, 2147483647);",
    "UPDATE t SET a = 9, d = b WHERE c = 3 OR a IS NULL;",
    "SELECT * FROM t WHERE NOT (a BETWEEN 1 AND 5) OR b IN (2, NULL);",
    "SELECT COUNT(*), SUM(a), MIN(b), MAX(c), MEDIAN(d) FROM t;",
    "SAVE t TO 'x';",
    "OPEN u FROM 'x';",
    "REBUILD u (a USING H);",
    "LOAD u FROM 'y.csv' WITH HEADER;",
    "DELETE FROM u WHERE a = 9;",
    "CREATE TABLE w (a BIGINT, b INT);",
    "INSERT INTO w VALUES (9223372036854775807, 1), (-9223372036854775808, NULL);",
    "UPDATE w SET b = a WHERE b = 1;",
    "SAVE w TO 'z';",
    "OPEN v FROM 'z';",
    "SELECT SUM(a), MEDIAN(a) FROM v WHERE a > b OR b IS NULL;",
    "TABLES;",
    "DROP TABLE t;",
};
enum { STATEMENTS = sizeof statements / sizeof *statements, ROOM = 512 };

static const char rows[] = "a,b,c,d\n1,,3,NULL\n";
static char expected[STATEMENTS][ROOM];
static int wrong;

/* Answers all statements, up to the first whose reply isn't the expected one. */
static void answer_all(bitcol *store) {
    for (int i = 0; i < STATEMENTS; i++) {
        char replies[ROOM] = "";
        uint32_t end = bitcol_answer(store, (const uint8_t *)statements[i], strlen(statements[i]));
        bitcol_reply(store, 0, (uint8_t *)replies, ROOM - 1);
        if (!refused_growth) strcpy(expected[i], replies);
        if (strcmp(replies, expected[i]) == 0) continue;
        bool is_front = end == BITCOL_CUT_OFF && strncmp(replies, expected[i], strlen(replies)) == 0;
        bool is_want = end == BITCOL_DONE && strcmp(replies, "error 90: out of memory\n") == 0;
        if (is_front || is_want) return;
        printf("growth %ld refused: %s %s", refused_growth, statements[i], replies);
        wrong++;
    }
}

/* Runs with this growth refused. Returns whether there was such a growth. */
static bool run(long refused) {
    bitcol store;
    growths = 0;
    refused_growth = refused;
    if (bitcol_open(0, &store) == BITCOL_DONE) {
        if (bitcol_put_file(&store, (const uint8_t *)"y.csv", 5, (const uint8_t *)rows, strlen(rows)) == BITCOL_DONE) answer_all(&store);
        bitcol_close(store);
    }
    if (held) printf("growth %ld refused: %ld blocks are left\n", refused, held), wrong++;
    held = 0;
    return refused <= growths;
}

int main(void) {
    run(0);
    for (int i = 0; i < STATEMENTS; i++) fputs(expected[i], stdout);
    long refused = 0;
    while (run(refused + 1)) refused++;
    printf("%ld growths refused in turn, %d wrong\n", refused, wrong);
    return wrong != 0;
}
