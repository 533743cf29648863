/* What a small statement costs through the library: the least processor time of several rounds. Each statement is
 * answered and its reply copied out. */
#include <stdio.h>
#include <stdlib.h>
#include <string.h>
#include <time.h>

#include "bitcol.h"

enum { ROWS = 100, ROUNDS = 20, STATEMENTS = 2000 };

static const char *const statements[] = {
    "SELECT b FROM t WHERE a = 50;",
    "SELECT SUM(b) FROM t;",
    "UPDATE t SET b = -7 WHERE a = 7;",
};

static void answer(bitcol *store, const char *script) {
    uint8_t replies[4096];
    if (bitcol_answer(store, (const uint8_t *)script, strlen(script)) != BITCOL_DONE) exit(EXIT_FAILURE);
    bitcol_reply(store, 0, replies, sizeof replies);
}

/* Microseconds per statement in the quickest round. */
static double cost(bitcol *store, const char *statement) {
    clock_t least = 0;
    for (int round = 0; round < ROUNDS; round++) {
        clock_t begin = clock();
        for (int i = 0; i < STATEMENTS; i++) answer(store, statement);
        clock_t took = clock() - begin;
        if (round == 0 || took < least) least = took;
    }
    return 1e6 * (double)least / CLOCKS_PER_SEC / STATEMENTS;
}

int main(void) {
    bitcol store;
    if (bitcol_open(0, &store) != BITCOL_DONE) return EXIT_FAILURE;
    answer(&store, "CREATE TABLE t (a INT, b INT);");
    for (int row = 0; row < ROWS; row++) {
        char insert[64];
        snprintf(insert, sizeof insert, "INSERT INTO t VALUES (%d, %d);", row, -row);
        answer(&store, insert);
    }
    for (size_t i = 0; i < sizeof statements / sizeof *statements; i++)
        printf("%s %.2f microseconds\n", statements[i], cost(&store, statements[i]));
    bitcol_close(store);
    return EXIT_SUCCESS;
}
