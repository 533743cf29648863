/* Tests each call of the library and what it returns. What a compiler's sanitizers report is a part of the test. */
#include <stdbool.h>
#include <stdio.h>
#include <stdlib.h>
#include <string.h>

#include "bitcol.h"

static int faults;

static void check(bool holds, const char *what) {
    if (holds) return;
    printf("wrong: %s\n", what);
    faults++;
}

static const uint8_t *bytes_of(const char *text) { return (const uint8_t *)text; }

static uint32_t answer(bitcol *store, const char *script) { return bitcol_answer(store, bytes_of(script), strlen(script)); }

/* Whether the replies are these; they are read a few bytes at a time. */
static bool replied(bitcol *store, const char *expected) {
    char replies[1024];
    size_t length = 0, copied;
    do {
        copied = bitcol_reply(store, length, (uint8_t *)replies + length, 7);
        length += copied;
    } while (copied && length < sizeof replies - 7);
    return length == bitcol_reply_length(store) && length == strlen(expected) && memcmp(replies, expected, length) == 0;
}

static void scripts(void) {
    bitcol store, stopping;
    check(bitcol_open(0, &store) == BITCOL_DONE, "open");
    check(bitcol_open(1, &stopping) == BITCOL_DONE, "open another");
    check(answer(&store, "") == BITCOL_DONE && replied(&store, ""), "no script");
    check(answer(&store, "CREATE TABLE t (a INT); INSERT INTO t VALUES (3), (NULL)") == BITCOL_DONE, "a rest");
    check(replied(&store, "ok\nerror 10: syntax error\n"), "a rest isn't carried out");
    check(answer(&store, "; INSERT INTO t VALUES (3); -- no more\n") == BITCOL_DONE && replied(&store, "ok 1\n"), "nothing is left of it");
    check(answer(&store, "SELECT a FROM u; SELECT a FROM t;") == BITCOL_DONE, "a refusal is an answer");
    check(replied(&store, "error 20: no such table\nA\n3\nrows 1\n"), "and what follows it is carried out");
    check(bitcol_reply(&store, 1000, (uint8_t[1]){0}, 1) == 0, "no reply from there on");
    check(answer(&stopping, "SELECT a FROM t; CREATE TABLE t (a INT);") == BITCOL_STOPPED, "a refusal stops");
    check(replied(&stopping, "error 20: no such table\n"), "nothing follows it");
    check(answer(&stopping, "CREATE TABLE t (a INT);") == BITCOL_DONE && replied(&stopping, "ok\n"), "until the next script");
    bitcol_close(stopping);
    bitcol_close(store);
}

static void files(void) {
    bitcol store;
    uint8_t file[64];
    size_t length = 7;
    check(bitcol_open(0, &store) == BITCOL_DONE, "open");
    check(bitcol_put_file(&store, bytes_of("a.csv"), 5, bytes_of("1\n2\n"), 4) == BITCOL_DONE, "put a file");
    check(bitcol_put_file(&store, bytes_of("\xff"), 1, bytes_of(""), 0) == BITCOL_NO_NAME, "a name that is none");
    check(answer(&store, "CREATE TABLE t (a INT); LOAD t FROM 'a.csv'; SAVE t TO 't'; OPEN u FROM 't'; TABLES;") == BITCOL_DONE, "files");
    check(replied(&store, "ok\nok 2\nok 2\nok 2\nTABLE,COLUMNS,ROWS\nT,1,2\nU,1,2\nrows 2\n"), "files are read and written");
    check(bitcol_file(&store, bytes_of("b"), 1, file, sizeof file, &length) == BITCOL_NO_FILE && length == 7, "no such file");
    check(bitcol_file(&store, bytes_of("\xff"), 1, file, sizeof file, &length) == BITCOL_NO_NAME && length == 7, "no name");
    check(bitcol_file(&store, bytes_of("a.csv"), 5, file, 3, &length) == BITCOL_NO_ROOM && length == 4, "no room");
    check(bitcol_file(&store, bytes_of("a.csv"), 5, file, 4, &length) == BITCOL_DONE && length == 4, "room enough");
    check(memcmp(file, "1\n2\n", 4) == 0, "the file's bytes");
    check(bitcol_file(&store, bytes_of("t"), 1, file, sizeof file, &length) == BITCOL_DONE && length == 30, "a table file");
    check(memcmp(file, "BITCOL", 6) == 0, "which begins so");
    bitcol_close(store);
}

/* When out of memory, a call says so, and the store is unchanged. */
static void budget(void) {
    static const uint8_t rows[100000];
    bitcol store, none = {&faults};
    size_t before = bitcol_used();
    check(bitcol_open(0, &store) == BITCOL_DONE, "open");
    check(answer(&store, "CREATE TABLE t (a INT); INSERT INTO t VALUES (1), (NULL);") == BITCOL_DONE, "a table");
    bitcol_set_budget(1);
    check(answer(&store, "SELECT a FROM t;") == BITCOL_CUT_OFF, "no memory for a reply");
    bitcol_set_budget(0);
    /* The memory for replies is kept from script to script. */
    check(answer(&store, "TABLES; TABLES;") == BITCOL_DONE, "longer replies");
    bitcol_set_budget(bitcol_used() + sizeof rows);
    check(bitcol_put_file(&store, bytes_of("a"), 1, rows, sizeof rows / 2) == BITCOL_DONE, "a file that fits");
    check(bitcol_put_file(&store, bytes_of("b"), 1, rows, sizeof rows) == BITCOL_NO_MEMORY, "a file that doesn't");
    check(bitcol_open(0, &none) == BITCOL_NO_MEMORY && none.store == &faults, "no memory for a store");
    bitcol_set_budget(1);
    check(answer(&store, "SELECT a FROM t;") == BITCOL_DONE && replied(&store, "error 90: out of memory\n"), "none for an answer");
    bitcol_set_budget(0);
    check(answer(&store, "SELECT a FROM t;") == BITCOL_DONE && replied(&store, "A\n1\nNULL\nrows 2\n"), "and then there is");
    bitcol_close(store);
    check(bitcol_used() == before, "all memory is given back");
}

int main(void) {
    scripts();
    files();
    budget();
    printf("%d wrong\n", faults);
    return faults != 0;
}
