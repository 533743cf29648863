/* A report from C: loads a CSV file from memory, runs a few statements, and prints the replies as the store writes
 * them. */
#include <stdio.h>
#include <stdlib.h>
#include <string.h>

#include "bitcol.h"

/* Answers a script and prints its replies. */
static void answer(bitcol *store, const char *script) {
    if (bitcol_answer(store, (const uint8_t *)script, strlen(script)) != BITCOL_DONE) exit(EXIT_FAILURE);
    size_t length = bitcol_reply_length(store);
    uint8_t *replies = malloc(length + 1);
    if (!replies) exit(EXIT_FAILURE);
    bitcol_reply(store, 0, replies, length);
    fwrite(replies, 1, length, stdout);
    free(replies);
}

int main(void) {
    static const char name[] = "visits.csv", rows[] = "1,30\n1,NULL\n2,45\n";
    bitcol store;
    if (bitcol_open(0, &store) != BITCOL_DONE) return EXIT_FAILURE;
    uint32_t put = bitcol_put_file(&store, (const uint8_t *)name, strlen(name), (const uint8_t *)rows, strlen(rows));
    if (put != BITCOL_DONE) return EXIT_FAILURE;
    answer(&store, "CREATE TABLE visits (day INT, seconds INT USING H DICTIONARY);");
    answer(&store, "LOAD visits FROM 'visits.csv'; SELECT SUM(seconds), MEDIAN(seconds) FROM visits WHERE day < 3;");
    answer(&store, "SELECT hours FROM visits;");
    bitcol_close(store);
    return EXIT_SUCCESS;
}
