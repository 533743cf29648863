/* bitcol inside a program: an in-memory store that answers scripts.
 *
 * What a store answers is proved; the README of the crate bitcol_c says of each call how far. bitcol_set_budget and
 * bitcol_used are C and not proved. The caller's obligations, which are not checked:
 * - a store was opened by bitcol_open and has not been closed by bitcol_close;
 * - a store is used by one call at a time; between two calls it may move to another thread;
 * - no pointer is null, not even one to zero bytes, and each points to as many bytes as the call is told;
 * - memory that a call writes to does not overlap its other arguments;
 * - no call is made from a signal handler, or in the forked child of a process with threads;
 * - the stack has enough room: 256 KiB suffice.
 *
 * The library starts no thread, takes no lock, and touches no file, socket, clock or environment. */
#ifndef BITCOL_H
#define BITCOL_H

#include <stddef.h>
#include <stdint.h>

#ifdef __cplusplus
extern "C" {
#endif

/* A store, as bitcol_open sets it. Whoever holds it owns the store: a copy of it is the same store. */
typedef struct bitcol {
    void *store;
} bitcol;

enum {
    /* The call succeeded. From bitcol_answer: each statement was answered, including refused ones. */
    BITCOL_DONE = 0,
    /* From bitcol_answer: a reply was an error, and the store was opened to stop there. What follows was not
     * executed. */
    BITCOL_STOPPED = 1,
    /* From bitcol_answer: there was no memory for a reply. Its statement was executed, a prefix of the reply is kept,
     * and what follows was not executed. */
    BITCOL_CUT_OFF = 3,
    /* A file's name is not UTF-8. Nothing was written. */
    BITCOL_NO_NAME = 10,
    /* There is no such file. Nothing was written. */
    BITCOL_NO_FILE = 40,
    /* The buffer is too small for the file. Only the file's length was written. */
    BITCOL_NO_ROOM = 46,
    /* Out of memory. Nothing changed. */
    BITCOL_NO_MEMORY = 90
};

/* Opens a store without tables and files, and stores it in `*out`. Returns BITCOL_DONE; or BITCOL_NO_MEMORY, with
 * nothing written to `*out`. If `stops` is not 0, nothing of a script is executed after its first error. */
uint32_t bitcol_open(uint32_t stops, bitcol *out);

/* Answers the statements of a script on the tables and files that earlier calls left. Returns BITCOL_DONE,
 * BITCOL_STOPPED or BITCOL_CUT_OFF. Each statement needs its `;`: one that the end of the script cuts off is answered
 * with error 10. A refused statement is reported in the replies, and so is one that runs out of memory (error 90). */
uint32_t bitcol_answer(bitcol *store, const uint8_t *script, size_t length);

/* Returns the number of bytes of the replies to the last script. */
size_t bitcol_reply_length(bitcol *store);

/* Copies the replies to the last script to `out`, from byte `from` on and at most `room` bytes. Returns the number
 * copied. */
size_t bitcol_reply(bitcol *store, size_t from, uint8_t *out, size_t room);

/* Writes one of the store's own files, replacing one of that name, for LOAD and OPEN. Returns BITCOL_DONE,
 * BITCOL_NO_NAME or BITCOL_NO_MEMORY. Statements can reach only the store's own files. */
uint32_t bitcol_put_file(bitcol *store, const uint8_t *name, size_t name_length, const uint8_t *bytes, size_t length);

/* Copies one of the store's own files, as SAVE or bitcol_put_file wrote it, to `out`, which has room for `room` bytes,
 * and stores its length in `*length`. Returns BITCOL_DONE, BITCOL_NO_NAME, BITCOL_NO_FILE or BITCOL_NO_ROOM. */
uint32_t bitcol_file(bitcol *store, const uint8_t *name, size_t name_length, uint8_t *out, size_t room, size_t *length);

/* Closes a store and frees all of its memory. */
void bitcol_close(bitcol store);

/* Sets a budget for the memory of all stores together, which comes from malloc: an allocation that would exceed this
 * many bytes fails as if there were no memory. 0 means no budget. Must not be called while another thread uses a
 * store. */
void bitcol_set_budget(size_t bytes);

/* Returns the number of bytes that all stores use now. */
size_t bitcol_used(void);

#ifdef __cplusplus
}
#endif

#endif
