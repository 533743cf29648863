/* The stores' allocator: the three functions that the library calls, built on malloc, with a budget. They are not
 * proved.
 *
 * Each block is preceded by its size, so that the budget relies on nothing of malloc but what the standard says. Counts
 * are atomic, since stores of several threads share them. */
#include <stdalign.h>
#include <stdatomic.h>
#include <stdbool.h>
#include <stddef.h>
#include <stdint.h>
#include <stdlib.h>

#include "bitcol.h"

/* What the library expects: whether there is a block, and where it is. */
typedef struct {
    bool is_there;
    void *block;
} answer;

typedef struct {
    alignas(max_align_t) size_t size;
} header;

static atomic_size_t used, budget;
/* What a refusal points to: the library expects a pointer that isn't null there too. */
static max_align_t nothing;

void bitcol_set_budget(size_t bytes) { atomic_store(&budget, bytes); }

size_t bitcol_used(void) { return atomic_load(&used); }

/* Adds `bytes` to the count, unless that would exceed the budget. */
static bool grows(size_t bytes) {
    size_t most = atomic_load(&budget), now = atomic_load(&used);
    do {
        if (most && (now > most || bytes > most - now)) return false;
    } while (!atomic_compare_exchange_weak(&used, &now, now + bytes));
    return true;
}

static answer refused(void) { return (answer){false, &nothing}; }

static answer block_of(header *at, size_t size) {
    at->size = size;
    return (answer){true, at + 1};
}

answer rattle_alloc(size_t size, size_t align);
answer rattle_alloc(size_t size, size_t align) {
    if (align > alignof(max_align_t) || size > SIZE_MAX - sizeof(header) || !grows(size)) return refused();
    header *at = malloc(sizeof(header) + size);
    if (at) return block_of(at, size);
    atomic_fetch_sub(&used, size);
    return refused();
}

answer rattle_realloc(void *block, size_t old_size, size_t size, size_t align);
answer rattle_realloc(void *block, size_t old_size, size_t size, size_t align) {
    (void)old_size;
    (void)align;
    header *at = (header *)block - 1;
    size_t had = at->size, more = size > had ? size - had : 0;
    if (size > SIZE_MAX - sizeof(header) || !grows(more)) return refused();
    header *moved = realloc(at, sizeof(header) + size);
    if (!moved) {
        atomic_fetch_sub(&used, more);
        return refused();
    }
    if (size < had) atomic_fetch_sub(&used, had - size);
    return block_of(moved, size);
}

void rattle_dealloc(void *block);
void rattle_dealloc(void *block) {
    header *at = (header *)block - 1;
    atomic_fetch_sub(&used, at->size);
    free(at);
}
