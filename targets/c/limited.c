// The memory of the library: that of the process, with a limit for each thread. It is what Rattle's library `libc` declares. Nothing proves
// it. Between calls only sessions hold memory. Who closes one on another thread gives back there what this thread took: so `held` may be below 0,
// and a limit counts from what was held when it was set.
#include <malloc.h>
#include <stddef.h>
#include <stdint.h>
#include <stdlib.h>

// What malloc needs for a block besides what it can use.
enum { HEAD = 16 };

static _Thread_local ptrdiff_t held, before;
static _Thread_local size_t most = SIZE_MAX;
static uint8_t nothing;

void picklestep_limit_memory(size_t bytes) {
    most = bytes;
    before = held;
}

typedef struct {
    uint64_t ok; // (all of the word counts)
    uint8_t *p;
} tried;

static tried answer(uint8_t *p) {
    if (p)
        held += (ptrdiff_t)malloc_usable_size(p) + HEAD;
    return (tried){p != NULL, p ? p : &nothing};
}

static int fits(size_t n) {
    const size_t more = held > before ? (size_t)(held - before) : 0;
    return n <= SIZE_MAX / 2 && more <= most && n + HEAD <= most - more;
}

tried rattle_alloc(size_t n, size_t align) {
    if (!n)
        n = align;
    return answer(fits(n) ? malloc(n) : NULL);
}

// Where it fails the old block stays.
tried rattle_realloc(uint8_t *p, size_t kept, size_t n, size_t align) {
    (void)kept;
    const ptrdiff_t was = (ptrdiff_t)malloc_usable_size(p) + HEAD;
    if (!n)
        n = align;
    held -= was;
    uint8_t *q = fits(n) ? realloc(p, n) : NULL;
    if (!q)
        held += was;
    return answer(q);
}

void rattle_dealloc(uint8_t *p) {
    held -= (ptrdiff_t)malloc_usable_size(p) + HEAD;
    free(p);
}
