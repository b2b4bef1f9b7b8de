// Tries targets/c/limited.c: the limit of each thread, refusals that leave all as it was, and a load of random sizes.
#include "limited.c"
#include <pthread.h>
#include <stdio.h>
#include <string.h>

enum { BLOCKS = 200, ROUNDS = 200000, ROUNDED = 4096 };

static uint8_t *blocks[BLOCKS], marks[BLOCKS];
static size_t sizes[BLOCKS];
static uint64_t seed = 88172645463325252;

static uint64_t next(void) {
    seed ^= seed << 13;
    seed ^= seed >> 7;
    seed ^= seed << 17;
    return seed;
}

static void need(int holds, const char *what) {
    if (!holds) {
        puts(what);
        exit(1);
    }
}

static int has(size_t i, size_t n) {
    for (size_t k = 0; k < n; k++)
        if (blocks[i][k] != (uint8_t)(marks[i] + k))
            return 0;
    return 1;
}

static void take(size_t i, tried t, size_t n) {
    blocks[i] = t.p;
    sizes[i] = n;
    marks[i] = (uint8_t)next();
    for (size_t k = 0; k < n; k++)
        t.p[k] = (uint8_t)(marks[i] + k);
}

static int try_load(size_t limit) {
    int refused = 0;
    picklestep_limit_memory(limit);
    for (int round = 0; round < ROUNDS; round++) {
        size_t i = next() % BLOCKS, n = next() % 3000, was = held;
        if (blocks[i] && next() % 3 == 0) {
            need(has(i, sizes[i]), "a byte was changed");
            rattle_dealloc(blocks[i]);
            blocks[i] = NULL;
            need(held < was, "a block that was given back is counted");
            continue;
        }
        tried t = blocks[i] ? rattle_realloc(blocks[i], sizes[i], n, 1) : rattle_alloc(n, 1);
        need(t.ok <= 1 && t.p && !((uintptr_t)t.p & 15 && t.ok), "an address");
        need(held <= limit || held - limit <= ROUNDED, "above the limit");
        if (!t.ok)
            need(held == was && was + n + HEAD > limit && (!blocks[i] || has(i, sizes[i])), "a refusal that changes something, or is none");
        else if (need(!blocks[i] || (blocks[i] = t.p, has(i, n < sizes[i] ? n : sizes[i])), "a byte was not kept"), 1)
            take(i, t, n);
        refused += !t.ok;
    }
    for (size_t i = 0; i < BLOCKS; i++)
        if (blocks[i])
            rattle_dealloc(blocks[i]), blocks[i] = NULL;
    need(held == 0, "something is counted that nobody holds");
    return refused;
}

static void *other_thread(void *none) {
    (void)none;
    tried t = rattle_alloc(1 << 20, 1);
    need(t.ok, "the limit of another thread holds here");
    rattle_dealloc(t.p);
    picklestep_limit_memory(1);
    return NULL;
}

int main(void) {
    need(try_load(SIZE_MAX) == 0, "refused without a limit");
    need(try_load(100000) > 1000, "nothing was refused");
    picklestep_limit_memory(0);
    need(!rattle_alloc(0, 1).ok, "a limit of nothing");
    picklestep_limit_memory(100);
    pthread_t thread;
    need(!pthread_create(&thread, NULL, other_thread, NULL) && !pthread_join(thread, NULL), "a thread");
    tried t = rattle_alloc(0, 8);
    need(t.ok, "the limit that another thread set holds here");
    rattle_dealloc(t.p);
    picklestep_limit_memory(SIZE_MAX);
    for (size_t n = 0; n < 40; n++)
        need(!rattle_alloc(SIZE_MAX - n, 1).ok && !rattle_alloc(SIZE_MAX / 2 + 1 + n, 1).ok, "more than there is");
    need(held == 0, "what was refused is counted");
    return 0;
}
