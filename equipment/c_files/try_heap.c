// Tries targets/c/heap.c and targets/c/blocks.c under a load of random sizes, with memory and without. The status is 0 where every byte was
// found again. With -DMODULE it is the heap of a module, over a memory that stands in for the module's; else the calls of the kernel are wrapped.
#define _GNU_SOURCE
#include <stdarg.h>
#include <stddef.h>
#include <stdint.h>
#include <stdio.h>
#include <stdlib.h>
#include <string.h>
#include <sys/mman.h>

// Whether what is asked of the kernel or the host is refused from now on, and how often it was.
static int refusing, refused;

#ifdef MODULE
static uint8_t *memory;
static unsigned long pages = 17, most_pages = 65536, most_at_once = 65536;

static unsigned long grow(unsigned long n) {
    if (n > most_pages - pages || n > most_at_once || refusing)
        return refused++, (unsigned long)-1;
    pages += n;
    return pages - n;
}

#define MEMORY ((unsigned long)memory)
#define HEAP_BASE (MEMORY + 1000)
#define __builtin_wasm_memory_grow(which, n) grow(n)
#define __builtin_wasm_memory_size(which) pages
#define __wasm__ 1
#include "heap.c"
#undef __wasm__
#else
#include <sys/syscall.h>
typedef struct {
    uint64_t ok;
    uint8_t *p;
} tried;
tried rattle_alloc(uint64_t n, uint64_t align);
tried rattle_realloc(uint8_t *p, uint64_t kept, uint64_t n, uint64_t align);
void rattle_dealloc(uint8_t *p);

// The end of what brk gives may not pass `most_end`; and where it is told to be, another has moved it by `moved`.
static uintptr_t most_end = UINTPTR_MAX, moved;
long __real_syscall(long, ...);
void *__real_mmap(void *, size_t, int, int, int, off_t);
void *__real_mremap(void *, size_t, size_t, int, ...);

long __wrap_syscall(long number, ...) {
    va_list list;
    va_start(list, number);
    uintptr_t at = va_arg(list, uintptr_t);
    va_end(list);
    if (number != SYS_brk)
        abort();
    if (at && (refusing || at > most_end)) {
        refused++;
        at = 0;
    }
    return __real_syscall(SYS_brk, at) + (long)(at ? 0 : moved);
}

void *__wrap_mmap(void *at, size_t n, int prot, int flags, int fd, off_t from) {
    return refusing ? refused++, MAP_FAILED : __real_mmap(at, n, prot, flags, fd, from);
}

void *__wrap_mremap(void *at, size_t was, size_t n, int flags, ...) {
    return refusing ? refused++, MAP_FAILED : __real_mremap(at, was, n, flags);
}
#endif

enum { BLOCKS = 4000, ROUNDS = 200000, MOST = 300, LARGEST = 10000 };

static uint8_t *blocks[BLOCKS], marks[BLOCKS];
static uint64_t sizes[BLOCKS];
static uint64_t seed = 88172645463325252;

static uint64_t next(void) {
    seed ^= seed << 13;
    seed ^= seed >> 7;
    seed ^= seed << 17;
    return seed;
}

static uint64_t size(void) {
    uint64_t kind = next() % 1000;
    return next() % (kind < 700 ? 200 : kind < 970 ? 5000 : kind < 999 ? 100000 : 2000000);
}

static void fail(const char *what) {
    puts(what);
    exit(1);
}

static void keep(size_t i, tried t) {
    if (!t.ok)
        fail("out of memory");
    if ((uintptr_t)t.p & 15)
        fail("an address that is no multiple of 16");
    blocks[i] = t.p;
}

static void mark(size_t i) {
    marks[i] = (uint8_t)next();
    for (uint64_t k = 0; k < sizes[i]; k++)
        blocks[i][k] = (uint8_t)(marks[i] + k);
}

static void check(size_t i, uint64_t n) {
    for (uint64_t k = 0; k < n; k++)
        if (blocks[i][k] != (uint8_t)(marks[i] + k))
            fail("a byte was changed");
}

// A block has another size from now on, or is a new one. Where that is refused, it is as it was.
static void resize(size_t i, uint64_t n) {
    uint64_t was = blocks[i] ? sizes[i] : 0;
    int before = refused;
    tried t = blocks[i] ? rattle_realloc(blocks[i], was, n, 1) : rattle_alloc(n, 1);
    if (!t.ok && refused > before) {
        check(i, was);
        return;
    }
    keep(i, t);
    check(i, n < was ? n : was);
    sizes[i] = n;
    mark(i);
}

static void try_heap(int refusals) {
    for (int round = 0; round < ROUNDS; round++) {
        size_t i = next() % BLOCKS;
        refusing = refusals && next() % 2;
        if (!blocks[i])
            resize(i, size());
        else if (next() % 3 == 0) {
            check(i, sizes[i]);
            resize(i, size());
        } else {
            check(i, sizes[i]);
            rattle_dealloc(blocks[i]);
            blocks[i] = NULL;
        }
    }
}

#ifdef MODULE
// Blocks that grow in turn lie where they are once they have room. What is too much for the memory is refused, and all rooms can be had.
static void try_rooms(void) {
    enum { GROWING = 4, LAST = 1 << 26 };
    int moves[GROWING] = {0};
    for (size_t i = 0; i < GROWING; i++) {
        keep(i, rattle_alloc(sizes[i] = 1 << 10, 1));
        mark(i);
    }
    for (uint64_t n = 1 << 11; n <= LAST; n *= 2)
        for (size_t i = 0; i < GROWING; i++) {
            uint8_t *was = blocks[i];
            keep(i, rattle_realloc(was, sizes[i], n, 1));
            check(i, sizes[i]);
            if (n > 1 << 20 && blocks[i] != was && moves[i]++)
                fail("a block that had room was moved");
            sizes[i] = n;
            mark(i);
        }
    most_pages = pages;
    uint64_t whole = (uint64_t)pages << 16, most = whole;
    tried t;
    while (!(t = rattle_alloc(most, 1)).ok)
        most -= 1 << 16;
    if (most < whole / 5)
        fail("the rooms were not given up");
    for (size_t i = 0; i < GROWING; i++) {
        check(i, sizes[i]);
        rattle_dealloc(blocks[i]);
        blocks[i] = NULL;
    }
    rattle_dealloc(t.p);
    t = rattle_alloc(whole - (1 << 21), 1);
    if (!t.ok)
        fail("what was freed was not joined");
    // (It is held from now on, so that what comes after it needs more, a little at a time.)
    most_pages = 65536;
    most_at_once = 8;
}
#else
// Each kind of call of the kernel is refused, first before there is a heap, and made again.
static void try_refusals(void) {
    enum { SMALL = 1000, MEDIUM = 1 << 17, LARGE = 1 << 20 };
    // (small and large blocks; from small to large, from large to larger; and more than the heap has)
    static const size_t which[] = {0, 1, 0, 1, 2}, wanted[] = {SMALL, LARGE, 2 * LARGE, 2 * LARGE, MEDIUM};
    for (size_t k = 0; k < sizeof which / sizeof *which; k++) {
        size_t i = which[k], size = sizes[i];
        uint8_t *was = blocks[i];
        int before = refused;
        refusing = 1;
        resize(i, wanted[k]);
        if (refused == before || blocks[i] != was || sizes[i] != size)
            fail("a refusal that was none");
        before = refused;
        refusing = 0;
        resize(i, wanted[k]);
        if (refused > before || sizes[i] != wanted[k])
            fail("a refusal that stays");
    }
    // Where little is left, what has room in it is given; and nothing is where another has moved the end.
    int before = refused;
    most_end = (uintptr_t)__real_syscall(SYS_brk, 0) + MEDIUM - 1;
    resize(3, MEDIUM + MEDIUM / 2);
    if (refused == before || !blocks[3])
        fail("what is left was not given");
    most_end = UINTPTR_MAX;
    moved = 16;
    if (rattle_alloc(MEDIUM, 1).ok)
        fail("memory of another");
    moved = 0;
}
#endif

// One move of bytes, against a copy byte by byte; and what was moved is compared, and set. (No compiler makes a call of what is volatile.)
static void try_move(size_t from, size_t to, size_t n, size_t whole) {
    static uint8_t bytes[3 * LARGEST];
    static volatile uint8_t wanted[3 * LARGEST];
    for (size_t k = 0; k < whole; k++)
        bytes[k] = wanted[k] = (uint8_t)next();
    for (size_t k = 0; k < n; k++)
        wanted[to + k] = bytes[from + k];
    memmove(bytes + to, bytes + from, n);
    for (size_t k = 0; k < whole; k++)
        if (bytes[k] != wanted[k])
            fail("memmove");
    if (memcmp(bytes + to, (const uint8_t *)wanted + to, n) != 0)
        fail("memcmp of the same");
    if (n && (bytes[to + n / 2] ^= 1, memcmp(bytes + to, (const uint8_t *)wanted + to, n) == 0))
        fail("memcmp of others");
    memset(bytes + to, (int)n, n);
    for (size_t k = 0; k < whole; k++)
        if (bytes[k] != (k >= to && k < to + n ? (uint8_t)n : wanted[k]))
            fail("memset");
}

// Every length up to MOST and some to LARGEST, at distances with which two places overlap or do not.
static void try_moves(void) {
    static const size_t lengths[] = {4095, 4096, 4097, 5000, 8192, LARGEST - 1};
    for (size_t n = 0; n < MOST; n++)
        for (size_t to = 0; to < 2 * MOST; to += 1 + next() % 7)
            try_move(MOST, to, n, 3 * MOST);
    for (size_t i = 0; i < sizeof lengths / sizeof *lengths; i++) {
        size_t n = lengths[i], apart[] = {0, 1, 8, 15, 16, 17, 31, 32, 33, 64, next() % n, n - 1, n, n + 1};
        for (size_t k = 0; k < sizeof apart / sizeof *apart; k++) {
            try_move(LARGEST, LARGEST - apart[k], n, 3 * LARGEST);
            try_move(LARGEST, LARGEST + apart[k], n, 3 * LARGEST);
        }
    }
}

int main(void) {
#ifdef MODULE
    memory = mmap(0, (size_t)1 << 32, PROT_READ | PROT_WRITE, MAP_PRIVATE | MAP_ANONYMOUS | MAP_NORESERVE, -1, 0);
    if (memory == MAP_FAILED)
        fail("no memory");
    try_rooms();
#else
    try_refusals();
#endif
    int before = refused;
    try_heap(1);
    if (refused == before)
        fail("nothing was refused");
    try_heap(0);
    try_moves();
    return 0;
}
