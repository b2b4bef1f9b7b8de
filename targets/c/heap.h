// Where the heap's memory comes from: a module's memory that grows, or brk and mappings of Linux.
typedef unsigned char u8;
typedef unsigned int u32;
typedef unsigned long u64; // 64 bits on wasm64 too
typedef _Bool bool;

#ifdef __wasm__
// Where the memory begins, and where the heap may. (try_heap.c has a memory of its own.)
#ifndef MEMORY
extern u8 __heap_base;
#define MEMORY ((u64)0)
#define HEAP_BASE ((u64)&__heap_base)
#endif

static u64 heap_end;

// Binaryen 108 lowers the answer -1 of a failed growth to 32 bits, without the sign.
static bool heap_pages(u64 n) {
    u64 pages = __builtin_wasm_memory_grow(0, n);
    return pages != (u64)-1 && pages != 0xffffffff;
}

// Where the piece starts: 8 bytes before a multiple of 16.
static u8 *heap_start(void) {
    heap_end = MEMORY + (__builtin_wasm_memory_size(0) << 16);
    u64 at = ((HEAP_BASE + 15) & ~(u64)15) + 8;
    if (at + 8 > heap_end && !(heap_pages(1) && (heap_end += 65536)))
        return 0;
    return (u8 *)at;
}

// How many bytes of the memory after the piece are the piece's from now on.
static u64 heap_used;

static u64 heap_grow(u64 n) {
    u64 at = ((HEAP_BASE + 15) & ~(u64)15) + 16 + heap_used;
    u64 there = (heap_end - at) & ~(u64)15;
    if (there < n) {
        u64 pages = (n - there + 65535) >> 16, more = (heap_end - MEMORY) >> 20;
        if (more > pages && heap_pages(more))
            heap_end += more << 16;
        else if (heap_pages(pages))
            heap_end += pages << 16;
        else
            return 0;
        there = (heap_end - at) & ~(u64)15;
    }
    heap_used += there;
    return there;
}

// A block of so many bytes that grows gets room behind it: with that a quarter of what a memory of 32 bits can still have.
static bool is_roomy(u64 n) { return n >= 1 << 20; }
static u64 heap_room(void) { return (MEMORY + ((u64)1 << 32) - heap_end) / 4 & ~(u64)15; }
static bool is_large(u64 n) { (void)n; return 0; }
static bool is_large_at(const u8 *p) { (void)p; return 0; }
static u8 *large_take(u64 n) { (void)n; return 0; }
static void large_give(u8 *p) { (void)p; }
static u8 *large_move(u8 *p, u64 n) { (void)p; (void)n; return 0; }

#else
#ifndef _GNU_SOURCE
#define _GNU_SOURCE
#endif
#include <sys/mman.h>
#include <sys/syscall.h>
#include <unistd.h>

static bool is_roomy(u64 n) { (void)n; return 0; }
static u64 heap_room(void) { return 0; }

enum { PAGE = 4096, LARGE = 1 << 18, ADVANCE = 1 << 17 };

static u64 heap_end;

static u8 *heap_start(void) {
    u64 at = (u64)syscall(SYS_brk, 0);
    u64 start = ((at + 15) & ~(u64)15) + 8;
    heap_end = (u64)syscall(SYS_brk, start + 8);
    return heap_end == start + 8 ? (u8 *)start : 0;
}

// Nobody else moves the end that brk tells of: no malloc is linked. Where it was moved nevertheless, memory is out.
static u64 heap_grow(u64 n) {
    if ((u64)syscall(SYS_brk, 0) != heap_end)
        return 0;
    u64 more = (n + ADVANCE - 1) & ~(u64)(ADVANCE - 1);
    for (;; more = (n + 15) & ~(u64)15) {
        if ((u64)syscall(SYS_brk, heap_end + more) == heap_end + more) {
            heap_end += more;
            return more;
        }
        if (more == ((n + 15) & ~(u64)15))
            return 0;
    }
}

// A large block is a mapping: its size stands 16 bytes before the program's bytes, which begin 16 bytes after a page. No other block's
// bytes are known by that alone, so the word before them, where the others have their head, is 4, which no head is.
static bool is_large(u64 n) { return n >= LARGE; }
static bool is_large_at(const u8 *p) { return ((const u64 *)p)[-1] == 4; }
static u64 large_size(u64 n) { return (n + 16 + PAGE - 1) & ~(u64)(PAGE - 1); }

static u8 *large_at(void *at, u64 size) {
    if (at == MAP_FAILED)
        return 0;
    ((u64 *)at)[0] = size;
    ((u64 *)at)[1] = 4;
    return (u8 *)at + 16;
}

static u8 *large_take(u64 n) {
    u64 size = large_size(n);
    return large_at(mmap(0, size, PROT_READ | PROT_WRITE, MAP_PRIVATE | MAP_ANONYMOUS, -1, 0), size);
}

static void large_give(u8 *p) { munmap(p - 16, ((u64 *)p)[-2]); }

static u8 *large_move(u8 *p, u64 n) {
    u64 size = large_size(n), was = ((u64 *)p)[-2];
    return size == was ? p : large_at(mremap(p - 16, was, size, MREMAP_MAYMOVE), size);
}
#endif
