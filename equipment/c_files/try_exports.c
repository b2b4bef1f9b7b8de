// Tries targets/c/exports.c over a heap that this file is: what is asked of it, and what a host is answered. The status is 0 where all is right.
#include "exports.c"
#include <stdio.h>

static u64 asked, aligned, ok;
static u8 block[16], nothing, *given;

// (all of the word says whether there is memory, and a refusal has an address too)
tried rattle_alloc(u64 n, u64 align) {
    asked = n;
    aligned = align;
    return (tried){ok, ok ? block : &nothing};
}

void rattle_dealloc(u8 *p) { given = p; }

int main(void) {
    static const u64 sizes[] = {0, 1, 16, (u64)1 << 32, ~(u64)0}, words[] = {0, 1, (u64)1 << 32};
    for (u32 i = 0; i < sizeof sizes / sizeof *sizes; i++)
        for (u32 k = 0; k < sizeof words / sizeof *words; k++) {
            ok = words[k];
            if (host_take(sizes[i]) != (ok ? block : 0) || asked != sizes[i] || aligned != 16) {
                printf("take %lu, answered %lu\n", sizes[i], ok);
                return 1;
            }
        }
    host_give(block);
    return given == block ? 0 : 2;
}
