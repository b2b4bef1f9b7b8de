// What the module of the library exports besides the functions of picklestep.h: memory for the bytes that a host puts there. A pointer
// and a size are 64-bit numbers (BigInt in JavaScript).
#include "heap.h"

typedef struct {
    u64 ok;
    u8 *p;
} tried;
tried rattle_alloc(u64 n, u64 align);
void rattle_dealloc(u8 *p);

__attribute__((export_name("take"))) u8 *host_take(u64 n) {
    tried t = rattle_alloc(n, 16);
    return t.ok ? t.p : 0;
}

__attribute__((export_name("give"))) void host_give(u8 *p) { rattle_dealloc(p); }
