// memcpy, memmove, memset and memcmp for a static program: musl's are slow for the few bytes that the program mostly moves. Nothing
// proves it; try_heap.c tries it. Each loads all that it needs of a piece before it stores, so pieces may overlap.
#include <stddef.h>
#include <stdint.h>

typedef uint64_t word __attribute__((aligned(1), may_alias));
typedef uint32_t half __attribute__((aligned(1), may_alias));
typedef uint16_t pair __attribute__((aligned(1), may_alias));
typedef uint64_t wide __attribute__((vector_size(16), aligned(1), may_alias));

// Up to 32 bytes: from both ends, which may overlap.
static inline void few(unsigned char *to, const unsigned char *from, size_t n) {
    if (n >= 16) {
        wide a = *(const wide *)from, b = *(const wide *)(from + n - 16);
        *(wide *)to = a;
        *(wide *)(to + n - 16) = b;
    } else if (n >= 8) {
        word a = *(const word *)from, b = *(const word *)(from + n - 8);
        *(word *)to = a;
        *(word *)(to + n - 8) = b;
    } else if (n >= 4) {
        half a = *(const half *)from, b = *(const half *)(from + n - 4);
        *(half *)to = a;
        *(half *)(to + n - 4) = b;
    } else if (n >= 2) {
        pair a = *(const pair *)from, b = *(const pair *)(from + n - 2);
        *(pair *)to = a;
        *(pair *)(to + n - 2) = b;
    } else if (n) {
        *to = *from;
    }
}

void *memmove(void *target, const void *source, size_t n) {
    unsigned char *to = target;
    const unsigned char *from = source;
    if (n <= 32) {
        few(to, from, n);
    } else if (to - from >= (ptrdiff_t)n || to <= from) {
        wide last1 = *(const wide *)(from + n - 32), last2 = *(const wide *)(from + n - 16);
        unsigned char *end = to + n;
#ifdef __x86_64__
        if (n >= 4096 && (size_t)(to - from) >= n) {
            __asm__ volatile("rep movsb" : "+D"(to), "+S"(from), "+c"(n) : : "memory");
            return target;
        }
#endif
        for (; end - to > 32; to += 32, from += 32) {
            wide a = *(const wide *)from, b = *(const wide *)(from + 16);
            *(wide *)to = a;
            *(wide *)(to + 16) = b;
        }
        *(wide *)(end - 32) = last1;
        *(wide *)(end - 16) = last2;
    } else {
        wide first1 = *(const wide *)from, first2 = *(const wide *)(from + 16);
        for (; n > 32; n -= 32) {
            wide a = *(const wide *)(from + n - 32), b = *(const wide *)(from + n - 16);
            *(wide *)(to + n - 32) = a;
            *(wide *)(to + n - 16) = b;
        }
        *(wide *)to = first1;
        *(wide *)(to + 16) = first2;
    }
    return target;
}

void *memcpy(void *restrict target, const void *restrict source, size_t n) { return memmove(target, source, n); }

void *memset(void *target, int byte, size_t n) {
    unsigned char *to = target, *end = to + n;
    if (n < 16) {
        for (; to < end; to++) {
            *to = (unsigned char)byte;
            __asm__ volatile("" : : : "memory");
        }
        return target;
    }
    uint64_t b = (unsigned char)byte * UINT64_C(0x0101010101010101);
    wide all = {b, b};
    for (; end - to > 16; to += 16)
        *(wide *)to = all;
    *(wide *)(end - 16) = all;
    return target;
}

int memcmp(const void *one, const void *other, size_t n) {
    const unsigned char *a = one, *b = other;
    for (; n >= 8 && *(const word *)a == *(const word *)b; n -= 8)
        a += 8, b += 8;
    for (; n; n--, a++, b++)
        if (*a != *b)
            return *a - *b;
    return 0;
}
