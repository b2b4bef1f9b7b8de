// Answers, for each line `* A B` or `< A N` or `> A N` of hexadecimal numbers, what targets/c/products.c makes of them.
#define __ashlti3 tried_shift_left
#define __lshrti3 tried_shift_right
#define __multi3 tried_product
#include "products.c"
#include <stdio.h>

static wide number(const char *digits) {
    wide n = 0;
    for (; *digits; digits++)
        n = n << 4 | (unsigned)(*digits <= '9' ? *digits - '0' : *digits - 'a' + 10);
    return n;
}

int main(void) {
    char how, left[40], right[40];
    while (scanf(" %c %39s %39s", &how, left, right) == 3) {
        wide a = number(left), b = number(right);
        wide r = how == '*' ? tried_product(a, b) : how == '<' ? tried_shift_left(a, (int)b) : tried_shift_right(a, (int)b);
        printf("%016lx%016lx\n", (u64)(r >> 64), (u64)r);
    }
    return 0;
}
