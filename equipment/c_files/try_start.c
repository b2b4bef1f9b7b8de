// Prints the words of the command line as targets/c/start.c gives them, and tries short rooms and errno.
#include "start.c"
#include <stdio.h>
#include <string.h>

// With a room of n bytes: what fits, and nothing behind it.
static int is_kept(size_t i, const uint8_t *word, size_t length) {
    uint8_t buffer[64];
    for (size_t room = 0; room <= length + 1; room++) {
        size_t put = room < length ? room : length;
        memset(buffer, 0xee, sizeof buffer);
        if (rattle_arg(i, buffer, room) != (room < length ? -2 : (ptrdiff_t)length) || memcmp(buffer, word, put) || buffer[put] != 0xee)
            return 0;
    }
    return 1;
}

int main(void) {
    size_t n = rattle_arg_count();
    for (size_t i = 1; i < n; i++) {
        uint8_t word[64];
        ptrdiff_t length = rattle_arg(i, word, sizeof word);
        if (length < 0 || !is_kept(i, word, (size_t)length))
            return 1;
        printf("%.*s\n", (int)length, (const char *)word);
    }
    if (rattle_arg(n, 0, 0) != -1 || rattle_arg((size_t)-1, 0, 0) != -1)
        return 2;
    rattle_set_errno(7);
    if (errno != 7 || (errno = 9, rattle_errno()) != 9)
        return 3;
    return 0;
}
