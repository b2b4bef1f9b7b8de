// What Rattle's library `os` calls besides the C library: the words of the command line, and errno. Nothing proves it.
#include <errno.h>
#include <stddef.h>
#include <stdint.h>

#ifdef __GLIBC__
// glibc passes main's words to each function of .init_array, in a static program too.
static int count;
static char **words;
__attribute__((constructor)) static void keep(int argc, char **argv) {
    count = argc;
    words = argv;
}
#else
// musl passes nothing there: the link has --wrap=main.
static int count;
static char **words;
int __real_main(void);
int __wrap_main(int argc, char **argv) {
    count = argc;
    words = argv;
    return __real_main();
}
#endif

size_t rattle_arg_count(void) { return (size_t)count; }

// Puts word i at the start of the buffer and answers its length; -1 where there is no such word, -2 where it does not fit, and
// then the buffer is full.
ptrdiff_t rattle_arg(size_t i, uint8_t *buffer, size_t room) {
    if (i >= (size_t)count || !words[i])
        return -1;
    const char *word = words[i];
    size_t n = 0;
    for (; word[n]; n++) {
        if (n == room)
            return -2;
        buffer[n] = (uint8_t)word[n];
    }
    return (ptrdiff_t)n;
}

int32_t rattle_errno(void) { return errno; }

void rattle_set_errno(int32_t error) { errno = error; }
