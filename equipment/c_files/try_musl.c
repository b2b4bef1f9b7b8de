// Tries targets/c/musl.c: where the kernel has no statx, fstatat answers the same of each file that is named. `syscall` is wrapped.
#include "musl.c"
#include <stdarg.h>
#include <stdio.h>

static int refusal;
long __real_syscall(long, ...);

long __wrap_syscall(long number, ...) {
    va_list list;
    va_start(list, number);
    int fd = va_arg(list, int);
    const char *path = va_arg(list, const char *);
    int flags = va_arg(list, int);
    unsigned mask = va_arg(list, unsigned);
    void *to = va_arg(list, void *);
    va_end(list);
    if (refusal) {
        errno = refusal;
        return -1;
    }
    return __real_syscall(number, fd, path, flags, mask, to);
}

static int is_same_stamp(struct stamp a, struct stamp b) { return a.sec == b.sec && a.nsec == b.nsec; }

static int is_same(const struct statx_of_linux *a, const struct statx_of_linux *b) {
    return a->blksize == b->blksize && a->nlink == b->nlink && a->uid == b->uid && a->gid == b->gid && a->mode == b->mode && a->ino == b->ino &&
           a->size == b->size && a->blocks == b->blocks && is_same_stamp(a->accessed, b->accessed) && is_same_stamp(a->changed, b->changed) &&
           is_same_stamp(a->modified, b->modified) && a->rdev_major == b->rdev_major && a->rdev_minor == b->rdev_minor &&
           a->dev_major == b->dev_major && a->dev_minor == b->dev_minor;
}

// By the call and without it.
static const char *fault(int fd, const char *path, int flags) {
    static const int refusals[] = {ENOSYS, EPERM};
    struct statx_of_linux wanted, found;
    refusal = 0;
    errno = 0;
    int answer = statx(fd, path, flags, 0x7ff, &wanted), error = errno;
    for (int i = 0; i < 2; i++) {
        refusal = refusals[i];
        memset(&found, 0xee, sizeof found);
        if (statx(fd, path, flags, 0x7ff, &found) != answer || (answer && errno != error))
            return "another answer";
        if (!answer && (!is_same(&wanted, &found) || (found.mask & 0x7ff) != 0x7ff))
            return "other fields";
    }
    refusal = EACCES;
    if (statx(fd, path, flags, 0x7ff, &found) != -1 || errno != EACCES)
        return "another refusal is not told";
    return 0;
}

int main(int count, char **files) {
    for (int i = 1; i < count; i++) {
        int fd = open(files[i], O_RDONLY | O_NONBLOCK);
        const char *why = fault(AT_FDCWD, files[i], 0);
        why = why ? why : fault(AT_FDCWD, files[i], AT_SYMLINK_NOFOLLOW);
        why = why || fd < 0 ? why : fault(fd, "", AT_EMPTY_PATH);
        if (why) {
            printf("%s: %s\n", files[i], why);
            return 1;
        }
    }
    int ends[2];
    if (pipe(ends) || __write(ends[1], "ab", 2) != 2 || close(ends[0]) || __sysv_signal(SIGPIPE, (long)SIG_IGN) != (long)SIG_DFL)
        return 2;
    return __write(ends[1], "ab", 2) == -1 && errno == EPIPE ? 0 : 3;
}
