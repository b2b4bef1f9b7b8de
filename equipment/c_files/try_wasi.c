// Tries targets/c/wasi.c against a host that this file is. It reads lines, and prints what the functions answer and what they ask:
//
//     folders NAME..      the folders that are open, from 3 on (an empty name is written `''`)
//     environment TEXT..  the variables; `words WORD..` the words; `unable 1`: the host tells none of them; `unable 2`: there is no memory
//     start               reads the words and variables, and prints the words with what short rooms answer
//     open FLAGS PATH, unlink PATH, rename PATH PATH, readlink PATH ROOM, stat FLAGS PATH   (flags are octal)
//     error N             from now on the host answers this number (0: it does what it is asked)
//     pieces N            it moves at most so many bytes at once
//     read N, write TEXT, fstat, others: the functions of an open file
#include <stdio.h>
#include <stdlib.h>
#include <string.h>

#define WIDE
#define main tried_main
#define open tried_open
#define read tried_read
#define write tried_write
#define close tried_close
#define lseek tried_lseek
#define fsync tried_fsync
#define fdatasync tried_fdatasync
#define ftruncate tried_ftruncate
#define fchmod tried_fchmod
#define fchown tried_fchown
#define flock tried_flock
#define statx tried_statx
#define readlink tried_readlink
#define rename tried_rename
#define unlink tried_unlink
#include "wasi.c"
#undef main

enum { MOST = 64 };
static char *folders[MOST], *variables[MOST], *given[MOST], content[] = "0123456789";
static int folder_count, variable_count, given_count, host_error, no_words;
static addr piece = 1000, at_content;

struct tried rattle_alloc(u64 n, u64 align) {
    u8 *p = no_words == 2 ? 0 : malloc(n + align);
    return (struct tried){p != 0, p};
}

// ---- the host

#define P(type, at) ((type *)(at))
#define HOST(name) i32 wasi_##name
static i32 sizes(int n, char **texts, addr count, addr size) {
    *P(addr, count) = (addr)n;
    *P(addr, size) = 0;
    for (int i = 0; i < n; i++)
        *P(addr, size) += strlen(texts[i]) + 1;
    return no_words == 1 ? 28 : 0;
}
static i32 texts_of(int n, char **texts, addr starts, addr to) {
    char *end = P(char, to);
    for (int i = 0; i < n; i++) {
        P(addr, starts)[i] = AT(end);
        end = stpcpy(end, texts[i]) + 1;
    }
    return 0;
}
HOST(args_sizes_get)(addr count, addr size) { return sizes(given_count, given, count, size); }
HOST(args_get)(addr starts, addr to) { return texts_of(given_count, given, starts, to); }
HOST(environ_sizes_get)(addr count, addr size) { return sizes(variable_count, variables, count, size); }
HOST(environ_get)(addr starts, addr to) { return texts_of(variable_count, variables, starts, to); }
HOST(fd_prestat_get)(i32 fd, addr to) {
    if (fd < 3 || fd - 3 >= folder_count)
        return 8;
    P(addr, to)[1] = strlen(folders[fd - 3]);
    return 0;
}
HOST(fd_prestat_dir_name)(i32 fd, addr to, addr n) {
    memcpy(P(char, to), folders[fd - 3], n);
    return 0;
}
static i32 asked(const char *what, i32 dir, addr path, addr n) {
    printf("%s %d %.*s", what, dir, (int)n, P(char, path));
    return host_error;
}
HOST(path_open)(i32 dir, i32 follow, addr path, addr n, i32 how, u64 rights, u64 later, i32 flags, addr to) {
    asked("open", dir, path, n);
    printf(" follow %d how %d rights %lx %lx flags %d;", follow, how, rights, later, flags);
    *P(u32, to) = 9;
    return host_error;
}
static i32 moved(addr part, addr to, int in) {
    addr n = P(addr, part)[1] < piece ? P(addr, part)[1] : piece;
    if (in) {
        n = n < sizeof content - 1 - at_content ? n : sizeof content - 1 - at_content;
        memcpy(P(char, P(addr, part)[0]), content + at_content, n);
        at_content += n;
    } else
        printf("%.*s;", (int)n, P(char, P(addr, part)[0]));
    *P(addr, to) = n;
    return host_error;
}
HOST(fd_read)(i32 fd, addr parts, addr count, addr to) { return fd == 9 && count == 1 ? moved(parts, to, 1) : 8; }
HOST(fd_write)(i32 fd, addr parts, addr count, addr to) { return fd == 9 && count == 1 ? moved(parts, to, 0) : 8; }
HOST(fd_close)(i32 fd) { return fd == 9 ? host_error : 8; }
HOST(fd_sync)(i32 fd) { return fd == 9 ? host_error : 8; }
HOST(fd_datasync)(i32 fd) { return fd == 9 ? host_error : 8; }
HOST(fd_seek)(i32 fd, i64 offset, i32 whence, addr to) {
    *P(u64, to) = (u64)offset + (u64)whence;
    return fd == 9 ? host_error : 8;
}
HOST(fd_filestat_set_size)(i32 fd, u64 size) { return fd == 9 && size == 5 ? host_error : 8; }
static i32 told(addr to, u8 kind) {
    *P(struct about, to) = (struct about){0x500000007, 11, kind, 2, 1025, 1000000001, 2000000002, 3000000003};
    return host_error;
}
HOST(fd_filestat_get)(i32 fd, addr to) { return fd == 9 ? told(to, 4) : 8; }
HOST(path_filestat_get)(i32 dir, i32 follow, addr path, addr n, addr to) {
    asked("stat", dir, path, n);
    printf(" follow %d;", follow);
    return told(to, 3);
}
HOST(path_readlink)(i32 dir, addr path, addr n, addr to, addr room, addr used) {
    asked("readlink", dir, path, n);
    *P(addr, used) = room < 3 ? room : 3;
    memcpy(P(char, to), "abc", *P(addr, used));
    return host_error;
}
HOST(path_rename)(i32 dir, addr path, addr n, i32 other, addr to, addr m) {
    asked("rename", dir, path, n);
    return asked(" to", other, to, m);
}
HOST(path_unlink_file)(i32 dir, addr path, addr n) { return asked("unlink", dir, path, n); }
void wasi_proc_exit(i32 status) { exit(status); }

// ---- the lines

static int list(char **to) {
    int n = 0;
    for (char *word; (word = strtok(0, " ")) && n < MOST; n++)
        to[n] = strdup(strcmp(word, "''") ? word : "");
    return n;
}

static void say(i64 answer) {
    if (answer < 0)
        printf(" %ld error %d\n", answer, error);
    else
        printf(" %ld\n", answer);
}

static void show_stat(i32 answer, const struct statx *s) {
    if (!answer)
        printf(" mask %x mode %o links %u size %lu blocks %lu inode %lu device %u %u times %ld.%u %ld.%u %ld.%u", s->mask, s->mode, s->nlink, s->size,
               s->blocks, s->ino, s->dev_major, s->dev_minor, s->accessed.sec, s->accessed.nsec, s->modified.sec, s->modified.nsec, s->changed.sec,
               s->changed.nsec);
    say(answer);
}

// (Each with the room that the word fits into, and one less.)
static void show_words(void) {
    u8 word[100];
    printf(" %lu", rattle_arg_count());
    for (u64 i = 0; i < rattle_arg_count(); i++) {
        i64 n = rattle_arg(i, word, sizeof word);
        printf(" %.*s %ld %ld %ld", (int)n, word, n, rattle_arg(i, word, (u64)n), n ? rattle_arg(i, word, (u64)n - 1) : -2);
    }
    printf(" %ld", rattle_arg(rattle_arg_count(), word, sizeof word));
    say(rattle_env(0, word, 1) + rattle_env_at(0, word, 1) + 2);
}

static int is(const char *word, const char *name) { return strcmp(word, name) == 0; }
static u8 *next(void) { return (u8 *)strtok(0, " "); }
static i32 number(void) { return atoi((char *)next()); }

static void ask_of_path(const char *word) {
    struct statx s;
    u8 buffer[10];
    i32 flags = is(word, "open") || is(word, "stat") ? (i32)strtol((char *)next(), 0, 8) : 0;
    u8 *path = next();
    if (is(word, "open"))
        say(open(path, flags, 0));
    else if (is(word, "unlink"))
        say(unlink(path));
    else if (is(word, "rename"))
        say(rename(path, next()));
    else if (is(word, "readlink"))
        say(readlink(path, buffer, (u64)number()));
    else if (is(word, "stat"))
        show_stat(statx(-100, path, flags, 0x7ff, &s), &s);
    else
        abort();
}

static void show_others(void) {
    printf(" close %d sync %d %d size %d seek %ld mode %d signal %ld", close(9), fsync(9), fdatasync(9), ftruncate(9, 5), lseek(9, 40, 2),
           fchmod(9, 0), __sysv_signal(13, 1));
    rattle_set_errno(0);
    printf(" owner %d;", fchown(9, 0, 0));
    say(flock(9, 2));
}

static void ask_of_file(const char *word) {
    struct statx s;
    u8 buffer[100];
    if (is(word, "read")) {
        i64 n = read(9, buffer, (u64)number());
        printf(" %.*s", n > 0 ? (int)n : 0, buffer);
        say(n);
    } else if (is(word, "write")) {
        u8 *text = next();
        say(write(9, text, strlen((char *)text)));
    } else if (is(word, "fstat"))
        show_stat(statx(9, (const u8 *)"", 0x1000, 0x7ff, &s), &s);
    else if (is(word, "others"))
        show_others();
    else
        ask_of_path(word);
}

static void obey(const char *word) {
    if (is(word, "folders"))
        folder_count = list(folders);
    else if (is(word, "environment"))
        variable_count = list(variables);
    else if (is(word, "words"))
        given_count = list(given);
    else if (is(word, "unable"))
        no_words = number();
    else if (is(word, "error"))
        host_error = number();
    else if (is(word, "pieces"))
        piece = (addr)number();
    else if (is(word, "start")) {
        count = 0;
        pwd = 0;
        read_words();
        show_words();
    } else
        ask_of_file(word);
}

int main(void) {
    char line[10000];
    while (fgets(line, sizeof line, stdin)) {
        line[strcspn(line, "\n")] = 0;
        obey(strtok(line, " "));
    }
    return 0;
}
