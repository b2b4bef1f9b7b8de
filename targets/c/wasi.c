// The functions of POSIX that the program calls, over WASI (preview 1), and what Rattle's library `os` has in C for the program's
// words and errno. Nothing proves it; it stands where glibc stands on Linux. Addresses cross as 32 bits (the module is lowered to a
// 32-bit memory afterwards), or with -DWIDE as 64 bits, for a host of the page's own.
typedef unsigned char u8;
typedef unsigned short u16;
typedef unsigned int u32;
typedef unsigned long u64;
typedef long i64;
typedef int i32;
#ifdef WIDE
typedef u64 addr;
#else
typedef u32 addr;
#endif
#define AT(p) ((addr)(u64)(p))
#define WASI(name) __attribute__((import_module("wasi_snapshot_preview1"), import_name(#name))) extern i32 wasi_##name
WASI(args_sizes_get)(addr, addr);
WASI(args_get)(addr, addr);
WASI(environ_sizes_get)(addr, addr);
WASI(environ_get)(addr, addr);
WASI(fd_prestat_get)(i32, addr);
WASI(fd_prestat_dir_name)(i32, addr, addr);
WASI(path_open)(i32, i32, addr, addr, i32, u64, u64, i32, addr);
WASI(fd_read)(i32, addr, addr, addr);
WASI(fd_write)(i32, addr, addr, addr);
WASI(fd_close)(i32);
WASI(fd_seek)(i32, i64, i32, addr);
WASI(fd_sync)(i32);
WASI(fd_datasync)(i32);
WASI(fd_filestat_get)(i32, addr);
WASI(fd_filestat_set_size)(i32, u64);
WASI(path_filestat_get)(i32, i32, addr, addr, addr);
WASI(path_readlink)(i32, addr, addr, addr, addr, addr);
WASI(path_rename)(i32, addr, addr, i32, addr, addr);
WASI(path_unlink_file)(i32, addr, addr);
__attribute__((import_module("wasi_snapshot_preview1"), import_name("proc_exit"), noreturn)) extern void wasi_proc_exit(i32);

struct tried {
    u64 ok;
    u8 *p;
};
struct tried rattle_alloc(u64, u64);

// WASI's numbers of errors, as Linux's.
static const u8 linux_of[77] = {0, 7, 13, 98, 99, 97, 11, 114, 9, 74, 16, 125, 10, 103, 111, 104, 35, 89, 33, 122, 17, 14, 27, 113, 43, 84, 115, 4, 22, 5, 106, 21, 40, 24, 31, 90, 72, 36, 100, 102, 101, 23, 105, 19, 2, 8, 37, 67, 12, 42, 92, 28, 38, 107, 20, 39, 131, 88, 95, 25, 6, 75, 130, 1, 32, 71, 93, 91, 34, 30, 29, 3, 116, 110, 26, 18, 1};
static i32 error;

i32 rattle_errno(void) { return error; }
void rattle_set_errno(i32 e) { error = e; }

static i32 status(i32 e) {
    if (!e)
        return 0;
    error = e > 0 && e < 77 ? linux_of[e] : 5;
    return -1;
}

static u64 length(const u8 *s) {
    u64 n = 0;
    while (s[n])
        n++;
    return n;
}

// ---- the words, and the folder that paths start from, which is that of PWD where the host gives one

static u32 count;
static addr *words;
static const u8 *pwd;

__attribute__((always_inline)) static inline addr *listed(addr n, addr size, i32 (*get)(addr, addr)) {
    struct tried w = rattle_alloc((n + 1) * sizeof(addr), 8), t = rattle_alloc(size + 1, 1);
    return w.ok && t.ok && !get(AT(w.p), AT(t.p)) ? (addr *)w.p : 0;
}

static void read_words(void) {
    addr n = 0, size = 0;
    if (!wasi_args_sizes_get(AT(&n), AT(&size)) && (words = listed(n, size, wasi_args_get)))
        count = (u32)n;
    addr m = 0;
    addr *given = !wasi_environ_sizes_get(AT(&m), AT(&size)) && m ? listed(m, size, wasi_environ_get) : 0;
    for (addr i = 0; given && i < m; i++) {
        const u8 *e = (const u8 *)(u64)given[i];
        if (e[0] == 'P' && e[1] == 'W' && e[2] == 'D' && e[3] == '=' && e[4] == '/')
            pwd = e + 4;
    }
}

u64 rattle_arg_count(void) { return count; }

i64 rattle_arg(u64 i, u8 *buffer, u64 room) {
    if (i >= count)
        return -1;
    const u8 *word = (const u8 *)(u64)words[i];
    u64 n = 0;
    for (; word[n]; n++) {
        if (n == room)
            return -2;
        buffer[n] = word[n];
    }
    return (i64)n;
}

i64 rattle_env(const u8 *name, u8 *buffer, u64 room) { return -1; }
i64 rattle_env_at(u64 i, u8 *buffer, u64 room) { return -1; }

// ---- paths: the folder that is open for the program, and the path from there

static i32 folder_of(const u8 **path) {
    u8 name[4096];
    i32 best = -1;
    u64 longest = 0;
    const u8 *p = *path, *rest;
    if (pwd && p[0] != '/') {
        static u8 whole[2][8192];
        static u32 turn;
        u8 *to = whole[turn++ % 2];
        u64 n = length(pwd), m = length(p);
        if (n + m + 2 > sizeof whole[0]) {
            error = 36;
            return -1;
        }
        __builtin_memcpy(to, pwd, n);
        to[n] = '/';
        __builtin_memcpy(to + n + 1, p, m + 1);
        p = to;
    }
    rest = p;
    for (i32 fd = 3;; fd++) {
        struct {
            u8 tag;
            addr len;
        } about = {0, 0};
        if (wasi_fd_prestat_get(fd, AT(&about)))
            break;
        if (about.tag || about.len >= sizeof name || wasi_fd_prestat_dir_name(fd, AT(name), about.len))
            continue;
        u64 n = about.len;
        while (n && !name[n - 1])
            n--;
        if (n == 1 && name[0] == '.')
            n = 0;
        u64 k = 0;
        while (k < n && p[k] == name[k])
            k++;
        if (k < n || (n == 0 && p[0] == '/'))
            continue;
        if (n && name[n - 1] != '/' && p[n] != '/' && p[n])
            continue;
        if (best >= 0 && n < longest)
            continue;
        best = fd;
        longest = n;
        rest = p + n;
    }
    if (best < 0) {
        error = 2;
        return -1;
    }
    while (*rest == '/')
        rest++;
    *path = *rest ? rest : (const u8 *)".";
    return best;
}

// ---- files

i32 open(const u8 *path, i32 flags, ...) {
    const u8 *rest = path;
    i32 dir = folder_of(&rest);
    if (dir < 0)
        return -1;
    i32 how = (flags & 0100 ? 1 : 0) | (flags & 0200000 ? 2 : 0) | (flags & 0200 ? 4 : 0) | (flags & 01000 ? 8 : 0);
    i32 access = flags & 3;
    u64 rights = 1UL << 21 | 1UL << 5 | 1UL << 2 | 1UL << 4;
    if (access != 1)
        rights |= 1UL << 1 | 1UL << 14;
    // (Node opens for writing what may be stored without its times, `fdatasync`.)
    if (access != 0)
        rights |= 1UL << 0 | 1UL << 6 | 1UL << 22;
    u32 fd = 0;
    i32 e = wasi_path_open(dir, 1, AT(rest), (addr)length(rest), how, rights, 0, flags & 02000 ? 1 : 0, AT(&fd));
    return status(e) ? -1 : (i32)fd;
}

struct part {
    addr at, len;
};

i64 read(i32 fd, u8 *buffer, u64 n) {
    struct part p = {AT(buffer), (addr)n};
    addr moved = 0;
    return status(wasi_fd_read(fd, AT(&p), 1, AT(&moved))) ? -1 : (i64)moved;
}

i64 write(i32 fd, const u8 *bytes, u64 n) {
    struct part p = {AT(bytes), (addr)n};
    addr moved = 0;
    return status(wasi_fd_write(fd, AT(&p), 1, AT(&moved))) ? -1 : (i64)moved;
}

i32 close(i32 fd) { return status(wasi_fd_close(fd)); }
i32 fsync(i32 fd) { return status(wasi_fd_sync(fd)); }
i32 fdatasync(i32 fd) { return status(wasi_fd_datasync(fd)); }
i32 ftruncate(i32 fd, i64 size) { return status(wasi_fd_filestat_set_size(fd, (u64)size)); }

i64 lseek(i32 fd, i64 offset, i32 whence) {
    u64 at = 0;
    return status(wasi_fd_seek(fd, offset, whence, AT(&at))) ? -1 : (i64)at;
}

// WASI has no modes, owners or locks: a change of mode is taken for done, and the other two are refused. (What starts the module gives a saved
// file its mode and owner.)
i32 fchmod(i32 fd, u32 mode) { return 0; }
i32 fchown(i32 fd, u32 owner, u32 group) {
    error = 95;
    return -1;
}
i32 flock(i32 fd, i32 how) {
    error = 95;
    return -1;
}

struct about {
    u64 dev, ino;
    u8 kind;
    u64 links, size, accessed, modified, changed;
};
struct stamp {
    i64 sec;
    u32 nsec;
    i32 pad;
};
struct statx {
    u32 mask, blksize;
    u64 attributes;
    u32 nlink, uid, gid;
    u16 mode, pad;
    u64 ino, size, blocks, attributes_mask;
    struct stamp accessed, born, changed, modified;
    u32 rdev_major, rdev_minor, dev_major, dev_minor;
    u64 more[14];
};

static struct stamp stamp(u64 t) {
    struct stamp s = {(i64)(t / 1000000000), (u32)(t % 1000000000), 0};
    return s;
}

i32 statx(i32 fd, const u8 *path, i32 flags, u32 mask, struct statx *to) {
    static const u16 kinds[8] = {0, 0060000, 0020000, 0040000, 0100000, 0140000, 0140000, 0120000};
    struct about a = {0};
    i32 e;
    if (!*path && flags & 0x1000)
        e = wasi_fd_filestat_get(fd, AT(&a));
    else {
        const u8 *rest = path;
        i32 dir = folder_of(&rest);
        if (dir < 0)
            return -1;
        e = wasi_path_filestat_get(dir, flags & 0x100 ? 0 : 1, AT(rest), (addr)length(rest), AT(&a));
    }
    if (status(e))
        return -1;
    struct statx s = {0};
    s.mask = 0x7ff & ~0x18u;
    s.blksize = 4096;
    s.nlink = (u32)a.links;
    s.mode = (a.kind < 8 ? kinds[a.kind] : 0) | 0644;
    s.ino = a.ino;
    s.size = a.size;
    s.blocks = (a.size + 511) / 512;
    s.accessed = stamp(a.accessed);
    s.changed = stamp(a.changed);
    s.modified = stamp(a.modified);
    s.dev_major = (u32)(a.dev >> 32);
    s.dev_minor = (u32)a.dev;
    *to = s;
    return 0;
}

i64 readlink(const u8 *path, u8 *buffer, u64 room) {
    const u8 *rest = path;
    i32 dir = folder_of(&rest);
    if (dir < 0)
        return -1;
    addr used = 0;
    return status(wasi_path_readlink(dir, AT(rest), (addr)length(rest), AT(buffer), (addr)room, AT(&used))) ? -1 : (i64)used;
}

i32 rename(const u8 *from, const u8 *to) {
    const u8 *a = from, *b = to;
    i32 x = folder_of(&a), y = folder_of(&b);
    if (x < 0 || y < 0)
        return -1;
    return status(wasi_path_rename(x, AT(a), (addr)length(a), y, AT(b), (addr)length(b)));
}

i32 unlink(const u8 *path) {
    const u8 *rest = path;
    i32 dir = folder_of(&rest);
    return dir < 0 ? -1 : status(wasi_path_unlink_file(dir, AT(rest), (addr)length(rest)));
}

// ---- the start

i64 __sysv_signal(i32 signal, i64 handler) { return 0; }

i32 main(void) __asm__("main");

__attribute__((export_name("_start"))) void start(void) {
    read_words();
    i32 s = main();
    wasi_proc_exit(s);
}
