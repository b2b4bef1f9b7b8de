/*
 * Breaks files and pipes: a shared library for LD_PRELOAD, used by ./test.
 *
 * Calls of read and of write are counted from 1, each kind by itself; the loader's own are not counted, nor are those to standard
 * error. READ_MOST=C and WRITE_MOST=C give or take at most C bytes a call. READ_FAIL=N and WRITE_FAIL=N let the Nth call and
 * each later one fail, as a broken disk does. SHRINK=FILE with SHRINK_AT=N empties that file before the Nth read.
 * FAIL=fsync, rename, fchmod, fchown or ftruncate lets each call of this name fail, with FAIL_FROM=N the Nth and each later one.
 * READ_SIGNAL=N and WRITE_SIGNAL=N let the Nth call do nothing, as where a signal interrupts it.
 * ORDER=FILE gets a line for each fchmod, fchown, fsync and rename and for each write to a regular file, in their order: the name, and the
 * kind and the mode of what it is made of, or of a rename whether the file that it replaces is open.
 * At the end DEVICES=FILE has a line: how many reads and writes there were, and how many of them were made of a device that had
 * failed before.
 */
#define _GNU_SOURCE
#include <errno.h>
#include <fcntl.h>
#include <stdio.h>
#include <stdlib.h>
#include <string.h>
#include <sys/stat.h>
#include <sys/syscall.h>
#include <unistd.h>

static unsigned long reads, writes, again, named;
static unsigned long read_most, write_most, read_fail, write_fail, read_signal, write_signal, shrink_at, fail_from;
static int failed_file[64]; /* by descriptor: whether a call of it failed */

static unsigned long number_of(const char *name)
{
    const char *text = getenv(name);

    return text ? strtoul(text, NULL, 10) : 0;
}

__attribute__((constructor)) static void begin(void)
{
    read_most = number_of("READ_MOST");
    write_most = number_of("WRITE_MOST");
    read_fail = number_of("READ_FAIL");
    write_fail = number_of("WRITE_FAIL");
    read_signal = number_of("READ_SIGNAL");
    write_signal = number_of("WRITE_SIGNAL");
    shrink_at = number_of("SHRINK_AT");
    fail_from = number_of("FAIL_FROM");
}

__attribute__((destructor)) static void end(void)
{
    const char *name = getenv("DEVICES");
    char text[100];
    int size = snprintf(text, sizeof text, "%lu reads, %lu writes, %lu again\n", reads, writes, again);
    int file = name ? open(name, O_WRONLY | O_CREAT | O_TRUNC, 0600) : -1;

    if (file >= 0 && syscall(SYS_write, file, text, (size_t)size) != size)
        abort();
}

/* Adds a line to the file that ORDER names. */
static void note(const char *line)
{
    const char *name = getenv("ORDER");
    int file = name ? open(name, O_WRONLY | O_CREAT | O_APPEND, 0600) : -1;

    if (file >= 0 && (syscall(SYS_write, file, line, strlen(line)) < 0 || close(file) != 0))
        abort();
}

/* Notes a call that is made of an open file, with the mode that the file has before it. */
static void note_file(const char *call, int file)
{
    struct stat about;
    char line[60];

    if (!getenv("ORDER") || fstat(file, &about) != 0)
        return;
    snprintf(line, sizeof line, "%s %s %o\n", call, S_ISDIR(about.st_mode) ? "folder" : "file", about.st_mode & 07777);
    if (S_ISREG(about.st_mode) || S_ISDIR(about.st_mode))
        note(line);
}

/* Whether call `number` is the one that a signal interrupts. */
static int is_interrupted(unsigned long number, unsigned long which)
{
    if (which == 0 || number != which)
        return 0;
    errno = EINTR;
    return 1;
}

/* Whether call `number` of this file fails, where those from `first` on do. */
static int fails(int file, unsigned long number, unsigned long first)
{
    if (file >= 0 && file < 64 && failed_file[file])
        again++;
    if (first == 0 || number < first)
        return 0;
    if (file >= 0 && file < 64)
        failed_file[file] = 1;
    errno = EIO;
    return 1;
}

ssize_t read(int file, void *bytes, size_t count)
{
    reads++;
    if (shrink_at == reads && getenv("SHRINK") && truncate(getenv("SHRINK"), 0) != 0)
        abort();
    if (is_interrupted(reads, read_signal) || fails(file, reads, read_fail))
        return -1;
    return syscall(SYS_read, file, bytes, read_most && read_most < count ? read_most : count);
}

ssize_t write(int file, const void *bytes, size_t count)
{
    if (file == 2)
        return syscall(SYS_write, file, bytes, count);
    writes++;
    note_file("write", file);
    if (is_interrupted(writes, write_signal) || fails(file, writes, write_fail))
        return -1;
    return syscall(SYS_write, file, bytes, write_most && write_most < count ? write_most : count);
}

/* Whether this call of this name fails. */
static int is_broken(const char *name)
{
    const char *broken = getenv("FAIL");

    if (!broken || strcmp(broken, name) != 0 || ++named < fail_from)
        return 0;
    errno = EIO;
    return 1;
}

int fsync(int file)
{
    note_file("fsync", file);
    return is_broken("fsync") ? -1 : (int)syscall(SYS_fsync, file);
}

/* Whether this run has the file of a name open. */
static int is_open(const char *name)
{
    struct stat wanted, about;
    int file;

    for (file = 3; stat(name, &wanted) == 0 && file < 64; file++)
        if (fstat(file, &about) == 0 && about.st_dev == wanted.st_dev && about.st_ino == wanted.st_ino)
            return 1;
    return 0;
}

int rename(const char *from, const char *to)
{
    note(is_open(to) ? "rename over an open file\n" : "rename\n");
    return is_broken("rename") ? -1 : (int)syscall(SYS_rename, from, to);
}

int fchmod(int file, mode_t mode)
{
    note_file("fchmod", file);
    return is_broken("fchmod") ? -1 : (int)syscall(SYS_fchmod, file, mode);
}

int fchown(int file, uid_t owner, gid_t group)
{
    note_file("fchown", file);
    return is_broken("fchown") ? -1 : (int)syscall(SYS_fchown, file, owner, group);
}

int ftruncate(int file, off_t size)
{
    return is_broken("ftruncate") ? -1 : (int)syscall(SYS_ftruncate, file, size);
}
