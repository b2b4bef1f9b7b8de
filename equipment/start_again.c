// start_again PROGRAM RUNS: starts a static program for ARM as the kernel would, each time in a child of this process. An emulator has then
// translated most of it once, and not at each start, which takes six times as long as all else.
//
// Each line of RUNS has AT and the words of a start, with tabs between them. It reads AT.in and writes AT.out and AT.err, and a line of standard
// output has its status. A line that begins with a tab is a start in the process itself, so that its children have what is translated there:
// it ends at its first output, which the system does not let it write.
#define _GNU_SOURCE
#include <elf.h>
#include <fcntl.h>
#include <limits.h>
#include <setjmp.h>
#include <signal.h>
#include <stdio.h>
#include <stdlib.h>
#include <string.h>
#include <sys/mman.h>
#include <sys/resource.h>
#include <sys/stat.h>
#include <sys/wait.h>
#include <unistd.h>

#define PAGE 4096UL
#define MOST 32 // words
#define AT_ONCE 4
#define STACK (8 << 20)

static int program;
static const Elf64_Ehdr *head;
static size_t *own_values; // what the kernel told this process
static char *stack;
static void *own_thread;
static sigjmp_buf back;

static void fail(const char *what) {
    perror(what);
    exit(1);
}

static void must(int holds, const char *what) {
    if (!holds)
        fail(what);
}

// Puts the parts of the program that have one of the flags where they belong, as they are in its file.
static void load(unsigned flags) {
    const Elf64_Phdr *part = (const void *)((const char *)head + head->e_phoff);
    for (int i = 0; i < head->e_phnum; i++, part++) {
        if (part->p_type != PT_LOAD || !(part->p_flags & flags))
            continue;
        size_t start = part->p_vaddr & -PAGE, filled = part->p_vaddr + part->p_filesz, end = part->p_vaddr + part->p_memsz;
        size_t whole = (filled + PAGE - 1) & -PAGE;
        int can = (part->p_flags & PF_R ? PROT_READ : 0) | (part->p_flags & PF_W ? PROT_WRITE : 0) | (part->p_flags & PF_X ? PROT_EXEC : 0);
        off_t from = (off_t)(part->p_offset & -PAGE);
        must(mmap((void *)start, filled - start, can, MAP_PRIVATE | MAP_FIXED, program, from) == (void *)start, "mmap");
        if (end <= filled)
            continue;
        memset((void *)filled, 0, whole - filled);
        if (end > whole)
            must(mmap((void *)whole, end - whole, can, MAP_PRIVATE | MAP_ANONYMOUS | MAP_FIXED, -1, 0) == (void *)whole, "mmap");
    }
}

// What the kernel tells the program: the same as this process, but for what is of the program's file.
static size_t value_of(size_t kind, size_t value) {
    const Elf64_Phdr *first = (const void *)((const char *)head + head->e_phoff);
    switch (kind) {
    case AT_PHDR:
        return first->p_vaddr + head->e_phoff;
    case AT_PHNUM:
        return head->e_phnum;
    case AT_ENTRY:
        return head->e_entry;
    default:
        return value;
    }
}

// Never returns.
static void start(char **words, int count) {
    load(PF_W);
    size_t *top = (size_t *)(stack + STACK - PAGE), *at = top; // (all of it fits into a page)
    *at++ = (size_t)count;
    for (int i = 0; i < count; i++)
        *at++ = (size_t)words[i];
    *at++ = 0;
    *at++ = 0; // (no variable)
    for (const size_t *from = own_values;; from += 2) {
        *at++ = from[0];
        *at++ = value_of(from[0], from[1]);
        if (from[0] == AT_NULL)
            break;
    }
    __asm__ volatile("mov sp, %0\n\tmov x0, #0\n\tmov x30, #0\n\tbr %1" : : "r"(top), "r"(head->e_entry) : "x0", "x30", "memory");
    __builtin_unreachable();
}

static void redirect(const char *at) {
    static const struct {
        const char *ending;
        int how;
    } FILES[] = {{"in", O_RDONLY}, {"out", O_WRONLY | O_CREAT | O_TRUNC}, {"err", O_WRONLY | O_CREAT | O_TRUNC}};
    for (int i = 0; i < 3; i++) {
        char name[PATH_MAX];
        snprintf(name, sizeof name, "%s.%s", at, FILES[i].ending);
        int file = open(name, FILES[i].how, 0666);
        must(file >= 0 && dup2(file, i) == i, name);
        close(file);
    }
}

// The program has ended. (Until its thread's data are this one's again, nothing of the C library may be called.)
static void take_back(int number) {
    __asm__ volatile("msr tpidr_el0, %0" : : "r"(own_thread));
    (void)number;
    siglongjmp(back, 1);
}

static void limit_files(rlim_t most) {
    struct rlimit limit;
    must(!getrlimit(RLIMIT_FSIZE, &limit), "getrlimit");
    limit.rlim_cur = most < limit.rlim_max ? most : limit.rlim_max;
    must(!setrlimit(RLIMIT_FSIZE, &limit), "setrlimit");
}

static void start_here(const char *at, char **words, int count) {
    int kept[3];
    for (int i = 0; i < 3; i++)
        must((kept[i] = dup(i)) >= 0, "dup");
    redirect(at);
    limit_files(0);
    signal(SIGXFSZ, take_back);
    if (!sigsetjmp(back, 1))
        start(words, count);
    signal(SIGXFSZ, SIG_DFL);
    limit_files(RLIM_INFINITY);
    for (int i = 0; i < 3; i++) {
        must(dup2(kept[i], i) == i, "dup2");
        close(kept[i]);
    }
}

// Children, the oldest first.
static pid_t children[AT_ONCE];
static size_t begun, ended;

static void end_child(void) {
    int status;
    pid_t child = children[ended++ % AT_ONCE];
    must(waitpid(child, &status, 0) == child, "waitpid");
    printf("%d\n", WIFEXITED(status) ? WEXITSTATUS(status) : -WTERMSIG(status));
    fflush(stdout);
}

static void start_child(const char *at, char **words, int count) {
    if (begun - ended == AT_ONCE)
        end_child();
    pid_t child = fork();
    must(child >= 0, "fork");
    if (!child) {
        alarm(300); // (seconds: no start outlives the trial)
        redirect(at);
        start(words, count);
    }
    children[begun++ % AT_ONCE] = child;
}

// The text of a file, which ends with a zero.
static char *text_of(const char *path) {
    struct stat about;
    int file = open(path, O_RDONLY | O_CLOEXEC);
    must(file >= 0 && !fstat(file, &about), path);
    char *text = calloc(1, (size_t)about.st_size + 1);
    must(text && read(file, text, (size_t)about.st_size) == about.st_size, path);
    close(file);
    return text;
}

static void open_program(const char *path) {
    struct stat about;
    program = open(path, O_RDONLY);
    must(program >= 0 && !fstat(program, &about), path);
    head = mmap(NULL, (size_t)about.st_size, PROT_READ, MAP_PRIVATE, program, 0);
    stack = mmap(NULL, STACK, PROT_READ | PROT_WRITE, MAP_PRIVATE | MAP_ANONYMOUS, -1, 0);
    must(head != MAP_FAILED && stack != MAP_FAILED, path);
    const Elf64_Phdr *first = (const void *)((const char *)head + head->e_phoff);
    must(first->p_type == PT_LOAD && !first->p_offset, "the first part is not the file's beginning");
    load(PF_X);
}

int main(int count, char **given, char **variables) {
    if (count != 3)
        return 2;
    while (*variables++)
        continue;
    own_values = (size_t *)variables; // (they are behind the variables)
    __asm__("mrs %0, tpidr_el0" : "=r"(own_thread));
    open_program(given[1]);
    char *rest = text_of(given[2]), *line;
    while ((line = strsep(&rest, "\n")) && *line) {
        char *words[MOST];
        int is_here = *line == '\t', found = 0;
        line += is_here;
        const char *at = strsep(&line, "\t");
        while (line && found < MOST)
            words[found++] = strsep(&line, "\t");
        must(!line, "too many words");
        (is_here ? start_here : start_child)(at, words, found);
    }
    while (ended < begun)
        end_child();
    return 0;
}
