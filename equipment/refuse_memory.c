/*
 * Refuses requests for memory, or counts them: a shared library for LD_PRELOAD, used by ./test.
 *
 * Calls of malloc, calloc and realloc are counted from 1; a Rattle program asks for memory by no others. A refused call
 * answers NULL. What the loader asks for before this library is ready is not counted.
 *
 * FAIL_AT=N refuses the Nth call; later calls pass again. The file that REFUSED_MARK names is made then, so that the caller
 * knows that there was such a call.
 * FAIL_EACH=FILE refuses each call in turn, in one run: at each call the process forks; in the child that call is refused, and
 * every later one passes; the parent waits for the child's end, and goes on with the call answered. What the children write
 * goes to FILE.output. A child is as it should be that ends with status 0 and, if LAST_LINE is set, has that last line. At the
 * end of the parent FILE has a line: how many calls were refused, and how many children were not as they should be; before
 * it a line for each of the first of these. With FAIL_AFTER=N the first N calls pass, with FAIL_MOST=N at most N are refused.
 * FAIL_BEHIND=1 lets the calls before the first write to standard output pass.
 * REQUESTS=FILE adds a byte to that file at each call.
 */
#include <errno.h>
#include <fcntl.h>
#include <stdio.h>
#include <stdlib.h>
#include <string.h>
#include <sys/syscall.h>
#include <sys/wait.h>
#include <unistd.h>

/* The C library's own, under the names that no other library takes. */
void *__libc_malloc(size_t size);
void *__libc_calloc(size_t count, size_t size);
void *__libc_realloc(void *old, size_t size);

#define LONGEST 4000 /* of a path, and of what is looked at behind a child */

static unsigned long calls;
static unsigned long refused_call; /* 0 is no call */
static int requests = -1;          /* the file, if there is one */

static const char *each; /* the file, if each call is refused in turn */
static const char *last_line;
static unsigned long first_call = 1, most_refused = -1UL;
static int is_child, is_waiting;
static unsigned long refused, wrong;
static int report = -1;
static char output[LONGEST];

static unsigned long number_of(const char *name, unsigned long otherwise)
{
    const char *text = getenv(name);

    return text ? strtoul(text, NULL, 10) : otherwise;
}

__attribute__((constructor)) static void begin(void)
{
    const char *counted = getenv("REQUESTS");

    if (counted)
        requests = open(counted, O_WRONLY | O_CREAT | O_APPEND, 0600);
    each = getenv("FAIL_EACH");
    last_line = getenv("LAST_LINE");
    first_call = number_of("FAIL_AFTER", 0) + 1;
    most_refused = number_of("FAIL_MOST", -1UL);
    is_waiting = number_of("FAIL_BEHIND", 0) > 0;
    if (each) {
        report = open(each, O_WRONLY | O_CREAT | O_TRUNC | O_CLOEXEC, 0600);
        if (report < 0 || snprintf(output, sizeof output, "%s.output", each) >= (int)sizeof output)
            abort();
    }
    calls = 0;
    refused_call = number_of("FAIL_AT", 0);
}

/* Writes a line of two numbers and some words to the report. */
static void tell(const char *words, unsigned long first, unsigned long second)
{
    char text[200];
    int size = snprintf(text, sizeof text, words, first, second);

    if (syscall(SYS_write, report, text, (size_t)size) != size)
        abort();
}

__attribute__((destructor)) static void end(void)
{
    if (each && !is_child)
        tell("%lu refused, %lu wrong\n", refused, wrong);
    each = NULL;
}

/* Whether the last bytes of the children's output are the wanted line. */
static int has_last_line(void)
{
    char text[LONGEST];
    size_t wanted = last_line ? strlen(last_line) : 0;
    int file = open(output, O_RDONLY | O_CLOEXEC);
    off_t size = lseek(file, 0, SEEK_END);
    ssize_t read_size;

    if (!last_line) {
        close(file);
        return 1;
    }
    if (file < 0 || wanted + 1 > sizeof text || size < (off_t)wanted + 1) {
        close(file);
        return 0;
    }
    read_size = pread(file, text, wanted + 1, size - (off_t)wanted - 1);
    close(file);
    return read_size == (ssize_t)wanted + 1 && memcmp(text, last_line, wanted) == 0 && text[wanted] == '\n';
}

/* In the child, what is written goes to the file of the children. */
static void begin_child(void)
{
    int file = open(output, O_WRONLY | O_CREAT | O_TRUNC, 0600);

    if (file < 0)
        abort();
    dup2(file, 1);
    dup2(file, 2);
    close(file);
    is_child = 1;
    alarm(100);
}

/* Whether this process is the child in which the call is refused. */
static int is_refused_in_a_child(void)
{
    int status;
    pid_t child;

    if (is_child || is_waiting || calls < first_call || refused >= most_refused)
        return 0;
    child = fork();
    if (child < 0)
        abort();
    if (child == 0) {
        begin_child();
        return 1;
    }
    refused++;
    if (waitpid(child, &status, 0) != child)
        abort();
    if (status != 0 || !has_last_line()) {
        wrong++;
        if (wrong <= 10)
            tell("call %lu refused: status %lu\n", calls, (unsigned long)status);
    }
    return 0;
}

/* Counts a call. It takes no memory itself. */
static int is_refused(void)
{
    const char *mark;
    int file;

    if (requests >= 0 && syscall(SYS_write, requests, ".", 1) != 1)
        abort();
    calls++;
    if (each && is_refused_in_a_child()) {
        errno = ENOMEM;
        return 1;
    }
    if (calls != refused_call)
        return 0;
    mark = getenv("REFUSED_MARK");
    file = mark ? open(mark, O_WRONLY | O_CREAT, 0600) : -1;
    if (file >= 0)
        close(file);
    errno = ENOMEM;
    return 1;
}

void *malloc(size_t size)
{
    return is_refused() ? NULL : __libc_malloc(size);
}

void *calloc(size_t count, size_t size)
{
    return is_refused() ? NULL : __libc_calloc(count, size);
}

void *realloc(void *old, size_t size)
{
    return is_refused() ? NULL : __libc_realloc(old, size);
}

/* The C library's, but for noting that standard output was written to. */
ssize_t write(int file, const void *bytes, size_t count)
{
    if (file == 1)
        is_waiting = 0;
    return syscall(SYS_write, file, bytes, count);
}
