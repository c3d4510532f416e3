/*
 * A library that is put before the C library (LD_PRELOAD) and makes calls of a program fail, or
 * move a few bytes only, as the environment says. At the program's end it writes down which calls
 * there were.
 *
 *   FAULTS_CALLS    the calls that are touched: growth, read, write, open or stat; without it none
 *   FAULTS_FIRST    the number of the first of them that is touched, from 1
 *   FAULTS_LAST     the number of the last one; without it all from the first one on are touched
 *   FAULTS_ERROR    the errno with which a touched call fails; 0: a read or write moves nothing;
 *                   without it a read or write moves a few bytes
 *   FAULTS_SLOW     read or write: each of these that doesn't fail moves a few bytes
 *   FAULTS_BYTES    how many bytes a few are at most; without it 1
 *   FAULTS_RECORD   the number of an open descriptor, on which the record is written: one line of
 *                   NAME=NUMBER, of all names in `write_record`
 *   FAULTS_STACK    the number of an open descriptor, to which the stack of the first growth that is
 *                   refused is written, from the address to which that call returns
 *   FAULTS_RUNS     the number of a socket, from which runs are read in place of the first six: each
 *                   `struct asked` is one run, of a process that is forked off before `main`; after
 *                   it the status that `waitpid` returns is written there. A run begins with empty
 *                   outputs, record and stack, at the start of its input, and a signal ends it after
 *                   10 seconds.
 *
 * growth: malloc, calloc, realloc, aligned_alloc, memalign and posix_memalign; their errno is
 * always ENOMEM. A realloc to a smaller size is none: a program may go on without it.
 * read: read, readv and pread. write: write, writev and pwrite. open: open and openat.
 * stat: statx.
 *
 * Counting begins when this library is initialised. That is behind what the loader and the C
 * library do before `main`, so a program's k-th growth is the k-th of its own. It ends with
 * `exit`, or `main`, which calls it; a program that is ended by a signal or by `_exit` writes no
 * record. Nothing here takes memory. A program with more than one thread isn't counted right.
 */
#define _GNU_SOURCE
#include <errno.h>
#include <fcntl.h>
#include <limits.h>
#include <stdarg.h>
#include <stdint.h>
#include <stdio.h>
#include <stdlib.h>
#include <string.h>
#include <sys/auxv.h>
#include <sys/stat.h>
#include <sys/syscall.h>
#include <sys/uio.h>
#include <sys/wait.h>
#include <unistd.h>

/* The C library's own, behind the names that this library takes. */
extern void *__libc_malloc(size_t size);
extern void *__libc_calloc(size_t count, size_t size);
extern void *__libc_realloc(void *old, size_t size);
extern void *__libc_memalign(size_t alignment, size_t size);

enum kind { GROWTH, READ, WRITE, OPEN, STAT, KINDS };
static const char *const names[KINDS] = {"growth", "read", "write", "open", "stat"};

/* What becomes of a call. */
enum fate { PASSES, MOVES_FEW_BYTES, FAILS };

enum { SECONDS = 10 };

/* What is asked for, by the environment or for one of several runs. */
static struct asked {
    int64_t calls, slow, first, last, bytes, is_failing, error;
} asked;

/* What is written down. */
static int is_counting;
static long calls[KINDS];
static long met;
static long met_on_stderr;
static long opens_at_met;
static long bytes_read;
static long asked_after_failure;
static long asked_after_end;

/* What is known of each descriptor. */
enum { DESCRIPTORS = 1024 };
static char has_failed[DESCRIPTORS];
static char has_ended[DESCRIPTORS];

/* The kind of calls that a variable names, or KINDS. */
static int kind_in(const char *variable)
{
    const char *word = getenv(variable);
    int kind = 0;

    while (kind < KINDS && (word == NULL || strcmp(word, names[kind]) != 0))
        kind++;
    return kind;
}

static long number_in(const char *variable, long without)
{
    const char *word = getenv(variable);

    return word == NULL ? without : strtol(word, NULL, 10);
}

/* Empties a file, or goes to the start of one that is read. */
static void begin_again(int descriptor, int is_read)
{
    if (descriptor < 0)
        return;
    if (!is_read && ftruncate(descriptor, 0) < 0)
        _exit(EXIT_FAILURE);
    lseek(descriptor, 0, SEEK_SET);
}

/* Forks off a process for each run that is read from a socket, and writes there how it ended. Only
 * these processes return. */
static void serve_runs(int socket)
{
    pid_t child;
    int status;

    while (syscall(SYS_read, socket, &asked, sizeof asked) == sizeof asked) {
        begin_again(STDIN_FILENO, 1);
        begin_again(STDOUT_FILENO, 0);
        begin_again(STDERR_FILENO, 0);
        begin_again((int)number_in("FAULTS_RECORD", -1), 0);
        begin_again((int)number_in("FAULTS_STACK", -1), 0);
        child = fork();
        if (child == 0) {
            close(socket);
            alarm(SECONDS);
            return;
        }
        if (child < 0 || waitpid(child, &status, 0) != child)
            break;
        syscall(SYS_write, socket, &status, sizeof status);
    }
    _exit(EXIT_SUCCESS);
}

__attribute__((constructor)) static void begin(void)
{
    int socket = (int)number_in("FAULTS_RUNS", -1);

    asked.calls = kind_in("FAULTS_CALLS");
    asked.slow = kind_in("FAULTS_SLOW");
    asked.first = number_in("FAULTS_FIRST", 1);
    asked.last = number_in("FAULTS_LAST", LONG_MAX);
    asked.bytes = number_in("FAULTS_BYTES", 1);
    asked.is_failing = getenv("FAULTS_ERROR") != NULL;
    asked.error = number_in("FAULTS_ERROR", 0);
    if (socket >= 0)
        serve_runs(socket);
    is_counting = 1;
}

__attribute__((destructor)) static void write_record(void)
{
    char line[512];
    int descriptor = (int)number_in("FAULTS_RECORD", -1);
    int length;

    is_counting = 0;
    if (descriptor < 0)
        return;
    length = snprintf(line, sizeof line,
                      "growths=%ld reads=%ld writes=%ld opens=%ld stats=%ld met=%ld "
                      "met_on_stderr=%ld opens_at_met=%ld bytes_read=%ld "
                      "asked_after_failure=%ld asked_after_end=%ld entry=%lu\n",
                      calls[GROWTH], calls[READ], calls[WRITE], calls[OPEN], calls[STAT], met,
                      met_on_stderr, opens_at_met, bytes_read, asked_after_failure,
                      asked_after_end, getauxval(AT_ENTRY));
    syscall(SYS_write, descriptor, line, (size_t)length);
}

/* Counts a call, and says what becomes of it. */
static enum fate fate_of(int kind)
{
    enum fate usual = kind == asked.slow ? MOVES_FEW_BYTES : PASSES;

    if (!is_counting)
        return PASSES;
    calls[kind]++;
    if (kind != asked.calls || calls[kind] < asked.first || calls[kind] > asked.last)
        return usual;
    if (met == 0)
        opens_at_met = calls[OPEN];
    met++;
    return asked.is_failing ? FAILS : MOVES_FEW_BYTES;
}

/* Writes the stack above a frame of this library: of its caller, and of all those before it, up to
 * the environment that the system has put there. */
static void write_stack(const char *frame)
{
    const char *from = frame + sizeof frame;
    int descriptor = (int)number_in("FAULTS_STACK", -1);

    if (descriptor >= 0)
        syscall(SYS_write, descriptor, from, (size_t)((const char *)environ - from));
}

/* The answer of a growth that is asked for in this frame. */
static int is_refused(const char *frame)
{
    if (fate_of(GROWTH) != FAILS)
        return 0;
    if (met == 1)
        write_stack(frame);
    errno = ENOMEM;
    return 1;
}

/* What was asked for at an address, of the last block there; an address that another one has pushed
 * out isn't known, and a realloc of it is a growth. */
static struct {
    void *at;
    size_t size;
} blocks[65536];

static size_t place_of(void *at) { return ((uintptr_t)at >> 4) % 65536; }

static void *noted(void *at, size_t size)
{
    blocks[place_of(at)].at = at;
    blocks[place_of(at)].size = size;
    return at;
}

static int is_smaller(void *old, size_t size)
{
    return old != NULL && blocks[place_of(old)].at == old && size < blocks[place_of(old)].size;
}

void *malloc(size_t size)
{
    return is_refused(__builtin_frame_address(0)) ? NULL : noted(__libc_malloc(size), size);
}

void *calloc(size_t count, size_t size)
{
    return is_refused(__builtin_frame_address(0)) ? NULL
                                                  : noted(__libc_calloc(count, size), count * size);
}

void *realloc(void *old, size_t size)
{
    if (is_smaller(old, size))
        return noted(__libc_realloc(old, size), size);
    return is_refused(__builtin_frame_address(0)) ? NULL
                                                  : noted(__libc_realloc(old, size), size);
}

void *memalign(size_t alignment, size_t size)
{
    return is_refused(__builtin_frame_address(0)) ? NULL
                                                  : noted(__libc_memalign(alignment, size), size);
}

void *aligned_alloc(size_t alignment, size_t size)
{
    return is_refused(__builtin_frame_address(0)) ? NULL
                                                  : noted(__libc_memalign(alignment, size), size);
}

int posix_memalign(void **place, size_t alignment, size_t size)
{
    void *memory = is_refused(__builtin_frame_address(0))
                       ? NULL
                       : noted(__libc_memalign(alignment, size), size);

    if (memory == NULL)
        return ENOMEM;
    *place = memory;
    return 0;
}

static int is_known(int descriptor)
{
    return is_counting && descriptor >= 0 && descriptor < DESCRIPTORS;
}

/* Notes that something is asked of a descriptor, before it is known what becomes of it. */
static void ask(int descriptor)
{
    if (!is_known(descriptor))
        return;
    asked_after_failure += has_failed[descriptor];
    asked_after_end += has_ended[descriptor];
}

/* Notes the answer of a call that was to move bytes. Without a byte a write has failed. */
static ssize_t tell(int descriptor, int kind, size_t wanted, ssize_t moved)
{
    if (!is_known(descriptor))
        return moved;
    if (moved < 0 || (moved == 0 && wanted > 0 && kind == WRITE))
        has_failed[descriptor] = 1;
    if (moved == 0 && wanted > 0 && kind == READ)
        has_ended[descriptor] = 1;
    if (moved > 0 && kind == READ)
        bytes_read += moved;
    return moved;
}

/* The answer of a call that fails: nothing is moved. */
static ssize_t refuse(int descriptor)
{
    met_on_stderr += descriptor == STDERR_FILENO;
    if (asked.error == 0)
        return 0;
    errno = (int)asked.error;
    return -1;
}

/* A read or a write, by its number in the system, of one piece. */
static ssize_t move(int kind, long call, int descriptor, void *bytes, size_t size, off_t place)
{
    enum fate fate = fate_of(kind);
    size_t few = (size_t)asked.bytes;
    size_t moving = fate == MOVES_FEW_BYTES && size > few ? few : size;
    ssize_t moved;

    ask(descriptor);
    moved = fate == FAILS ? refuse(descriptor) : syscall(call, descriptor, bytes, moving, place);
    return tell(descriptor, kind, size, moved);
}

/* A read or a write of several pieces. A few bytes are those of the first piece that has any. */
static ssize_t move_pieces(int kind, long call, int descriptor, const struct iovec *pieces,
                           int count)
{
    enum fate fate = fate_of(kind);
    struct iovec piece = {NULL, 0};
    size_t few = (size_t)asked.bytes;
    size_t size = 0;
    ssize_t moved;
    int i;

    for (i = count - 1; i >= 0; i--) {
        size += pieces[i].iov_len;
        if (pieces[i].iov_len > 0)
            piece = pieces[i];
    }
    if (fate == MOVES_FEW_BYTES && size > few) {
        if (piece.iov_len > few)
            piece.iov_len = few;
        pieces = &piece;
        count = 1;
    }
    ask(descriptor);
    moved = fate == FAILS ? refuse(descriptor) : syscall(call, descriptor, pieces, count);
    return tell(descriptor, kind, size, moved);
}

ssize_t read(int descriptor, void *bytes, size_t size)
{
    return move(READ, SYS_read, descriptor, bytes, size, 0);
}

ssize_t pread(int descriptor, void *bytes, size_t size, off_t place)
{
    return move(READ, SYS_pread64, descriptor, bytes, size, place);
}

ssize_t readv(int descriptor, const struct iovec *pieces, int count)
{
    return move_pieces(READ, SYS_readv, descriptor, pieces, count);
}

ssize_t write(int descriptor, const void *bytes, size_t size)
{
    return move(WRITE, SYS_write, descriptor, (void *)bytes, size, 0);
}

ssize_t pwrite(int descriptor, const void *bytes, size_t size, off_t place)
{
    return move(WRITE, SYS_pwrite64, descriptor, (void *)bytes, size, place);
}

ssize_t writev(int descriptor, const struct iovec *pieces, int count)
{
    return move_pieces(WRITE, SYS_writev, descriptor, pieces, count);
}

/* Opens a file. A descriptor that is used again is another device. */
static int open_at(int folder, const char *path, int flags, mode_t mode)
{
    int descriptor;

    if (fate_of(OPEN) == FAILS) {
        errno = (int)asked.error;
        return -1;
    }
    descriptor = (int)syscall(SYS_openat, folder, path, flags, mode);
    if (is_known(descriptor)) {
        has_failed[descriptor] = 0;
        has_ended[descriptor] = 0;
    }
    return descriptor;
}

/* Whether a call that opens has a mode behind its flags. */
static int has_mode(int flags)
{
    return (flags & O_CREAT) != 0 || (flags & O_TMPFILE) == O_TMPFILE;
}

int open(const char *path, int flags, ...)
{
    va_list more;
    mode_t mode = 0;

    va_start(more, flags);
    if (has_mode(flags))
        mode = va_arg(more, mode_t);
    va_end(more);
    return open_at(AT_FDCWD, path, flags, mode);
}

int openat(int folder, const char *path, int flags, ...)
{
    va_list more;
    mode_t mode = 0;

    va_start(more, flags);
    if (has_mode(flags))
        mode = va_arg(more, mode_t);
    va_end(more);
    return open_at(folder, path, flags, mode);
}

int statx(int folder, const char *restrict path, int flags, unsigned int mask,
          struct statx *restrict found)
{
    if (fate_of(STAT) == FAILS) {
        errno = (int)asked.error;
        return -1;
    }
    return (int)syscall(SYS_statx, folder, path, flags, mask, found);
}
