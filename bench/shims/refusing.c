// A library that is loaded before a program (LD_PRELOAD) and refuses some of the calls that it makes.
//
// REFUSE is the kind of calls that are counted: `memory`, `files` (opening, seeking and reading),
// `output`, `threads`. With `short` none is refused, but each call reads and writes a single byte.
// TERMINAL says that standard output is one. A program that takes more than a minute is ended by SIGALRM.
//
// With SWEEP the process stops just before the program begins, and forks for one call of the program after
// another. In the first nothing is refused, which counts the calls of the kind. In each of the others that with
// a number is refused, from FIRST, each STEPth, where SWEEP is `alone`, and where it is `behind` all from that
// one on. Output and notes are written to files, whose names are ANSWER with `.out` and `.notes` behind it,
// and compared with those whose names begin with RIGHT. Of each call but the first a line tells the number; the
// status, as shells have it; of the output, and then of the notes, whether they are the `same`, a `front` of
// what is right, or `other`, how many bytes and lines they have, and the first bytes, with `|` for the end of a
// line. Between these stands the byte 31.
#define _GNU_SOURCE
#include <dlfcn.h>
#include <errno.h>
#include <fcntl.h>
#include <limits.h>
#include <pthread.h>
#include <stdarg.h>
#include <stdatomic.h>
#include <stdio.h>
#include <stdlib.h>
#include <string.h>
#include <sys/mman.h>
#include <sys/stat.h>
#include <sys/syscall.h>
#include <sys/wait.h>
#include <unistd.h>

enum kind { NONE, MEMORY, FILES, OUTPUT, THREADS, SHORT };
static const char *names[] = {"", "memory", "files", "output", "threads", "short"};
enum { FAILED = 99, SHOWN = 200 };

static enum kind refuse;
static long first, last;
// How many calls there were; shared with the process that forked. None are counted where it is null.
static atomic_long *counted;

static int refused(enum kind kind, int error) {
    if (!counted || kind != refuse) return 0;
    long call = ++*counted;
    if (call < first || call > last) return 0;
    errno = error;
    return 1;
}

static size_t at_once(size_t size) { return refuse == SHORT && size > 1 ? 1 : size; }

void *__libc_malloc(size_t), *__libc_calloc(size_t, size_t), *__libc_realloc(void *, size_t);

void *malloc(size_t size) { return refused(MEMORY, ENOMEM) ? NULL : __libc_malloc(size); }

void *calloc(size_t count, size_t size) { return refused(MEMORY, ENOMEM) ? NULL : __libc_calloc(count, size); }

void *realloc(void *from, size_t size) { return refused(MEMORY, ENOMEM) ? NULL : __libc_realloc(from, size); }

int open(const char *path, int flags, ...) {
    return refused(FILES, EMFILE) ? -1 : syscall(SYS_open, path, flags, 0600);
}

int openat(int folder, const char *path, int flags, ...) {
    return refused(FILES, EMFILE) ? -1 : syscall(SYS_openat, folder, path, flags, 0600);
}

off_t lseek(int file, off_t to, int from) {
    return refused(FILES, EIO) ? -1 : syscall(SYS_lseek, file, to, from);
}

ssize_t read(int file, void *buffer, size_t size) {
    return refused(FILES, EIO) ? -1 : syscall(SYS_read, file, buffer, at_once(size));
}

ssize_t write(int file, const void *text, size_t size) {
    return refused(OUTPUT, ENOSPC) ? -1 : syscall(SYS_write, file, text, at_once(size));
}

int isatty(int file) { return file == 1 && getenv("TERMINAL"); }

int pthread_create(pthread_t *thread, const pthread_attr_t *with, void *(*work)(void *), void *on) {
    static int (*real)(pthread_t *, const pthread_attr_t *, void *(*)(void *), void *);
    if (!real) real = dlsym(RTLD_NEXT, "pthread_create");
    return refused(THREADS, EAGAIN) ? EAGAIN : real(thread, with, work, on);
}

// A text in a file.
struct text {
    const char *bytes;
    size_t size;
};

static const char *name_of(const char *variable, const char *end) {
    static char name[PATH_MAX];
    snprintf(name, sizeof name, "%s.%s", getenv(variable), end);
    return name;
}

static struct text text_of(const char *name) {
    struct stat about;
    struct text text = {"", 0};
    int file = syscall(SYS_open, name, O_RDONLY, 0);
    if (file < 0 || fstat(file, &about) < 0) _exit(FAILED);
    if (about.st_size > 0) {
        text.size = about.st_size;
        text.bytes = mmap(NULL, text.size, PROT_READ, MAP_PRIVATE, file, 0);
        if (text.bytes == MAP_FAILED) _exit(FAILED);
    }
    close(file);
    return text;
}

static void let_go(struct text text) {
    if (text.size > 0) munmap((void *)text.bytes, text.size);
}

static void tell_text(const char *end) {
    struct text text = text_of(name_of("ANSWER", end)), right = text_of(name_of("RIGHT", end));
    int is_front = text.size <= right.size && memcmp(text.bytes, right.bytes, text.size) == 0;
    long lines = 0;
    for (size_t at = 0; at < text.size; at++) lines += text.bytes[at] == '\n';
    dprintf(1, "\037%s\037%zu\037%ld\037", !is_front ? "other" : text.size < right.size ? "front" : "same", text.size, lines);
    char shown[SHOWN];
    size_t size = text.size < SHOWN ? text.size : SHOWN;
    for (size_t at = 0; at < size; at++) {
        char byte = text.bytes[at];
        shown[at] = byte == '\n' ? '|' : byte >= ' ' || byte < 0 ? byte : '?';
    }
    if (syscall(SYS_write, 1, shown, size) < 0) _exit(FAILED);
    let_go(text);
    let_go(right);
}

static void open_as(int place, const char *name) {
    int file = syscall(SYS_open, name, O_WRONLY | O_CREAT | O_TRUNC, 0600);
    if (file < 0 || dup2(file, place) < 0 || close(file) < 0) _exit(FAILED);
}

// Forks a call in which those from one number to another are refused. Only the child comes back; else 0.
static int is_call(atomic_long *count, long from, long to, int *status) {
    *count = 0;
    pid_t child = fork();
    if (child < 0) _exit(FAILED);
    if (child == 0) {
        open_as(1, name_of("ANSWER", "out"));
        open_as(2, name_of("ANSWER", "notes"));
        alarm(60);
        first = from, last = to, counted = count;
        return 1;
    }
    if (waitpid(child, status, 0) != child) _exit(FAILED);
    return 0;
}

// Does the sweep; only the children come back.
static void sweep(atomic_long *count, long number, long step, int is_alone) {
    int status;
    if (is_call(count, 0, 0, &status)) return;
    for (long all = *count; number <= all; number += step) {
        if (is_call(count, number, is_alone ? number : LONG_MAX, &status)) return;
        dprintf(1, "%ld\037%d", number, WIFEXITED(status) ? WEXITSTATUS(status) : 128 + WTERMSIG(status));
        tell_text("out");
        tell_text("notes");
        dprintf(1, "\n");
    }
    _exit(0);
}

typedef int program(int, char **, char **);
typedef int starter(program *, int, char **, void (*)(void), void (*)(void), void (*)(void), void *);

int __libc_start_main(program *begin, int count, char **words, void (*before)(void), void (*after)(void),
                      void (*unload)(void), void *stack) {
    starter *start = (starter *)dlsym(RTLD_NEXT, "__libc_start_main");
    const char *mode = getenv("SWEEP");
    for (enum kind kind = SHORT; kind > NONE; kind--)
        if (strcmp(getenv("REFUSE"), names[kind]) == 0) refuse = kind;
    atomic_long *shared = mmap(NULL, sizeof *shared, PROT_READ | PROT_WRITE, MAP_SHARED | MAP_ANONYMOUS, -1, 0);
    if (shared == MAP_FAILED) _exit(FAILED);
    if (mode) sweep(shared, atol(getenv("FIRST")), atol(getenv("STEP")), strcmp(mode, "alone") == 0);
    alarm(60);
    return start(begin, count, words, before, after, unload, stack);
}
