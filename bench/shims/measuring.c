// A library that is loaded before a program (LD_PRELOAD), calls it again and again, and measures each call.
//
// The process stops just before the program begins. For each list of words that comes on its standard
// input it forks, and the child is the program with these words, at the place where a new process would be,
// but that it needn't be loaded again. Its input is empty, its output and its notes stand in the files `out`
// and `notes` of the folder. When it has ended, its `struct end` is written to standard output. A program
// that takes more than a minute is ended by SIGALRM.
//
// A list is a number of 32 bits, which is how many bytes the words have, and the words, each with a zero
// behind it. The end of the input ends the process.
#define _GNU_SOURCE
#include <dlfcn.h>
#include <fcntl.h>
#include <malloc.h>
#include <stdatomic.h>
#include <stdint.h>
#include <stdlib.h>
#include <sys/mman.h>
#include <sys/resource.h>
#include <sys/wait.h>
#include <unistd.h>

enum { MOST_WORDS = 16, MOST_BYTES = 65536, FAILED = 99 };

// The status as `wait` tells it, the microseconds of processor time, and the most bytes allocated at once.
struct end {
    int64_t status, microseconds, most;
};

static atomic_long *most_in_use, in_use;

void *__libc_malloc(size_t), *__libc_calloc(size_t, size_t), *__libc_realloc(void *, size_t);
void __libc_free(void *);

static void read_whole(void *place, size_t size) {
    for (size_t got = 0; got < size;) {
        ssize_t more = read(0, (char *)place + got, size - got);
        if (more <= 0) _exit(more < 0 || got > 0 ? FAILED : 0);
        got += more;
    }
}

// Reads a list of words: how many there are. A null and the environment follow them, as at a start.
static int read_words(char *words[]) {
    static char bytes[MOST_BYTES];
    uint32_t size;
    int count = 0;
    read_whole(&size, sizeof size);
    if (size > MOST_BYTES) _exit(FAILED);
    read_whole(bytes, size);
    for (uint32_t at = 0, start = 0; at < size; at++) {
        if (bytes[at] != 0) continue;
        if (count == MOST_WORDS) _exit(FAILED);
        words[count++] = bytes + start;
        start = at + 1;
    }
    words[count] = NULL;
    return count;
}

static void open_as(int place, const char *name, int flags) {
    int file = open(name, flags, 0600);
    if (file < 0 || dup2(file, place) < 0 || close(file) < 0) _exit(FAILED);
}

static void become_a_call(void) {
    open_as(0, "/dev/null", O_RDONLY);
    open_as(1, "out", O_WRONLY | O_CREAT | O_TRUNC);
    open_as(2, "notes", O_WRONLY | O_CREAT | O_TRUNC);
    alarm(60);
}

static void tell_end(pid_t child) {
    int status;
    struct rusage usage;
    if (wait4(child, &status, 0, &usage) != child) _exit(FAILED);
    struct end end = {.status = status, .most = *most_in_use};
    end.microseconds = (usage.ru_utime.tv_sec + usage.ru_stime.tv_sec) * 1000000L + usage.ru_utime.tv_usec + usage.ru_stime.tv_usec;
    if (write(1, &end, sizeof end) != sizeof end) _exit(FAILED);
}

// Serves calls; only the children come back, each with its words.
static int serve(char *words[]) {
    most_in_use = mmap(NULL, sizeof *most_in_use, PROT_READ | PROT_WRITE, MAP_SHARED | MAP_ANONYMOUS, -1, 0);
    if (most_in_use == MAP_FAILED) _exit(FAILED);
    for (;;) {
        int count = read_words(words);
        *most_in_use = in_use;
        pid_t child = fork();
        if (child < 0) _exit(FAILED);
        if (child == 0) {
            become_a_call();
            return count;
        }
        tell_end(child);
    }
}

typedef int program(int, char **, char **);
typedef int starter(program *, int, char **, void (*)(void), void (*)(void), void (*)(void), void *);

int __libc_start_main(program *begin, int count, char **given, void (*before)(void), void (*after)(void),
                      void (*unload)(void), void *stack) {
    static char *words[MOST_WORDS + 2];
    starter *start = (starter *)dlsym(RTLD_NEXT, "__libc_start_main");
    (void)count, (void)given;
    int served = serve(words);
    return start(begin, served, words, before, after, unload, stack);
}

static void *taken(void *place) {
    long size = malloc_usable_size(place);
    long now = atomic_fetch_add(&in_use, size) + size;
    long most = most_in_use ? atomic_load(most_in_use) : now;
    while (now > most && !atomic_compare_exchange_weak(most_in_use, &most, now)) {}
    return place;
}

void *malloc(size_t size) { return taken(__libc_malloc(size)); }

void *calloc(size_t count, size_t size) { return taken(__libc_calloc(count, size)); }

void *realloc(void *from, size_t size) {
    long before = malloc_usable_size(from);
    void *place = __libc_realloc(from, size);
    if (place || size == 0) atomic_fetch_sub(&in_use, before);
    return taken(place);
}

void free(void *place) {
    atomic_fetch_sub(&in_use, malloc_usable_size(place));
    __libc_free(place);
}
