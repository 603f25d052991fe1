/* An allocator for tests/faults: loaded before the C library, it counts the growths that a program asks for, and refuses some of them.

   A growth is a call of malloc, calloc, realloc, aligned_alloc, posix_memalign or memalign. REFUSE=K refuses the K-th one, from 1; with
   REFUSE_ALL=1 it refuses all those behind it too. The file REFUSE_NOTE, which has room for two numbers of 64 bits, holds how many growths there were
   and how many were refused: it is mapped, since a program may end in a way that calls nothing. */
#define _GNU_SOURCE
#include <dlfcn.h>
#include <errno.h>
#include <fcntl.h>
#include <stdatomic.h>
#include <stddef.h>
#include <stdint.h>
#include <stdlib.h>
#include <sys/mman.h>
#include <unistd.h>

struct note {
    _Atomic int64_t growths, refused;
};

static struct note *note;
static long chosen;
static int all;

/* The environment is looked at by the first growth, which comes before any thread and maybe before any constructor. */
static void choose(void) {
    const char *word = getenv("REFUSE"), *path = getenv("REFUSE_NOTE");
    int file = path == NULL ? -1 : open(path, O_RDWR);
    all = getenv("REFUSE_ALL") != NULL;
    chosen = word == NULL ? 0 : atol(word);
    note = mmap(NULL, sizeof *note, PROT_READ | PROT_WRITE, MAP_SHARED, file, 0);
    if (note == MAP_FAILED) _exit(124);
    close(file);
}

static int is_refused(void) {
    if (note == NULL) choose();
    long number = atomic_fetch_add(&note->growths, 1) + 1;
    if (chosen == 0 || number < chosen || (number > chosen && !all)) return 0;
    atomic_fetch_add(&note->refused, 1);
    errno = ENOMEM;
    return 1;
}

/* The function of the C library. */
static void *next(const char *name) {
    void *found = dlsym(RTLD_NEXT, name);
    if (found == NULL) _exit(125);
    return found;
}

void *malloc(size_t size) {
    static void *(*inner)(size_t);
    if (inner == NULL) inner = next("malloc");
    return is_refused() ? NULL : inner(size);
}

void *calloc(size_t count, size_t size) {
    static void *(*inner)(size_t, size_t);
    if (inner == NULL) inner = next("calloc");
    return is_refused() ? NULL : inner(count, size);
}

void *realloc(void *block, size_t size) {
    static void *(*inner)(void *, size_t);
    if (inner == NULL) inner = next("realloc");
    return is_refused() ? NULL : inner(block, size);
}

void *aligned_alloc(size_t align, size_t size) {
    static void *(*inner)(size_t, size_t);
    if (inner == NULL) inner = next("aligned_alloc");
    return is_refused() ? NULL : inner(align, size);
}

void *memalign(size_t align, size_t size) {
    static void *(*inner)(size_t, size_t);
    if (inner == NULL) inner = next("memalign");
    return is_refused() ? NULL : inner(align, size);
}

int posix_memalign(void **block, size_t align, size_t size) {
    static int (*inner)(void **, size_t, size_t);
    if (inner == NULL) inner = next("posix_memalign");
    return is_refused() ? ENOMEM : inner(block, align, size);
}
