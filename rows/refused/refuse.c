// Stands before the C library's allocation: of the process that loads it the allocations from `first` on, `many` of them, are refused.
// Both numbers, and how many were asked for, stand in a file that REFUSED names, which the process that started it reads and writes too.
#define _GNU_SOURCE
#include <dlfcn.h>
#include <errno.h>
#include <fcntl.h>
#include <stdlib.h>
#include <sys/mman.h>
#include <unistd.h>

struct counts {
    long asked, first, many;
};

static struct counts none, *counts;
static void *(*to_malloc)(size_t), *(*to_realloc)(void *, size_t), *(*to_calloc)(size_t, size_t), *(*to_aligned)(size_t, size_t);
static int (*to_memalign)(void **, size_t, size_t);

static void begin(void) {
    const char *name = getenv("REFUSED");
    int file = name ? open(name, O_RDWR | O_CLOEXEC) : -1;
    void *found = file < 0 ? MAP_FAILED : mmap(NULL, sizeof *counts, PROT_READ | PROT_WRITE, MAP_SHARED, file, 0);
    if (file >= 0) close(file);
    counts = found == MAP_FAILED ? &none : found;
    to_malloc = dlsym(RTLD_NEXT, "malloc");
    to_realloc = dlsym(RTLD_NEXT, "realloc");
    to_aligned = dlsym(RTLD_NEXT, "aligned_alloc");
    to_memalign = dlsym(RTLD_NEXT, "posix_memalign");
    to_calloc = dlsym(RTLD_NEXT, "calloc");
}

static int is_refused(void) {
    if (!to_calloc) begin();
    long asked = __atomic_add_fetch(&counts->asked, 1, __ATOMIC_SEQ_CST);
    long first = __atomic_load_n(&counts->first, __ATOMIC_SEQ_CST);
    return first > 0 && asked >= first && asked - first < counts->many;
}

void *malloc(size_t size) { return is_refused() ? (errno = ENOMEM, NULL) : to_malloc(size); }
void *realloc(void *old, size_t size) { return is_refused() ? (errno = ENOMEM, NULL) : to_realloc(old, size); }
void *calloc(size_t many, size_t size) { return is_refused() ? (errno = ENOMEM, NULL) : to_calloc(many, size); }
void *aligned_alloc(size_t to, size_t size) { return is_refused() ? (errno = ENOMEM, NULL) : to_aligned(to, size); }
int posix_memalign(void **found, size_t to, size_t size) { return is_refused() ? ENOMEM : to_memalign(found, to, size); }
