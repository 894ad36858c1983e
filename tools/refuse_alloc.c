/* Refuses one allocation of a program: a library to be preloaded, for the suite of refused memory. It is no part of
 * the product. REFUSE_ALLOC=N refuses the Nth call of malloc, calloc, realloc or aligned allocation, counted from 1,
 * and makes the file that REFUSE_ALLOC_MARK names. Where REFUSE_ALLOC_WHILE names a file, calls count while it exists; each
 * time that it is written they count anew, up to the number that it has, if it has one. */
#define _GNU_SOURCE
#include <dlfcn.h>
#include <errno.h>
#include <fcntl.h>
#include <stddef.h>
#include <stdlib.h>
#include <sys/stat.h>
#include <unistd.h>

static void *(*next_malloc)(size_t);
static void *(*next_calloc)(size_t, size_t);
static void *(*next_realloc)(void *, size_t);
static int (*next_posix_memalign)(void **, size_t, size_t);
static void *(*next_aligned_alloc)(size_t, size_t);
static long refused_call;
static long calls;
static const char *counted;
static struct timespec counted_since;
/* What is asked for while the library finds its functions comes from here. */
static char early[4096];
static size_t early_used;

__attribute__((constructor)) static void begin(void) {
    const char *wanted = getenv("REFUSE_ALLOC");
    next_malloc = dlsym(RTLD_NEXT, "malloc");
    next_calloc = dlsym(RTLD_NEXT, "calloc");
    next_realloc = dlsym(RTLD_NEXT, "realloc");
    next_posix_memalign = dlsym(RTLD_NEXT, "posix_memalign");
    next_aligned_alloc = dlsym(RTLD_NEXT, "aligned_alloc");
    calls = 0;
    refused_call = wanted ? atol(wanted) : 0;
    counted = getenv("REFUSE_ALLOC_WHILE");
}

static void begin_anew(struct timespec since) {
    char number[32] = "";
    int file = open(counted, O_RDONLY);
    counted_since = since;
    calls = 0;
    if (file >= 0 && read(file, number, sizeof number - 1) > 0)
        refused_call = atol(number);
    if (file >= 0)
        close(file);
}

static int is_counted(void) {
    if (counted == NULL)
        return 1;
    int before = errno;
    struct stat seen;
    int is_there = stat(counted, &seen) == 0;
    if (is_there && (seen.st_mtim.tv_sec != counted_since.tv_sec || seen.st_mtim.tv_nsec != counted_since.tv_nsec))
        begin_anew(seen.st_mtim);
    errno = before;
    return is_there;
}

static int refuse(void) {
    if (!is_counted() || refused_call == 0 || ++calls != refused_call)
        return 0;
    const char *mark = getenv("REFUSE_ALLOC_MARK");
    if (mark) {
        int file = open(mark, O_WRONLY | O_CREAT, 0600);
        if (file >= 0)
            close(file);
    }
    errno = ENOMEM;
    return 1;
}

static void *early_memory(size_t size) {
    size_t rounded = (size + 15) / 16 * 16;
    if (rounded > sizeof early - early_used)
        return NULL;
    void *found = early + early_used;
    early_used += rounded;
    return found;
}

void *malloc(size_t size) {
    if (!next_malloc)
        return early_memory(size);
    return refuse() ? NULL : next_malloc(size);
}

void *calloc(size_t count, size_t size) {
    if (!next_calloc)
        return early_memory(count * size);
    return refuse() ? NULL : next_calloc(count, size);
}

void *realloc(void *old, size_t size) {
    if (!next_realloc)
        return early_memory(size);
    return refuse() ? NULL : next_realloc(old, size);
}

int posix_memalign(void **found, size_t alignment, size_t size) {
    if (!next_posix_memalign || refuse())
        return ENOMEM;
    return next_posix_memalign(found, alignment, size);
}

void *aligned_alloc(size_t alignment, size_t size) {
    if (!next_aligned_alloc || refuse())
        return NULL;
    return next_aligned_alloc(alignment, size);
}
