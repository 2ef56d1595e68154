// Refuses allocations of a program that is run with LD_PRELOAD=this: the one of the number REFUSE, counted from 1 in all its
// threads, and with REFUSE_ALL each behind it too. The file REFUSE_COUNT gets how many were asked for, as a u64.
//
// The C library's own functions are called by the names that it has for them beside those which this takes.
#include <errno.h>
#include <fcntl.h>
#include <stdatomic.h>
#include <stdbool.h>
#include <stdlib.h>
#include <sys/mman.h>
#include <unistd.h>

void *__libc_malloc(size_t size);
void *__libc_calloc(size_t count, size_t size);
void *__libc_realloc(void *block, size_t size);
void *__libc_memalign(size_t alignment, size_t size);

static atomic_ulong *asked; // the counter stands in the file, so it is there whatever the program ends with
static unsigned long first;
static bool all;

__attribute__((constructor)) static void begin(void) {
    const char *path = getenv("REFUSE_COUNT"), *number = getenv("REFUSE");
    int file = open(path ? path : "", O_RDWR | O_CREAT, 0600);
    if (file < 0 || ftruncate(file, sizeof *asked)) _exit(126);
    void *shared = mmap(NULL, sizeof *asked, PROT_READ | PROT_WRITE, MAP_SHARED, file, 0);
    close(file);
    if (shared == MAP_FAILED) _exit(126);
    first = number ? strtoul(number, NULL, 10) : 0;
    all = getenv("REFUSE_ALL") != NULL;
    asked = shared;
}

static bool is_refused(void) {
    if (!asked) return false;
    unsigned long number = atomic_fetch_add(asked, 1) + 1;
    bool refused = first && (number == first || (all && number > first));
    if (refused) errno = ENOMEM;
    return refused;
}

void *malloc(size_t size) { return is_refused() ? NULL : __libc_malloc(size); }

void *calloc(size_t count, size_t size) { return is_refused() ? NULL : __libc_calloc(count, size); }

void *realloc(void *block, size_t size) { return is_refused() ? NULL : __libc_realloc(block, size); }

void *aligned_alloc(size_t alignment, size_t size) { return is_refused() ? NULL : __libc_memalign(alignment, size); }

int posix_memalign(void **block, size_t alignment, size_t size) {
    *block = is_refused() ? NULL : __libc_memalign(alignment, size);
    return *block ? 0 : ENOMEM;
}
