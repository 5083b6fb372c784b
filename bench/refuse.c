// Refuses one allocation of the program that it is loaded into: the call whose number, from 1 on, stands in REFUSE. It counts the
// calls in the file that REFUSE_COUNT names, which must hold eight bytes.
#define _GNU_SOURCE
#include <dlfcn.h>
#include <errno.h>
#include <fcntl.h>
#include <stdlib.h>
#include <sys/mman.h>

static unsigned long *count;
static unsigned long refused;

__attribute__((constructor)) static void begin(void) {
    const char *file = getenv("REFUSE_COUNT"), *number = getenv("REFUSE");
    int counts = file ? open(file, O_RDWR) : -1;
    void *page = counts < 0 ? MAP_FAILED : mmap(0, sizeof *count, PROT_READ | PROT_WRITE, MAP_SHARED, counts, 0);
    count = page == MAP_FAILED ? 0 : page;
    refused = number ? strtoul(number, 0, 10) : 0;
}

static int is_refused(void) {
    if (!count || ++*count != refused) return 0;
    errno = ENOMEM;
    return 1;
}

void *malloc(size_t size) {
    static void *(*next)(size_t);
    if (!next) next = dlsym(RTLD_NEXT, "malloc");
    return is_refused() ? 0 : next(size);
}

void *realloc(void *old, size_t size) {
    static void *(*next)(void *, size_t);
    if (!next) next = dlsym(RTLD_NEXT, "realloc");
    return is_refused() ? 0 : next(old, size);
}
