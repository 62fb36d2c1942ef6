/* Refuses requests for memory that a program makes, for trials/refusals: a library that is loaded before libc, whose malloc, calloc, realloc,
   posix_memalign and aligned_alloc it stands in front of.

   REFUSING_COUNTS names a file of 16 bytes, which gets two counters: the requests, and those that were refused. REFUSING_SERVED says how many
   requests are served; the next is refused, and with REFUSING_ALL set each one behind it too. Without REFUSING_SERVED all are served. */
#include <errno.h>
#include <fcntl.h>
#include <stddef.h>
#include <stdlib.h>
#include <sys/mman.h>
#include <unistd.h>

extern void *__libc_malloc(size_t size);
extern void *__libc_calloc(size_t count, size_t size);
extern void *__libc_realloc(void *old, size_t size);
extern void *__libc_memalign(size_t alignment, size_t size);

struct counters {
    unsigned long requests, refused;
};

static struct counters *counters;
static unsigned long served = -1ul;
static int refuses_all;

__attribute__((constructor)) static void begin(void) {
    const char *path = getenv("REFUSING_COUNTS"), *number = getenv("REFUSING_SERVED");
    if (!path) return;
    int file = open(path, O_RDWR);
    if (file < 0) return;
    void *mapped = mmap(NULL, sizeof(struct counters), PROT_READ | PROT_WRITE, MAP_SHARED, file, 0);
    close(file);
    if (mapped == MAP_FAILED) return;
    if (number) served = strtoul(number, NULL, 10);
    refuses_all = getenv("REFUSING_ALL") != NULL;
    counters = mapped;
}

/* Whether this request is refused. */
static int refuses(void) {
    if (!counters) return 0;
    unsigned long place = counters->requests++;
    if (place < served || (place > served && !refuses_all)) return 0;
    counters->refused++;
    errno = ENOMEM;
    return 1;
}

void *malloc(size_t size) { return refuses() ? NULL : __libc_malloc(size); }

void *calloc(size_t count, size_t size) { return refuses() ? NULL : __libc_calloc(count, size); }

void *realloc(void *old, size_t size) { return refuses() ? NULL : __libc_realloc(old, size); }

void *aligned_alloc(size_t alignment, size_t size) { return refuses() ? NULL : __libc_memalign(alignment, size); }

int posix_memalign(void **made, size_t alignment, size_t size) {
    void *block = refuses() ? NULL : __libc_memalign(alignment, size);
    if (!block) return ENOMEM;
    *made = block;
    return 0;
}
