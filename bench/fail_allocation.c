/* Refuses allocations of the program that it is loaded into (LD_PRELOAD), counted from 1 in the order in which they are asked for.

       cc -O2 -shared -fPIC -o fail_allocation.so fail_allocation.c

   FAIL_AT=N      the Nth alone is refused
   FAIL_FROM=N    the Nth and all that follow are
   COUNT_FILE=F   their number is kept in the file F, as eight bytes in the machine's order

   It stands before the allocator of the GNU C library, whose own names it calls. What the loader asks for before the library is
   started is not counted. */
#include <errno.h>
#include <fcntl.h>
#include <stdatomic.h>
#include <stddef.h>
#include <stdlib.h>
#include <sys/mman.h>
#include <unistd.h>

extern void *__libc_malloc(size_t size);
extern void *__libc_calloc(size_t count, size_t size);
extern void *__libc_realloc(void *old, size_t size);
extern void *__libc_memalign(size_t alignment, size_t size);

static atomic_ulong own;
static atomic_ulong *asked = &own;
static unsigned long at, from;
static int started;

static unsigned long number_of(const char *name) {
    const char *text = getenv(name);
    return text ? strtoul(text, NULL, 10) : 0;
}

/* The program may end without the library's exit, so the count stands in a file that is mapped. */
static void count_in(const char *name) {
    int file = open(name, O_RDWR | O_CREAT, 0644);
    if (file < 0 || ftruncate(file, sizeof own) != 0) _exit(99);
    void *mapped = mmap(NULL, sizeof own, PROT_READ | PROT_WRITE, MAP_SHARED, file, 0);
    if (mapped == MAP_FAILED) _exit(99);
    close(file);
    asked = mapped;
    atomic_store(asked, 0);
}

__attribute__((constructor)) static void start(void) {
    const char *name = getenv("COUNT_FILE");
    if (name) count_in(name);
    at = number_of("FAIL_AT");
    from = number_of("FAIL_FROM");
    started = 1;
}

static int is_refused(void) {
    if (!started) return 0;
    unsigned long number = atomic_fetch_add(asked, 1) + 1;
    if (number != at && (from == 0 || number < from)) return 0;
    errno = ENOMEM;
    return 1;
}

void *malloc(size_t size) { return is_refused() ? NULL : __libc_malloc(size); }

void *calloc(size_t count, size_t size) { return is_refused() ? NULL : __libc_calloc(count, size); }

void *realloc(void *old, size_t size) { return is_refused() ? NULL : __libc_realloc(old, size); }

void *memalign(size_t alignment, size_t size) { return is_refused() ? NULL : __libc_memalign(alignment, size); }

void *aligned_alloc(size_t alignment, size_t size) { return memalign(alignment, size); }

int posix_memalign(void **made, size_t alignment, size_t size) {
    void *block = memalign(alignment, size);
    if (!block) return ENOMEM;
    *made = block;
    return 0;
}
