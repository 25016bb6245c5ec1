/* Preloaded before a program, this library makes chosen allocations of the C library's heap fail. It allocates no memory itself.
 *
 * - REFUSE_FIRST is the number of the first allocation that fails, from 1. REFUSE_LAST is that of the last (default: all from
 *   the first on fail).
 * - With COUNT_FROM=N only allocations of N bytes or more are counted.
 * - With REFUSE_ABOVE=N every allocation of more than N bytes fails too.
 * - For each allocation that fails, a byte is written to the descriptor REFUSED: 'x', or with THREADS 't' if it isn't the first
 *   thread. */
#define _GNU_SOURCE
#include <errno.h>
#include <stdatomic.h>
#include <stdlib.h>
#include <unistd.h>

void *__libc_malloc(size_t size);
void *__libc_calloc(size_t count, size_t size);
void *__libc_realloc(void *block, size_t size);
void *__libc_memalign(size_t align, size_t size);

static unsigned long first, last, above, counted;
static atomic_ulong asked;
static int told = -1, tells_threads;

static unsigned long number(const char *name, unsigned long otherwise) {
    const char *text = getenv(name);
    return text ? strtoul(text, 0, 10) : otherwise;
}

__attribute__((constructor)) static void begin(void) {
    told = (int)number("REFUSED", (unsigned long)-1);
    last = number("REFUSE_LAST", (unsigned long)-1);
    above = number("REFUSE_ABOVE", (unsigned long)-1);
    counted = number("COUNT_FROM", 0);
    first = number("REFUSE_FIRST", 0);
    tells_threads = getenv("THREADS") != 0;
}

/* whether the next allocation, of so many bytes, is to fail */
static int is_next_chosen(size_t size) {
    if (size < counted) {
        return 0;
    }
    unsigned long at = atomic_fetch_add(&asked, 1) + 1;
    return first && at >= first && at <= last;
}

static int refuses(size_t size) {
    if (!is_next_chosen(size) && size <= above) {
        return 0;
    }
    if (told >= 0 && write(told, tells_threads && gettid() != getpid() ? "t" : "x", 1) < 0) {
        _exit(99);
    }
    errno = ENOMEM;
    return 1;
}

/* the product, or the largest size if it overflows */
static size_t product(size_t count, size_t size) { return size && count > (size_t)-1 / size ? (size_t)-1 : count * size; }

void *malloc(size_t size) { return refuses(size) ? 0 : __libc_malloc(size); }

void *calloc(size_t count, size_t size) { return refuses(product(count, size)) ? 0 : __libc_calloc(count, size); }

void *realloc(void *block, size_t size) { return refuses(size) ? 0 : __libc_realloc(block, size); }

void *memalign(size_t align, size_t size) { return refuses(size) ? 0 : __libc_memalign(align, size); }

void *aligned_alloc(size_t align, size_t size) { return refuses(size) ? 0 : __libc_memalign(align, size); }

int posix_memalign(void **block, size_t align, size_t size) {
    if (refuses(size)) {
        return ENOMEM;
    }
    *block = __libc_memalign(align, size);
    return *block ? 0 : ENOMEM;
}
