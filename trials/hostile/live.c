/* Counts the bytes that the program under which it is loaded (LD_PRELOAD) has been given and hasn't freed yet, as 8
 * bytes of the file that LIVE names. What the C library keeps for later doesn't count. */
#define _GNU_SOURCE
#include <errno.h>
#include <fcntl.h>
#include <malloc.h>
#include <stdatomic.h>
#include <stdint.h>
#include <stdlib.h>
#include <sys/mman.h>
#include <unistd.h>

extern void *__libc_malloc(size_t);
extern void *__libc_calloc(size_t, size_t);
extern void *__libc_realloc(void *, size_t);
extern void *__libc_memalign(size_t, size_t);
extern void __libc_free(void *);

static atomic_int_fast64_t own;
static atomic_int_fast64_t *live = &own;

__attribute__((constructor)) static void begin(void)
{
    const char *path = getenv("LIVE");
    int file = path ? open(path, O_RDWR) : -1;
    if (file < 0)
        return;
    void *shared = mmap(NULL, sizeof *live, PROT_READ | PROT_WRITE, MAP_SHARED, file, 0);
    if (shared != MAP_FAILED)
        live = shared;
    close(file);
}

static void *given(void *block)
{
    atomic_fetch_add(live, (int64_t)malloc_usable_size(block));
    return block;
}

void *malloc(size_t size)
{
    return given(__libc_malloc(size));
}

void *calloc(size_t members, size_t size)
{
    return given(__libc_calloc(members, size));
}

void *realloc(void *old, size_t size)
{
    int64_t before = (int64_t)malloc_usable_size(old);
    void *block = __libc_realloc(old, size);
    if (block || size == 0)
        atomic_fetch_sub(live, before);
    return given(block);
}

void *aligned_alloc(size_t alignment, size_t size)
{
    return given(__libc_memalign(alignment, size));
}

int posix_memalign(void **result, size_t alignment, size_t size)
{
    void *block = given(__libc_memalign(alignment, size));
    if (!block)
        return ENOMEM;
    *result = block;
    return 0;
}

void free(void *block)
{
    atomic_fetch_sub(live, (int64_t)malloc_usable_size(block));
    __libc_free(block);
}
