/* Refuses one of the allocations of the program under which it is loaded (LD_PRELOAD): that of the number in REFUSE,
 * from 1 on, and none for 0. Only the calls that the program itself makes count, and not those of the C library, as for
 * a thread's record. The file that COUNT names is given the number of these calls so far, as 8 bytes. */
#define _GNU_SOURCE
#include <errno.h>
#include <fcntl.h>
#include <link.h>
#include <stdatomic.h>
#include <stdint.h>
#include <stdlib.h>
#include <sys/mman.h>
#include <unistd.h>

extern void *__libc_malloc(size_t);
extern void *__libc_calloc(size_t, size_t);
extern void *__libc_realloc(void *, size_t);
extern void *__libc_memalign(size_t, size_t);

static uintptr_t low, high;
static uint64_t refused;
static atomic_uint_fast64_t own;
static atomic_uint_fast64_t *count = &own;

/* the first object is the program */
static int note(struct dl_phdr_info *info, size_t size, void *data)
{
    (void)size, (void)data;
    for (int i = 0; i < info->dlpi_phnum; i++) {
        const ElfW(Phdr) *part = &info->dlpi_phdr[i];
        if (part->p_type == PT_LOAD && part->p_flags & PF_X) {
            low = info->dlpi_addr + part->p_vaddr;
            high = low + part->p_memsz;
        }
    }
    return 1;
}

__attribute__((constructor)) static void begin(void)
{
    const char *number = getenv("REFUSE"), *path = getenv("COUNT");
    refused = number ? strtoull(number, NULL, 10) : 0;
    int file = path ? open(path, O_RDWR) : -1;
    if (file >= 0) {
        void *shared = mmap(NULL, sizeof *count, PROT_READ | PROT_WRITE, MAP_SHARED, file, 0);
        if (shared != MAP_FAILED)
            count = shared;
        close(file);
    }
    dl_iterate_phdr(note, NULL);
}

/* whether the call that returns to this place is to be refused */
static int is_refused(const void *place)
{
    uintptr_t at = (uintptr_t)place;
    if (at < low || at >= high)
        return 0;
    return atomic_fetch_add(count, 1) + 1 == refused;
}

#define REFUSES is_refused(__builtin_return_address(0))

void *malloc(size_t size)
{
    return REFUSES ? (errno = ENOMEM, NULL) : __libc_malloc(size);
}

void *calloc(size_t members, size_t size)
{
    return REFUSES ? (errno = ENOMEM, NULL) : __libc_calloc(members, size);
}

void *realloc(void *old, size_t size)
{
    return REFUSES ? (errno = ENOMEM, NULL) : __libc_realloc(old, size);
}

void *aligned_alloc(size_t alignment, size_t size)
{
    return REFUSES ? (errno = ENOMEM, NULL) : __libc_memalign(alignment, size);
}

int posix_memalign(void **result, size_t alignment, size_t size)
{
    if (REFUSES)
        return ENOMEM;
    void *found = __libc_memalign(alignment, size);
    if (!found)
        return ENOMEM;
    *result = found;
    return 0;
}
