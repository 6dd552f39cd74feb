// Refuses one allocation of a program: preloaded, with the number of the allocation from 1 in REFUSED. With REFUSED 0 none is refused, and
// COUNTED names the file whose eight bytes get how many there were.
#include <errno.h>
#include <fcntl.h>
#include <stdatomic.h>
#include <stdlib.h>
#include <sys/mman.h>
#include <unistd.h>

extern void *__libc_malloc(size_t), *__libc_calloc(size_t, size_t), *__libc_realloc(void *, size_t), *__libc_memalign(size_t, size_t);

static atomic_long own, *seen = &own;
static long refused = -1;

static int is_refused(void)
{
    if (refused < 0)
        return 0;
    if (atomic_fetch_add(seen, 1) + 1 != refused)
        return 0;
    errno = ENOMEM;
    return 1;
}

void *malloc(size_t size) { return is_refused() ? NULL : __libc_malloc(size); }
void *calloc(size_t count, size_t size) { return is_refused() ? NULL : __libc_calloc(count, size); }
void *realloc(void *old, size_t size) { return is_refused() ? NULL : __libc_realloc(old, size); }
void *memalign(size_t align, size_t size) { return is_refused() ? NULL : __libc_memalign(align, size); }
void *aligned_alloc(size_t align, size_t size) { return memalign(align, size); }

int posix_memalign(void **to, size_t align, size_t size)
{
    void *made = memalign(align, size);
    if (!made)
        return ENOMEM;
    *to = made;
    return 0;
}

__attribute__((constructor)) static void begin(void)
{
    const char *number = getenv("REFUSED"), *path = getenv("COUNTED");
    int file = path ? open(path, O_RDWR | O_CREAT | O_TRUNC, 0600) : -1;
    if (file >= 0 && ftruncate(file, sizeof *seen) == 0) {
        void *shared = mmap(NULL, sizeof *seen, PROT_READ | PROT_WRITE, MAP_SHARED, file, 0);
        if (shared != MAP_FAILED)
            seen = shared; // a program may end without a word to its libraries
    }
    if (file >= 0)
        close(file);
    if (number)
        refused = atol(number);
}
