/* A shim for LD_PRELOAD that counts requests of memory and refuses those of a range. The first pages of the file that is
   descriptor 3 hold how many were asked for, and the first and the last that are refused, counted from 1; .ci/memory.py
   writes the range before a run and reads the count after it. */
typedef __SIZE_TYPE__ size_t;
enum { ENOMEM = 12, PROT_READ_WRITE = 3, MAP_SHARED = 1 };

extern void abort(void);
extern int *__errno_location(void);
extern void *mmap(void *at, size_t length, int protection, int flags, int file, long offset);
extern void *__libc_malloc(size_t size);
extern void *__libc_calloc(size_t count, size_t size);
extern void *__libc_realloc(void *old, size_t size);
extern void *__libc_memalign(size_t alignment, size_t size);

static struct {
    __UINT64_TYPE__ asked, first, last;
} *shared;

static int refused(void) {
    if (!shared) {
        void *page = mmap(0, sizeof *shared, PROT_READ_WRITE, MAP_SHARED, 3, 0);
        if (page == (void *)-1)
            abort();
        shared = page;
    }
    shared->asked++;
    if (shared->asked < shared->first || shared->last < shared->asked)
        return 0;
    *__errno_location() = ENOMEM;
    return 1;
}

void *malloc(size_t size) {
    return refused() ? 0 : __libc_malloc(size);
}

void *calloc(size_t count, size_t size) {
    return refused() ? 0 : __libc_calloc(count, size);
}

/* A refused request leaves the old block as it was. */
void *realloc(void *old, size_t size) {
    return refused() ? 0 : __libc_realloc(old, size);
}

void *memalign(size_t alignment, size_t size) {
    return refused() ? 0 : __libc_memalign(alignment, size);
}

void *aligned_alloc(size_t alignment, size_t size) {
    return memalign(alignment, size);
}

int posix_memalign(void **block, size_t alignment, size_t size) {
    void *got = memalign(alignment, size);
    if (!got)
        return ENOMEM;
    *block = got;
    return 0;
}
