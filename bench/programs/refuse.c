/* Refuses requests for memory, and threads. Preloaded to a program, it counts its requests from 1: those from REFUSE_FROM to
   REFUSE_TO find none. Where REFUSE_COUNT names a file, its first eight bytes count them, however the program ends. */
#define _GNU_SOURCE
#include <dlfcn.h>
#include <errno.h>
#include <fcntl.h>
#include <pthread.h>
#include <stdatomic.h>
#include <stdlib.h>
#include <sys/mman.h>
#include <unistd.h>

extern void *__libc_malloc(size_t), *__libc_calloc(size_t, size_t), *__libc_realloc(void *, size_t), *__libc_memalign(size_t, size_t);

static atomic_ulong here, *asked;
static unsigned long from, to;

static unsigned long number(const char *name)
{
    const char *text = getenv(name);
    return text ? strtoul(text, NULL, 10) : 0;
}

static atomic_ulong *shared(const char *name)
{
    int file = name ? open(name, O_RDWR | O_CREAT, 0600) : -1;
    if (file < 0 || ftruncate(file, sizeof here) != 0)
        return &here;
    void *mapped = mmap(NULL, sizeof here, PROT_READ | PROT_WRITE, MAP_SHARED, file, 0);
    close(file);
    return mapped == MAP_FAILED ? &here : mapped;
}

__attribute__((constructor)) static void begin(void)
{
    from = number("REFUSE_FROM");
    to = number("REFUSE_TO");
    asked = shared(getenv("REFUSE_COUNT"));
}

/* what the loader asks for before the program begins is not counted */
static int refused(void)
{
    unsigned long this = asked ? atomic_fetch_add(asked, 1) + 1 : 0;
    if (this < 1 || this < from || this > to)
        return 0;
    errno = ENOMEM;
    return 1;
}

void *malloc(size_t size) { return refused() ? NULL : __libc_malloc(size); }
void *calloc(size_t count, size_t size) { return refused() ? NULL : __libc_calloc(count, size); }
void *realloc(void *old, size_t size) { return refused() ? NULL : __libc_realloc(old, size); }
void *memalign(size_t align, size_t size) { return refused() ? NULL : __libc_memalign(align, size); }
void *aligned_alloc(size_t align, size_t size) { return memalign(align, size); }

int posix_memalign(void **out, size_t align, size_t size)
{
    void *found = memalign(align, size);
    if (found)
        *out = found;
    return found ? 0 : ENOMEM;
}

int pthread_create(pthread_t *thread, const pthread_attr_t *how, void *(*body)(void *), void *with)
{
    int (*create)(pthread_t *, const pthread_attr_t *, void *(*)(void *), void *) = dlsym(RTLD_NEXT, "pthread_create");
    return refused() ? EAGAIN : create(thread, how, body, with);
}
