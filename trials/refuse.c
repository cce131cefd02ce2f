/* Refuses one allocation of a program: loaded before the C library (LD_PRELOAD), it answers NULL at the call that asks for memory whose number,
   from 0, is REFUSE. What the loader asks for before the program begins is not counted. */
#define _GNU_SOURCE
#include <dlfcn.h>
#include <errno.h>
#include <stdlib.h>
#include <unistd.h>

/* How many calls come before the one to refuse; below 0 once it came, and before the program began. */
static long left = -1;

/* Whether this call is the one to refuse. */
static int is_refused(void)
{
    return left >= 0 && left-- == 0;
}

__attribute__((constructor)) static void begin(void)
{
    const char *word = getenv("REFUSE");
    left = word ? atol(word) : -1;
}

/* Says at the end that no call was refused, as fewer came. */
__attribute__((destructor)) static void end(void)
{
    static const char text[] = "none refused\n";
    if (left >= 0 && write(2, text, sizeof text - 1) < 0)
        _exit(1);
}

static void *real(const char *name) { return dlsym(RTLD_NEXT, name); }

void *malloc(size_t size)
{
    static void *(*made)(size_t);
    if (!made)
        made = real("malloc");
    if (is_refused()) {
        errno = ENOMEM;
        return NULL;
    }
    return made(size);
}

void *realloc(void *old, size_t size)
{
    static void *(*made)(void *, size_t);
    if (!made)
        made = real("realloc");
    if (is_refused()) {
        errno = ENOMEM;
        return NULL;
    }
    return made(old, size);
}

void *aligned_alloc(size_t alignment, size_t size)
{
    static void *(*made)(size_t, size_t);
    if (!made)
        made = real("aligned_alloc");
    if (is_refused()) {
        errno = ENOMEM;
        return NULL;
    }
    return made(alignment, size);
}

int posix_memalign(void **to, size_t alignment, size_t size)
{
    static int (*made)(void **, size_t, size_t);
    if (!made)
        made = real("posix_memalign");
    if (is_refused())
        return ENOMEM;
    return made(to, alignment, size);
}
