/* The heap of what the kit builds for a processor other than x86-64, for which it has no such lines: its contracts of
   these names (libc/src/heap.rt), over malloc. Trusted: nothing proves these lines. */
#include <stdbool.h>
#include <stddef.h>
#include <stdlib.h>

/* Whether there was memory, and where it lies; where there was none, an address that isn't null. */
struct tried {
    bool ok;
    void *at;
};

struct tried rattle_alloc(size_t length, size_t align);
struct tried rattle_realloc(void *at, size_t old, size_t length, size_t align);
void rattle_dealloc(void *at);

static char nothing;

static struct tried tried(void *at)
{
    return (struct tried){at != NULL, at ? at : &nothing};
}

/* The alignment divides 16, which malloc gives. A block of no bytes takes as many as its alignment. */
struct tried rattle_alloc(size_t length, size_t align)
{
    return tried(malloc(length ? length : align));
}

struct tried rattle_realloc(void *at, size_t old, size_t length, size_t align)
{
    (void)old;
    return tried(realloc(at, length ? length : align));
}

void rattle_dealloc(void *at)
{
    free(at);
}
