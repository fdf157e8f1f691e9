/* The three functions by which the library takes memory and gives it back, over those of C.
 *
 * A block of size 0 is given as many bytes as its alignment, so that it has an address of its own. Where there
 * is no memory the pointer isn't null either: the library doesn't use it then, but takes it for one. The
 * library asks for no alignment above 16, which malloc gives. */
#include <stdbool.h>
#include <stddef.h>
#include <stdlib.h>

struct tried {
    bool ok;
    void *p;
};

static char nothing;

static struct tried tried(void *p) {
    return (struct tried){p != NULL, p != NULL ? p : &nothing};
}

struct tried rattle_alloc(size_t size, size_t align) {
    return tried(malloc(size != 0 ? size : align));
}

struct tried rattle_realloc(void *p, size_t kept, size_t size, size_t align) {
    (void)kept;
    return tried(realloc(p, size != 0 ? size : align));
}

void rattle_dealloc(void *p) {
    free(p);
}
