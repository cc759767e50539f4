/* How the library gets memory: by malloc. It asks for no alignment above 16 bytes. */
#include <stdbool.h>
#include <stddef.h>
#include <stdlib.h>

_Static_assert(_Alignof(max_align_t) >= 16, "malloc aligns to 16 bytes");

struct tried {
    bool is_there;
    void *at;
};

/* Where memory was refused, the pointer goes here, since the library has no null pointers. */
static unsigned char nothing;

static struct tried tried(void *at) {
    return at ? (struct tried){true, at} : (struct tried){false, &nothing};
}

/* A block of no bytes is asked for as one of its alignment, so that a null pointer always means a refusal. */
struct tried rattle_alloc(size_t size, size_t alignment) {
    return tried(malloc(size ? size : alignment));
}

struct tried rattle_realloc(void *at, size_t kept, size_t size, size_t alignment) {
    (void)kept;
    return tried(realloc(at, size ? size : alignment));
}

void rattle_dealloc(void *at) {
    free(at);
}
