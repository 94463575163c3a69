/* The heap of the library: what the proved code leaves to whoever links it. All three stand over one allocator, whose blocks are aligned
 * as malloc aligns them, to 16 at most. */
#include <stdbool.h>
#include <stddef.h>
#include <stdlib.h>

/* A block, or a byte that nobody uses where there is none. */
struct tried {
    bool ok;
    void *block;
};

static char nothing;

static struct tried tried(void *block) {
    return block ? (struct tried){true, block} : (struct tried){false, &nothing};
}

/* Hidden in the shared library, so that two libraries of one process each keep their own. */
__attribute__((visibility("hidden"))) struct tried rattle_alloc(size_t size, size_t align) {
    return tried(malloc(size ? size : align));
}

__attribute__((visibility("hidden"))) struct tried rattle_realloc(void *block, size_t kept, size_t size, size_t align) {
    (void)kept;
    return tried(realloc(block, size ? size : align));
}

__attribute__((visibility("hidden"))) void rattle_dealloc(void *block) {
    free(block);
}
