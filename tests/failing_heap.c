/* The heap of the library, with one allocation that fails and a count of the blocks that weren't given back. */
#include <stdlib.h>

static long fails_at, tried_so_far, blocks;

static int refused(void) {
    return ++tried_so_far == fails_at;
}

static void *counted_malloc(size_t size) {
    void *block = refused() ? NULL : malloc(size);
    blocks += block != NULL;
    return block;
}

static void *counted_realloc(void *block, size_t size) {
    return refused() ? NULL : realloc(block, size);
}

static void counted_free(void *block) {
    blocks -= block != NULL;
    free(block);
}

#define malloc counted_malloc
#define realloc counted_realloc
#define free counted_free
#include "../c/heap.c"

/* The allocation with this number fails from now on, counted from 1; none where it is 0. */
void test_fail_at(long number) {
    fails_at = number;
    tried_so_far = 0;
}

long test_blocks(void) {
    return blocks;
}
