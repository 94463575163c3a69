/* Goes before a program (LD_PRELOAD): of the allocations that the program itself makes, the one with the number STARVED_AT is refused, counted from 1,
   and where STARVED_ON is set all behind it too. A byte is written to the descriptor STARVED_SAYS then. Those of libraries are left alone. It stands on
   glibc. */
#define _GNU_SOURCE
#include <link.h>
#include <stddef.h>
#include <stdlib.h>
#include <unistd.h>

extern void *__libc_malloc(size_t size);
extern void *__libc_realloc(void *block, size_t size);

static long fails_at, goes_on, says, made;
static char *begins, *ends;

/* The first object that is told is the program: where its segments stand. */
static int note_program(struct dl_phdr_info *info, size_t size, void *unused) {
    (void)size;
    (void)unused;
    for (int at = 0; at < info->dlpi_phnum; at++) {
        if (info->dlpi_phdr[at].p_type != PT_LOAD)
            continue;
        char *from = (char *)info->dlpi_addr + info->dlpi_phdr[at].p_vaddr;
        char *to = from + info->dlpi_phdr[at].p_memsz;
        begins = begins == NULL || from < begins ? from : begins;
        ends = to > ends ? to : ends;
    }
    return 1;
}

__attribute__((constructor)) static void begin(void) {
    char *at = getenv("STARVED_AT"), *to = getenv("STARVED_SAYS");
    fails_at = at == NULL ? 0 : atol(at);
    goes_on = getenv("STARVED_ON") != NULL;
    says = to == NULL ? -1 : atol(to);
    dl_iterate_phdr(note_program, NULL);
}

static int refused(char *caller) {
    if (caller < begins || caller >= ends)
        return 0;
    long number = __atomic_add_fetch(&made, 1, __ATOMIC_SEQ_CST);
    if (number != fails_at && (!goes_on || number < fails_at))
        return 0;
    return write((int)says, "r", 1) <= 1;
}

void *malloc(size_t size) {
    return refused(__builtin_return_address(0)) ? NULL : __libc_malloc(size);
}

void *realloc(void *block, size_t size) {
    return refused(__builtin_return_address(0)) ? NULL : __libc_realloc(block, size);
}
