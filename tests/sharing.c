/* Goes before a program (LD_PRELOAD): threads from the one with the number SHARING_THREADS on are refused, counted from 1, none where it is 0; and how often
   threads sleep or are woken is counted in the first 8 bytes of the file SHARING_COUNT. It stands on glibc and Linux. */
#define _GNU_SOURCE
#include <dlfcn.h>
#include <errno.h>
#include <fcntl.h>
#include <pthread.h>
#include <stdarg.h>
#include <stddef.h>
#include <stdlib.h>
#include <sys/mman.h>
#include <sys/syscall.h>
#include <unistd.h>

typedef int Create(pthread_t *, const pthread_attr_t *, void *(*)(void *), void *);
typedef long Call(long, ...);

static Create *create;
static Call *call;
static long refused_from, threads;
static long *counted;

__attribute__((constructor)) static void begin(void) {
    char *from = getenv("SHARING_THREADS"), *path = getenv("SHARING_COUNT");
    int file = path == NULL ? -1 : open(path, O_RDWR);
    void *mapped = file < 0 ? MAP_FAILED : mmap(NULL, sizeof *counted, PROT_READ | PROT_WRITE, MAP_SHARED, file, 0);
    create = (Create *)dlsym(RTLD_NEXT, "pthread_create");
    call = (Call *)dlsym(RTLD_NEXT, "syscall");
    refused_from = from == NULL ? 0 : atol(from);
    counted = mapped == MAP_FAILED ? NULL : mapped;
}

int pthread_create(pthread_t *thread, const pthread_attr_t *how, void *(*work)(void *), void *given) {
    long number = __atomic_add_fetch(&threads, 1, __ATOMIC_SEQ_CST);
    return refused_from != 0 && number >= refused_from ? EAGAIN : create(thread, how, work, given);
}

long syscall(long number, ...) {
    long words[6];
    va_list given;
    va_start(given, number);
    for (int at = 0; at < 6; at++)
        words[at] = va_arg(given, long);
    va_end(given);
    if (number == SYS_futex && counted != NULL)
        __atomic_add_fetch(counted, 1, __ATOMIC_SEQ_CST);
    return call(number, words[0], words[1], words[2], words[3], words[4], words[5]);
}
