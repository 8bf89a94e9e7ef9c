/* Counts how often a program syncs the disk and takes memory, and makes its syncs slow: bench/builds puts it in front of the
   system's library. What it counted it writes to $COUNTING_TO as the program ends. A sync sleeps $COUNTING_SYNC_MS first.
   It is for the program alone: what that starts is started without it. */
#define _GNU_SOURCE
#include <dlfcn.h>
#include <stdio.h>
#include <stdlib.h>
#include <string.h>
#include <sys/syscall.h>
#include <time.h>
#include <unistd.h>

extern void *__libc_malloc(size_t), *__libc_calloc(size_t, size_t), *__libc_realloc(void *, size_t);
extern void *__libc_memalign(size_t, size_t);

static unsigned long syncs, allocations;
static long sync_ms;
static pid_t whose;
static char told[4096];

#define COUNT(n) __atomic_fetch_add(&(n), 1, __ATOMIC_RELAXED)

void *malloc(size_t size) { COUNT(allocations); return __libc_malloc(size); }
void *calloc(size_t count, size_t size) { COUNT(allocations); return __libc_calloc(count, size); }
void *realloc(void *old, size_t size) { COUNT(allocations); return __libc_realloc(old, size); }
void *aligned_alloc(size_t align, size_t size) { COUNT(allocations); return __libc_memalign(align, size); }

static int synced(const char *name, int fd) {
    int (*real)(int) = (int (*)(int))dlsym(RTLD_NEXT, name);
    struct timespec wait = {sync_ms / 1000, sync_ms % 1000 * 1000000};
    COUNT(syncs);
    if (sync_ms) nanosleep(&wait, NULL);
    return real(fd);
}
int fsync(int fd) { return synced("fsync", fd); }
int fdatasync(int fd) { return synced("fdatasync", fd); }

__attribute__((constructor)) static void begin(void) {
    const char *to = getenv("COUNTING_TO"), *ms = getenv("COUNTING_SYNC_MS");
    if (to && strlen(to) < sizeof told) strcpy(told, to);
    if (ms) sync_ms = atol(ms);
    whose = getpid();
    unsetenv("LD_PRELOAD");
    unsetenv("COUNTING_TO");
    unsetenv("COUNTING_SYNC_MS");
}

__attribute__((destructor)) static void end(void) {
    unsigned long counted = allocations;
    FILE *file;
    if (!*told || getpid() != whose) return;
    file = fopen(told, "w");
    *told = 0;
    if (!file) return;
    fprintf(file, "%lu %lu\n", syncs, counted);
    fclose(file);
}

/* A program may end without its destructors; so may what it starts, which tells nothing. */
void _exit(int status) {
    end();
    syscall(SYS_exit_group, status);
    __builtin_unreachable();
}
