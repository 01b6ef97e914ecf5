/* Refuses the request for memory whose number REFUSED_AT tells, from 0 on, counted from where the program begins; a thread that is
   to start counts as a request. REFUSED_TOLD is the file that tells in the end how many requests of each kind there were, and
   which one was refused. */
#define _GNU_SOURCE
#include <dlfcn.h>
#include <errno.h>
#include <pthread.h>
#include <stdio.h>
#include <stdlib.h>
#include <sys/mman.h>
#include <sys/syscall.h>
#include <unistd.h>

extern void *__libc_malloc(size_t);
extern void *__libc_calloc(size_t, size_t);
extern void *__libc_realloc(void *, size_t);
extern void *__libc_memalign(size_t, size_t);

enum kind { MALLOC, CALLOC, REALLOC, ALIGNED, MMAP, THREAD, KINDS };
static const char *names[KINDS] = {"malloc", "calloc", "realloc", "aligned", "mmap", "thread"};
static long counts[KINDS], requests, refused_at = -1;
static int has_begun, refused_kind = -1;

__attribute__((constructor)) static void begin(void) {
    const char *at = getenv("REFUSED_AT");
    if (at) refused_at = atol(at);
    has_begun = 1;
}

static int is_refused(enum kind kind) {
    if (!has_begun) return 0;
    __atomic_fetch_add(&counts[kind], 1, __ATOMIC_SEQ_CST);
    if (__atomic_fetch_add(&requests, 1, __ATOMIC_SEQ_CST) != refused_at) return 0;
    refused_kind = kind;
    errno = ENOMEM;
    return 1;
}

void *malloc(size_t size) { return is_refused(MALLOC) ? NULL : __libc_malloc(size); }
void *calloc(size_t count, size_t size) { return is_refused(CALLOC) ? NULL : __libc_calloc(count, size); }
void *realloc(void *old, size_t size) { return is_refused(REALLOC) ? NULL : __libc_realloc(old, size); }
void *aligned_alloc(size_t align, size_t size) { return is_refused(ALIGNED) ? NULL : __libc_memalign(align, size); }
void *memalign(size_t align, size_t size) { return is_refused(ALIGNED) ? NULL : __libc_memalign(align, size); }

int posix_memalign(void **made, size_t align, size_t size) {
    if (is_refused(ALIGNED)) return ENOMEM;
    *made = __libc_memalign(align, size);
    return *made ? 0 : ENOMEM;
}

void *mmap(void *at, size_t size, int protection, int flags, int file, off_t from) {
    if (is_refused(MMAP)) return MAP_FAILED;
    return (void *)syscall(SYS_mmap, at, size, protection, flags, file, from);
}

int pthread_create(pthread_t *thread, const pthread_attr_t *how, void *(*runs)(void *), void *with) {
    static __typeof__(&pthread_create) real;
    if (is_refused(THREAD)) return EAGAIN;
    if (!real) real = (__typeof__(&pthread_create))dlsym(RTLD_NEXT, "pthread_create");
    return real(thread, how, runs, with);
}

__attribute__((destructor)) static void tell(void) {
    const char *told = getenv("REFUSED_TOLD");
    has_begun = 0;
    FILE *file = told ? fopen(told, "w") : NULL;
    if (!file) return;
    for (int kind = 0; kind < KINDS; kind++) fprintf(file, "%s %ld\n", names[kind], counts[kind]);
    if (refused_kind >= 0) fprintf(file, "refused %s\n", names[refused_kind]);
    fclose(file);
}

/* a program with threads ends by this, and no destructor runs */
void _exit(int status) {
    tell();
    syscall(SYS_exit_group, status);
    __builtin_unreachable();
}
