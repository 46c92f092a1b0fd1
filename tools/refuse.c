/* Refuses a program memory, threads or bytes, and reports it on standard error. Loaded before the program:
 *
 *     cc -O2 -shared -fPIC -o /tmp/refuse.so tools/refuse.c -ldl
 *     REFUSE=20 LD_PRELOAD=/tmp/refuse.so crates/sealer/out/sealer --help
 *
 * REFUSE=N           the Nth allocation or growth is refused, counted from 1
 * REFUSE_FROM=N      that one, and all after it
 * REFUSE_OTHERS=N    of those of all threads but the first the Nth
 * REFUSE_THREADS=N   the Nth thread is refused, and all after it
 * REFUSE_BEYOND=N    of each read and write what is beyond N bytes, but of the reads at a place (pread)
 */
#define _GNU_SOURCE
#include <dlfcn.h>
#include <errno.h>
#include <pthread.h>
#include <stdatomic.h>
#include <stdlib.h>
#include <string.h>
#include <sys/syscall.h>
#include <sys/types.h>
#include <unistd.h>

static void *(*next_malloc)(size_t);
static void *(*next_realloc)(void *, size_t);
static int (*next_memalign)(void **, size_t, size_t);
static int (*next_thread)(pthread_t *, const pthread_attr_t *, void *(*)(void *), void *);
static atomic_long allocations, theirs, threads;
static long one, from, others, thread_from, beyond;

static long number(const char *name) {
    const char *word = getenv(name);
    return word ? atol(word) : 0;
}

__attribute__((constructor)) static void begin(void) {
    next_malloc = (void *(*)(size_t))dlsym(RTLD_NEXT, "malloc");
    next_realloc = (void *(*)(void *, size_t))dlsym(RTLD_NEXT, "realloc");
    next_memalign = (int (*)(void **, size_t, size_t))dlsym(RTLD_NEXT, "posix_memalign");
    next_thread = (int (*)(pthread_t *, const pthread_attr_t *, void *(*)(void *), void *))dlsym(RTLD_NEXT, "pthread_create");
    one = number("REFUSE");
    from = number("REFUSE_FROM");
    others = number("REFUSE_OTHERS");
    thread_from = number("REFUSE_THREADS");
    beyond = number("REFUSE_BEYOND");
}

static void say(const char *text) {
    if (syscall(SYS_write, 2, text, strlen(text)) < 0)
        _exit(9);
}

static int is_refused(void) {
    int is_first = syscall(SYS_gettid) == getpid();
    long n = atomic_fetch_add(&allocations, 1) + 1;
    long k = is_first ? 0 : atomic_fetch_add(&theirs, 1) + 1;
    if (n != one && !(from > 0 && n >= from) && !(others > 0 && k == others))
        return 0;
    say(is_first ? "refused to the first thread\n" : "refused to another thread\n");
    return 1;
}

void *malloc(size_t bytes) {
    if (!next_malloc)
        begin();
    return is_refused() ? 0 : next_malloc(bytes);
}

void *realloc(void *old, size_t bytes) {
    if (!next_realloc)
        begin();
    return is_refused() ? 0 : next_realloc(old, bytes);
}

int posix_memalign(void **made, size_t alignment, size_t bytes) {
    if (!next_memalign)
        begin();
    return is_refused() ? ENOMEM : next_memalign(made, alignment, bytes);
}

int pthread_create(pthread_t *thread, const pthread_attr_t *how, void *(*body)(void *), void *with) {
    if (!next_thread)
        begin();
    if (thread_from > 0 && atomic_fetch_add(&threads, 1) + 1 >= thread_from) {
        say("refused a thread\n");
        return EAGAIN;
    }
    return next_thread(thread, how, body, with);
}

/* How many bytes are read or written. A refusal is reported once. */
static size_t within(size_t bytes) {
    static atomic_int told;
    if (beyond <= 0 || bytes <= (size_t)beyond)
        return bytes;
    if (!atomic_exchange(&told, 1))
        say("refused some bytes\n");
    return beyond;
}

ssize_t read(int file, void *bytes, size_t count) { return syscall(SYS_read, file, bytes, within(count)); }

ssize_t write(int file, const void *bytes, size_t count) { return syscall(SYS_write, file, bytes, within(count)); }

ssize_t pwrite(int file, const void *bytes, size_t count, off_t at) { return syscall(SYS_pwrite64, file, bytes, within(count), at); }

ssize_t pwrite64(int file, const void *bytes, size_t count, off_t at) { return pwrite(file, bytes, count, at); }
