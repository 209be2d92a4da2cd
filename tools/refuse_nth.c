/* Loaded before the C library by LD_PRELOAD: the REFUSE_NTH'th request for memory of the program is refused,
   and only that one; so is the REFUSE_THREAD'th request for a thread. REFUSED_FILE, if it is named, is made when
   that happened. */
#define _GNU_SOURCE
#include <dlfcn.h>
#include <errno.h>
#include <fcntl.h>
#include <pthread.h>
#include <stdatomic.h>
#include <stddef.h>
#include <stdlib.h>
#include <unistd.h>

extern void *__libc_malloc(size_t size);
extern void *__libc_realloc(void *block, size_t size);

static atomic_long requests;
static atomic_long threads;
static long refused_request;
static long refused_thread;
static const char *refused_file;

__attribute__((constructor)) static void read_environment(void) {
    const char *word = getenv("REFUSE_NTH");
    refused_request = word ? atol(word) : 0;
    word = getenv("REFUSE_THREAD");
    refused_thread = word ? atol(word) : 0;
    refused_file = getenv("REFUSED_FILE");
}

/* Whether this request, the next one of its kind, is the refused one. */
static int is_refused(atomic_long *made, long refused) {
    if (refused == 0 || atomic_fetch_add(made, 1) + 1 != refused) {
        return 0;
    }
    if (refused_file) {
        int file = open(refused_file, O_CREAT | O_WRONLY, 0600);
        if (file >= 0) {
            close(file);
        }
    }
    return 1;
}

void *malloc(size_t size) {
    return is_refused(&requests, refused_request) ? NULL : __libc_malloc(size);
}

void *realloc(void *block, size_t size) {
    return is_refused(&requests, refused_request) ? NULL : __libc_realloc(block, size);
}

int pthread_create(pthread_t *thread, const pthread_attr_t *attributes, void *(*start)(void *), void *argument) {
    int (*create)(pthread_t *, const pthread_attr_t *, void *(*)(void *), void *);
    if (is_refused(&threads, refused_thread)) {
        return EAGAIN;
    }
    *(void **)&create = dlsym(RTLD_NEXT, "pthread_create");
    return create ? create(thread, attributes, start, argument) : EAGAIN;
}
