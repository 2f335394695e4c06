/* A preloaded library that refuses one growth: the REFUSE_AT-th call of malloc or realloc answers null.
   At its end the program writes into the file REFUSED whether a call was refused. */
#define _GNU_SOURCE
#include <dlfcn.h>
#include <fcntl.h>
#include <stdlib.h>
#include <unistd.h>

static long calls, refused;

static int refuses(void) {
    static long at = -1;
    if (at < 0) {
        const char *text = getenv("REFUSE_AT");
        at = text ? atol(text) : 0;
    }
    return ++calls == at ? (refused = 1) : 0;
}

void *malloc(size_t size) {
    static void *(*next)(size_t);
    if (!next) next = dlsym(RTLD_NEXT, "malloc");
    return refuses() ? 0 : next(size);
}

void *realloc(void *old, size_t size) {
    static void *(*next)(void *, size_t);
    if (!next) next = dlsym(RTLD_NEXT, "realloc");
    return refuses() ? 0 : next(old, size);
}

__attribute__((destructor)) static void tell(void) {
    const char *path = getenv("REFUSED");
    if (path && refused) close(open(path, O_CREAT | O_WRONLY, 0600));
}
