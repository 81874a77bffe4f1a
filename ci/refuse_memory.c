/* Preloaded into a process, refuses one of its requests for memory: the call of malloc or realloc with this number, counted
 * from 1 (REFUSED_REQUEST). Where that call comes, it makes a file of this name (REFUSED_MARK). */
#include <errno.h>
#include <fcntl.h>
#include <stdatomic.h>
#include <stdlib.h>
#include <unistd.h>

/* The calls of the C library that these stand for. */
extern void *__libc_malloc(size_t size);
extern void *__libc_realloc(void *block, size_t size);

static atomic_long requests;
static long refused_request;

__attribute__((constructor)) static void read_number(void) {
    const char *number = getenv("REFUSED_REQUEST");
    refused_request = number ? atol(number) : 0;
    atomic_store(&requests, 0);
}

/* Whether this request is the one. */
static int is_refused(void) {
    if (atomic_fetch_add(&requests, 1) + 1 != refused_request)
        return 0;
    const char *mark = getenv("REFUSED_MARK");
    int file = mark ? open(mark, O_WRONLY | O_CREAT, 0600) : -1;
    if (file >= 0)
        close(file);
    errno = ENOMEM;
    return 1;
}

void *malloc(size_t size) {
    return is_refused() ? NULL : __libc_malloc(size);
}

void *realloc(void *block, size_t size) {
    return is_refused() ? NULL : __libc_realloc(block, size);
}
