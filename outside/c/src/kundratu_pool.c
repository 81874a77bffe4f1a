/* SPDX-License-Identifier: BSL-1.0
 *
 * What the proved code doesn't have: its memory, the tags of pools, names, and a return for
 * debugging. The proved code is the text for the assembler.
 */
#define _POSIX_C_SOURCE 200809L
#include "kundratu_pool.h"
#include <stdatomic.h>
#include <stdbool.h>
#include <stdio.h>
#include <stdlib.h>
#if defined(_WIN32)
#include <io.h>
#include <windows.h>
#else
#include <signal.h>
#include <string.h>
#include <unistd.h>
#endif

#undef kdr_place_return
#undef kdr_cache_pull
#undef kdr_cache_return

/* Each file of the library sees these, and no other does. */
#if defined(_WIN32)
#define INSIDE
#else
#define INSIDE __attribute__((visibility("hidden")))
#endif

/* What the proved code calls, and what of it is called here. These names carry the version. */
#define PROVED(name) kdr_0_1_0_##name

INSIDE kdr_status KDR_CALL PROVED(handle_new)(size_t items, size_t tag, kdr_handle *out);
INSIDE kdr_status KDR_CALL PROVED(handle_share)(kdr_handle *handle, kdr_handle *out);
INSIDE size_t KDR_CALL PROVED(handle_items)(kdr_handle *handle);
INSIDE kdr_status KDR_CALL PROVED(cache_new)(kdr_handle *handle, size_t room, size_t page, kdr_cache *out);
INSIDE _Bool KDR_CALL PROVED(cache_keeps)(kdr_cache *cache, size_t number, size_t tag);

/* Whether there was memory, and where. The proofs count on an address that isn't null, also if there
   was none. */
struct got {
    size_t is_some;
    void *at;
};

static char nothing;

INSIDE struct got KDR_CALL PROVED(alloc)(size_t size, size_t align);
INSIDE struct got KDR_CALL PROVED(realloc)(void *at, size_t old, size_t size, size_t align);
INSIDE void KDR_CALL PROVED(dealloc)(void *at);

static struct got got(void *at) {
    return (struct got){at != NULL, at ? at : &nothing};
}

/* A block of no bytes has an address too. */
struct got KDR_CALL PROVED(alloc)(size_t size, size_t align) {
    return got(malloc(size ? size : align));
}

struct got KDR_CALL PROVED(realloc)(void *at, size_t old, size_t size, size_t align) {
    (void)old;
    return got(realloc(at, size ? size : align));
}

void KDR_CALL PROVED(dealloc)(void *at) {
    free(at);
}

const char *KDR_CALL kdr_version(void) {
    return KDR_VERSION;
}

const char *KDR_CALL kdr_status_name(kdr_status status) {
    static const char *const names[] = {
        "KDR_DONE",     "KDR_ALL_IN_USE", "KDR_HOLDS_ONE", "KDR_HOLDS_NONE", "KDR_NO_POOL",
        "KDR_HAS_POOL", "KDR_NO_PLACES",  "KDR_NO_MEMORY", "KDR_OTHER_POOL", "KDR_NO_SUCH_PLACE",
    };
    return status < sizeof names / sizeof names[0] ? names[status] : "unknown";
}

/* Each pool has a tag of its own, which isn't 0. */
kdr_status KDR_CALL kdr_pool_new(size_t items, kdr_handle *out) {
    static atomic_size_t pools;
    return PROVED(handle_new)(items, atomic_fetch_add_explicit(&pools, 1, memory_order_relaxed) + 1, out);
}

/* While a call runs, it takes its handle apart. So these move it to where they may write, and leave
   the caller's as it is. */
kdr_status KDR_CALL kdr_pool_share(const kdr_handle *handle, kdr_handle *out) {
    kdr_handle moved = *handle;
    return PROVED(handle_share)(&moved, out);
}

size_t KDR_CALL kdr_pool_items(const kdr_handle *handle) {
    kdr_handle moved = *handle;
    return PROVED(handle_items)(&moved);
}

/* Beside the cache stands what the header's lines ask for: where it is open, and how many numbers
   its pool has. */
kdr_status KDR_CALL kdr_cache_new(const kdr_handle *handle, size_t room, size_t page, kdr_cache *out) {
    kdr_handle moved = *handle;
    kdr_status status = PROVED(cache_new)(&moved, room, page, out);
    if (status == KDR_DONE) {
        out->open = out->at;
        out->numbers = PROVED(handle_items)(&moved);
    }
    return status;
}

/* What this thread returns meanwhile, for the message. */
static _Thread_local struct {
    const char *file;
    int line;
    const char *call;
    size_t number;
} returning;

/* Says which return it was, and how the place was found, and aborts. */
static void say_and_abort(const char *found) {
    char said[512];
    int length = snprintf(said, sizeof said, "%s:%d: %s: place %zu is %s: it was copied, and returned before\n",
                          returning.file, returning.line, returning.call, returning.number, found);
    unsigned rest = length < 0 ? 0 : (unsigned)length < sizeof said ? (unsigned)length : sizeof said - 1;
    if (write(STDERR_FILENO, said, rest) < 0) {
        abort();
    }
    abort();
}

/* The proved code ends the program where a place is free that is returned. What the program itself does then comes first. */
#if defined(_WIN32)
static LONG CALLBACK end_by_exception(EXCEPTION_POINTERS *what) {
    if (what->ExceptionRecord->ExceptionCode == EXCEPTION_ILLEGAL_INSTRUCTION && returning.file != NULL) {
        say_and_abort("free");
    }
    return EXCEPTION_CONTINUE_SEARCH;
}

static void listen_to_ends(void) {
    AddVectoredExceptionHandler(0, end_by_exception);
}
#else
static void end_by_signal(int sent) {
    signal(sent, SIG_DFL);
    if (returning.file == NULL) {
        raise(sent);
        return;
    }
    say_and_abort("free");
}

/* Signals for which the program has a handler of its own are left to it. */
static void listen(int sent) {
    struct sigaction now, ours;
    memset(&ours, 0, sizeof ours);
    ours.sa_handler = end_by_signal;
    if (sigaction(sent, NULL, &now) == 0 && now.sa_handler == SIG_DFL) {
        sigaction(sent, &ours, NULL);
    }
}

static void listen_to_ends(void) {
    listen(SIGILL);
    listen(SIGTRAP);
}
#endif

/* From here on a signal of this thread is told of this return, until there is no file. */
static void begin_return(const char *call, const kdr_place *place, const char *file, int line) {
    /* Until the handlers are there, each thread puts them there, so that none goes on without. */
    static atomic_bool listens;
    if (!atomic_load(&listens)) {
        listen_to_ends();
        atomic_store(&listens, true);
    }
    returning.call = call;
    returning.number = kdr_place_number(place);
    returning.line = line;
    returning.file = file;
}

static kdr_status end_return(kdr_status status) {
    returning.file = NULL;
    return status;
}

kdr_status KDR_CALL kdr_debug_place_return(kdr_handle *handle, kdr_place *place, const char *file, int line) {
    begin_return("kdr_place_return", place, file, line);
    return end_return(kdr_place_return(handle, place));
}

kdr_status KDR_CALL kdr_debug_cache_return(kdr_cache *cache, kdr_place *place, const char *file, int line) {
    begin_return("kdr_cache_return", place, file, line);
    if (PROVED(cache_keeps)(cache, kdr_place_number(place), place->pool)) {
        say_and_abort("kept");
    }
    return end_return(kdr_cache_return(cache, place));
}
