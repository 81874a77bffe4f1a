/* Tells ThreadSanitizer which order the pools' own atomic steps give, where the linker wraps a program's calls of the library. What
   was done before a place's return comes before what is done after its next pull. Neither the library nor this file is built with
   ThreadSanitizer, so their own steps tell it nothing. WRAPPED and REAL are the names that the linker has for a call of the Rust crate. */
#include "kundratu_pool.h"
#include <sanitizer/tsan_interface.h>
#include <stdatomic.h>
#include <stdlib.h>

enum { HANDLES = 1 << 20, ORDERS = 1 << 20 };

/* The pool of each handle that was made, and the place that it holds. A handle's memory may become that of another one. */
static struct known {
    _Atomic(void *) handle;
    size_t pool;
    size_t place;
} all_known[HANDLES];

static atomic_size_t pools;
static char orders[ORDERS];

static struct known *known(const kdr_handle *handle) {
    for (size_t at = (size_t)handle->at / 16, end = at + HANDLES; at < end; at++) {
        struct known *known = &all_known[at % HANDLES];
        void *free = NULL;
        if (atomic_load(&known->handle) == handle->at || atomic_compare_exchange_strong(&known->handle, &free, handle->at)) {
            return known;
        }
    }
    abort();
}

static void *order(size_t pool, size_t place) {
    return &orders[(pool * 4099 + place) % ORDERS];
}

kdr_status REAL(handle_new)(size_t items, size_t tag, kdr_handle *out);
kdr_status REAL(handle_share)(kdr_handle *handle, kdr_handle *out);
kdr_status REAL(pool_pull_near)(kdr_handle *handle, size_t page, size_t *place);
kdr_status REAL(pool_drop)(kdr_handle *handle);
kdr_status REAL(place_pull)(kdr_handle *handle, size_t page, kdr_place *place);
kdr_status REAL(place_return)(kdr_handle *handle, kdr_place *place);

static kdr_status made(kdr_status answer, const kdr_handle *handle, size_t pool) {
    if (answer == KDR_DONE) {
        known(handle)->pool = pool;
        known(handle)->place = KDR_NO_PLACE;
    }
    return answer;
}

kdr_status WRAPPED(handle_new)(size_t items, size_t tag, kdr_handle *out) {
    return made(REAL(handle_new)(items, tag, out), out, atomic_fetch_add(&pools, 1));
}

kdr_status WRAPPED(handle_share)(kdr_handle *handle, kdr_handle *out) {
    kdr_status answer = REAL(handle_share)(handle, out);
    return made(answer, out, answer == KDR_DONE ? known(handle)->pool : 0);
}

kdr_status WRAPPED(pool_pull_near)(kdr_handle *handle, size_t page, size_t *place) {
    kdr_status answer = REAL(pool_pull_near)(handle, page, place);
    if (answer == KDR_DONE) {
        known(handle)->place = *place;
        __tsan_acquire(order(known(handle)->pool, *place));
    }
    return answer;
}

kdr_status WRAPPED(pool_drop)(kdr_handle *handle) {
    if (handle->at && known(handle)->place != KDR_NO_PLACE) {
        __tsan_release(order(known(handle)->pool, known(handle)->place));
    }
    return REAL(pool_drop)(handle);
}

kdr_status WRAPPED(place_pull)(kdr_handle *handle, size_t page, kdr_place *place) {
    kdr_status answer = REAL(place_pull)(handle, page, place);
    if (answer == KDR_DONE) {
        __tsan_acquire(order(known(handle)->pool, kdr_place_number(place)));
    }
    return answer;
}

kdr_status WRAPPED(place_return)(kdr_handle *handle, kdr_place *place) {
    if (handle->at && kdr_place_number(place) != KDR_NO_PLACE) {
        __tsan_release(order(known(handle)->pool, kdr_place_number(place)));
    }
    return REAL(place_return)(handle, place);
}
