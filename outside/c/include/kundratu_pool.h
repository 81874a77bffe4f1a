/*
 * SPDX-License-Identifier: BSL-1.0
 *
 * Kundratu's pool of places for C (C99 and later) and C++ (C++98 and later): a fixed number of
 * places, which threads take and return without a lock.
 */
/**
 * @file kundratu_pool.h
 *
 * A place is a number below the number of places of its pool. What lies at a place is yours: an
 * array of buffers, of sessions, of messages. While somebody holds a place, nobody else holds it.
 *
 * A handle (kdr_handle) opens a pool to one thread at a time. Each thread has a handle of its own,
 * made by kdr_pool_share(). A handle holds one place at a time, or none. A thread that needs many
 * places at a time has many kdr_place: any handle of the pool takes and returns them.
 *
 * A handle and a place go from thread to thread as any other value does: under a lock, by the start
 * or the end of a thread, or by a release store and the acquire load that reads it. A place goes as
 * its bytes; what it was moved from isn't used again.
 *
 * A thread that pulls and returns again and again has a cache (kdr_cache), made by kdr_cache_new().
 * The cache keeps places that the thread returns by it, and the thread's next pulls take these, the
 * last one first, without a step on the pool. So a pull and a return cost some nanoseconds. To all
 * others the places are in use: pulls of theirs are refused if too many are kept. A thread drops
 * its cache at its end, which returns them. With a cache of 8 places:
 *
 *     kdr_cache cache = KDR_CACHE_EMPTY;
 *     kdr_place place = KDR_PLACE_EMPTY;
 *
 *     status = kdr_cache_new(&handle, 8, page, &cache);
 *     status = kdr_cache_pull(&cache, &place);
 *     kdr_cache_return(&cache, &place);
 *     kdr_cache_drop(&cache);
 *
 * Where a cache keeps the place that came back last, and where it has room for one, these two calls
 * are a few lines of this header: macros of the same names lead to them, and they to the calls for
 * all else. They leave what the calls leave. They aren't proved: they are tested.
 * (kdr_cache_pull)(&cache, &place) is the proved call.
 *
 * No call waits for another thread. kdr_pool_new(), kdr_pool_share() and kdr_cache_new() allocate
 * memory, and no other call does. A pool ends with its last handle or cache; places that are in use
 * can't be returned then.
 *
 * The calls are proved, under these conditions, which nothing checks:
 *
 * - Each pointer is valid, aligned and not null. Two pointers that go to one call point to
 *   different things.
 * - A handle is KDR_HANDLE_EMPTY, or what the last call with it left. It isn't copied. The same
 *   holds for a cache and KDR_CACHE_EMPTY.
 * - One call at a time uses a handle, a cache or a place.
 * - No call is made by a signal handler, or in the child of a fork of a process that has threads.
 * - malloc, realloc and free come from one allocator, and align as C says.
 *
 * These mistakes have an answer, and change nothing:
 *
 * - A handle, a cache or a place whose bytes are all 0 is empty.
 * - A place is pulled that isn't empty: KDR_HOLDS_ONE. An empty one is returned, such as one that
 *   was returned before: KDR_HOLDS_NONE.
 * - A place is returned by a handle or a cache of another pool, even of one that has ended:
 *   KDR_OTHER_POOL. It can still be returned to its own pool.
 * - A place is returned whose bytes were made up: KDR_OTHER_POOL, or KDR_NO_SUCH_PLACE if its
 *   number is none of the pool's. If they name a place of that pool, they are a copy.
 *
 * A place must not be copied and returned twice. If the place is free at the second return, the
 * program ends by a signal (SIGILL on x86-64, SIGTRAP on AArch64). With KDR_DEBUG defined before
 * this header is included, it says where and aborts. If somebody else holds the place by then, the
 * second return is done: the place is free while it is held. A cache with room keeps a copy without
 * a look at the pool, so two pulls may take one place. With KDR_DEBUG it says where and aborts, if
 * the same cache keeps the place already.
 *
 * These mistakes have no answer that one can count on:
 *
 * - Two threads use one handle or one cache at once. Calls may return KDR_NO_POOL, and it may be
 *   empty from then on for both. The pool isn't freed then, and nothing says so. Or a signal ends
 *   the program. Seldom both hold one place; this header's lines for caches let that come oftener
 *   than the calls do.
 * - A handle or a cache is copied. Both may be used by turns until one is closed; then the other is
 *   invalid.
 * - The bytes of a handle or a cache are made up, or a pointer is null. The program reads or writes
 *   memory that isn't the library's.
 *
 * ThreadSanitizer doesn't see the library's atomic steps. If a program is built with it, tell it
 * their order:
 *
 *     #include <sanitizer/tsan_interface.h>
 *     static char order[ITEMS];       // one for each place
 *     __tsan_acquire(&order[number]); // after each pull
 *     __tsan_release(&order[number]); // before each return
 */
#ifndef KUNDRATU_POOL_H
#define KUNDRATU_POOL_H

#include <stddef.h>
#include <stdint.h>

#if !defined(__x86_64__) && !defined(__aarch64__)
#error "kundratu_pool has code for x86-64 and AArch64 alone, and for no other processor"
#elif SIZE_MAX != UINT64_MAX
#error "kundratu_pool has code for pointers of 64 bits alone"
#elif defined(_WIN32) && defined(__aarch64__)
#error "kundratu_pool has code for Windows on x86-64 alone"
#endif

#ifdef __cplusplus
extern "C" {
#endif

/** The version of this header, in numbers and as a string. kdr_version() has the library's. */
#define KDR_VERSION_MAJOR 0
#define KDR_VERSION_MINOR 1
#define KDR_VERSION_PATCH 0
#define KDR_VERSION "0.1.0"

/** No pointer argument may be null. */
#if defined(__GNUC__)
#define KDR_NONNULL __attribute__((nonnull))
#else
#define KDR_NONNULL
#endif

/** The result must be looked at. */
#if defined(__GNUC__)
#define KDR_NODISCARD __attribute__((warn_unused_result))
#else
#define KDR_NODISCARD
#endif

/** By which convention the calls are made: that of Linux, on each system. */
#if defined(_WIN32)
#define KDR_CALL __attribute__((sysv_abi))
#else
#define KDR_CALL
#endif

/** What a call returns. kdr_status_name() names it. */
typedef uint32_t kdr_status;

enum {
    KDR_DONE = 0,         /**< The call did what it is for. */
    KDR_ALL_IN_USE = 1,   /**< All places were in use at one moment (see kdr_pool_pull()). */
    KDR_HOLDS_ONE = 2,    /**< The handle holds a place already, or the place isn't empty. */
    KDR_HOLDS_NONE = 3,   /**< The handle holds no place, or the place is empty. */
    KDR_NO_POOL = 4,      /**< The handle or the cache is empty. */
    KDR_HAS_POOL = 5,     /**< The handle or the cache that was to be made isn't empty. */
    KDR_NO_PLACES = 6,    /**< A pool of no places was asked for. */
    KDR_NO_MEMORY = 7,    /**< Memory was refused, or there are too many handles and caches. */
    KDR_OTHER_POOL = 8,   /**< The place is of another pool. */
    KDR_NO_SUCH_PLACE = 9 /**< The pool has no place of that number. */
};

/**
 * How many places a page has. kdr_pool_pull_near(), kdr_place_pull() and kdr_cache_new() take the
 * number of a page.
 */
#define KDR_PAGE_PLACES 32

/** A handle of a pool, or an empty one. Its field is private. */
typedef struct kdr_handle {
    void *at;
} kdr_handle;

/** A place by itself, or an empty one. Its fields are private: see kdr_place_number(). */
typedef struct kdr_place {
    size_t after;
    size_t pool;
} kdr_place;

/** A cache of places for one thread at a time, or an empty one. Its fields are private. */
typedef struct kdr_cache {
    void *at;
    void *open;
    size_t numbers;
} kdr_cache;

/** What kdr_place_number() returns for an empty place. */
#define KDR_NO_PLACE SIZE_MAX

/** An empty handle, an empty place and an empty cache, to initialize one and to assign to one. */
#ifdef __cplusplus
#define KDR_HANDLE_EMPTY (kdr_handle())
#define KDR_PLACE_EMPTY (kdr_place())
#define KDR_CACHE_EMPTY (kdr_cache())
#else
#define KDR_HANDLE_EMPTY ((kdr_handle){NULL})
#define KDR_PLACE_EMPTY ((kdr_place){0, 0})
#define KDR_CACHE_EMPTY ((kdr_cache){NULL, NULL, 0})
#endif

/** Returns the number of a place, or KDR_NO_PLACE if it is empty. */
static inline size_t kdr_place_number(const kdr_place *place) {
    return place->after - 1;
}

/** Returns the version of the library, such as "0.1.0". */
const char *KDR_CALL kdr_version(void);

/** Returns the name of a status, such as "KDR_DONE", or "unknown" if it is none. */
const char *KDR_CALL kdr_status_name(kdr_status status);

/**
 * Creates a pool of so many free places.
 *
 * A pool keeps 1.25 bytes for each place, and takes up to 2.5 while it is created. For 2^28 places
 * that took 641 MB and 1.5 s.
 *
 * @param items the number of places. They are numbered from 0.
 * @param out   an empty handle, which becomes the first handle of the pool. It holds no place.
 * @return KDR_DONE; KDR_NO_PLACES if items is 0; KDR_NO_MEMORY; KDR_HAS_POOL if out isn't empty.
 *         After a failure out is as before, and nothing is kept.
 */
KDR_NODISCARD kdr_status KDR_CALL kdr_pool_new(size_t items, kdr_handle *out) KDR_NONNULL;

/**
 * Creates a further handle of the same pool.
 *
 * Handles begin their pulls at pages of their own while there are pages. A handle whose page is
 * full goes on at another one, apart from others. So threads that have one each seldom meet.
 *
 * @param handle a handle of the pool, which may hold a place. Nothing else may use it meanwhile.
 * @param out    an empty handle, which becomes a handle of the pool. It holds no place.
 * @return KDR_DONE; KDR_NO_POOL if handle is empty; KDR_NO_MEMORY; KDR_HAS_POOL if out isn't empty.
 */
KDR_NODISCARD kdr_status KDR_CALL kdr_pool_share(const kdr_handle *handle, kdr_handle *out)
    KDR_NONNULL;

/**
 * Pulls a free place, which the handle holds from then on.
 *
 * The pulls and returns of a pool, by whatever threads, have one order in which each pull takes a
 * place that is free just before it, and each return gives back one that is held.
 *
 * @param handle a handle that holds no place.
 * @param number receives the number of the place, which is below kdr_pool_items(). It is left as it
 *               is if the call fails.
 * @return KDR_DONE; KDR_ALL_IN_USE if all places were in use at one moment of the call (or 2^32
 *         places and more were returned during it); KDR_HOLDS_ONE; KDR_NO_POOL.
 */
KDR_NODISCARD kdr_status KDR_CALL kdr_pool_pull(kdr_handle *handle, size_t *number) KDR_NONNULL;

/**
 * Pulls a place as kdr_pool_pull() does, but looks at this page first. If it takes a place there,
 * the handle's next pulls begin there.
 *
 * @param page the number of a page of KDR_PAGE_PLACES places. Pages are counted round and round, so
 *             any number will do.
 */
KDR_NODISCARD kdr_status KDR_CALL kdr_pool_pull_near(kdr_handle *handle, size_t page,
                                                    size_t *number) KDR_NONNULL;

/**
 * Returns the place that the handle holds. Others may hold it from then on.
 *
 * @return KDR_DONE; KDR_HOLDS_NONE if the handle holds no place; KDR_NO_POOL.
 */
kdr_status KDR_CALL kdr_pool_return(kdr_handle *handle) KDR_NONNULL;

/**
 * Pulls a free place by itself, as kdr_pool_pull() does. The handle stays as it is, whether it
 * holds a place or not.
 *
 * Pulls whose page is full come to one page, by a hint of the pool. So a thread doesn't follow the
 * place that it gets to its page, but goes on at a page of its own, as a cache does by itself.
 *
 * @param page  the page at which the call looks first, as kdr_pool_pull_near() has it.
 * @param place an empty place, which becomes the one that was pulled. After a failure it is as
 *              before.
 * @return KDR_DONE; KDR_ALL_IN_USE as kdr_pool_pull(); KDR_HOLDS_ONE if the place isn't empty;
 *         KDR_NO_POOL.
 */
KDR_NODISCARD kdr_status KDR_CALL kdr_place_pull(kdr_handle *handle, size_t page, kdr_place *place)
    KDR_NONNULL;

/**
 * Returns a place, which is empty from then on. Others may hold it.
 *
 * @param handle any handle of the place's pool. It stays as it is.
 * @return KDR_DONE; KDR_HOLDS_NONE if the place is empty; KDR_OTHER_POOL; KDR_NO_SUCH_PLACE;
 *         KDR_NO_POOL. After a failure the place is as before.
 */
kdr_status KDR_CALL kdr_place_return(kdr_handle *handle, kdr_place *place) KDR_NONNULL;

/**
 * Creates a cache of the handle's pool. It keeps no place yet.
 *
 * @param handle a handle of the pool, which may hold a place. Nothing else may use it meanwhile.
 *               The cache doesn't need it later.
 * @param room   how many places the cache may keep. It takes 8 bytes for each. With 0 each return
 *               goes to the pool.
 * @param page   the page at which its first pull from the pool looks first, as
 *               kdr_pool_pull_near() has it. If that is full, it goes on at another one, apart from
 *               others.
 * @param out    an empty cache, which becomes the new one.
 * @return KDR_DONE; KDR_NO_POOL if handle is empty; KDR_NO_MEMORY; KDR_HAS_POOL if out isn't empty.
 *         After a failure out is as before, and nothing is kept.
 */
KDR_NODISCARD kdr_status KDR_CALL kdr_cache_new(const kdr_handle *handle, size_t room, size_t page,
                                               kdr_cache *out) KDR_NONNULL;

/**
 * Pulls the place that the cache got last, or a free place of the pool if it keeps none.
 *
 * @param place an empty place, which becomes the one that was pulled. After a failure it is as
 *              before.
 * @return KDR_DONE; KDR_ALL_IN_USE as kdr_pool_pull(), where places that other caches keep are in
 *         use; KDR_HOLDS_ONE if the place isn't empty; KDR_NO_POOL if the cache is empty.
 */
KDR_NODISCARD kdr_status KDR_CALL kdr_cache_pull(kdr_cache *cache, kdr_place *place) KDR_NONNULL;

/**
 * Returns a place to the cache, if it has room, or else to the pool. The place is empty from then
 * on.
 *
 * @param place a place of the cache's pool, which a handle or a cache of it pulled.
 * @return KDR_DONE; KDR_HOLDS_NONE if the place is empty; KDR_OTHER_POOL; KDR_NO_SUCH_PLACE;
 *         KDR_NO_POOL if the cache is empty. After a failure the place is as before.
 */
kdr_status KDR_CALL kdr_cache_return(kdr_cache *cache, kdr_place *place) KDR_NONNULL;

/**
 * Returns all places that the cache keeps to the pool. Others may pull them.
 *
 * @return KDR_DONE; KDR_NO_POOL if the cache is empty.
 */
kdr_status KDR_CALL kdr_cache_flush(kdr_cache *cache) KDR_NONNULL;

/**
 * Closes the cache, which is empty from then on. The places that it keeps are returned to the pool.
 *
 * @return KDR_DONE; KDR_NO_POOL if the cache is empty.
 */
kdr_status KDR_CALL kdr_cache_drop(kdr_cache *cache) KDR_NONNULL;

/** Returns how many places the handle's pool has, or 0 if the handle is empty. */
size_t KDR_CALL kdr_pool_items(const kdr_handle *handle) KDR_NONNULL;

/**
 * Closes the handle, which is empty from then on. A place that it holds is returned. The pool ends
 * with its last handle or cache.
 *
 * @return KDR_DONE; KDR_NO_POOL if the handle is empty.
 */
kdr_status KDR_CALL kdr_pool_drop(kdr_handle *handle) KDR_NONNULL;

/** Returns a place as kdr_place_return() does. KDR_DEBUG puts it in the place of that call. */
kdr_status KDR_CALL kdr_debug_place_return(kdr_handle *handle, kdr_place *place, const char *file,
                                           int line) KDR_NONNULL;

/** Returns a place as kdr_cache_return() does. KDR_DEBUG puts it in the place of that call. */
kdr_status KDR_CALL kdr_debug_cache_return(kdr_cache *cache, kdr_place *place, const char *file,
                                           int line) KDR_NONNULL;

/* What an open cache has, as the proved code lays it out: the numbers of the places that it keeps,
   how many there are, and its room. A library that has it otherwise has another soname. */
struct kdr_kept {
    size_t way[3];
    size_t pool;
    void *owner;
    size_t *numbers;
    size_t count;
    size_t room;
};

#if defined(__GNUC__)
#define KDR_IS_LIKELY(holds) __builtin_expect(!!(holds), 1)
#else
#define KDR_IS_LIKELY(holds) (holds)
#endif

/* While a cache is changed, it is empty to a second thread, which mostly is told KDR_NO_POOL. A
   compiler would leave out what isn't volatile. */
#define KDR_CACHE_AT(cache) (*(void *volatile *)&(cache)->at)

/* These move a place for a call of the lines below, and back. So a compiler may keep the caller's
   place in registers. What isn't volatile gcc would put together before it knows of a call. */
static inline void kdr_inline_move(const kdr_place *place, volatile kdr_place *moved) {
    moved->after = place->after;
    moved->pool = place->pool;
}

static inline void kdr_inline_move_back(const volatile kdr_place *moved, kdr_place *place) {
    place->after = moved->after;
    place->pool = moved->pool;
}

/* What kdr_cache_pull() does: takes the place that came back last, if one is kept. */
KDR_NODISCARD KDR_NONNULL static inline kdr_status kdr_inline_cache_pull(kdr_cache *cache,
                                                                        kdr_place *place) {
    struct kdr_kept *kept = (struct kdr_kept *)cache->open;
    if (KDR_IS_LIKELY(kept != NULL && cache->at == kept && place->after == 0 && kept->count > 0)) {
        size_t last = kept->count - 1;
        KDR_CACHE_AT(cache) = NULL; /* until the place is out */
        kept->count = last;
        place->after = kept->numbers[last] + 1;
        place->pool = kept->pool;
        KDR_CACHE_AT(cache) = kept;
        return KDR_DONE;
    }
    kdr_place moved;
    kdr_inline_move(place, &moved);
    kdr_status status = kdr_cache_pull(cache, &moved);
    kdr_inline_move_back(&moved, place);
    return status;
}

/* What kdr_cache_return() does: keeps the place, if there is room. */
KDR_NONNULL static inline kdr_status kdr_inline_cache_return(kdr_cache *cache, kdr_place *place) {
    struct kdr_kept *kept = (struct kdr_kept *)cache->open;
    size_t number = place->after - 1; /* of an empty place the greatest number */
    if (KDR_IS_LIKELY(kept != NULL && cache->at == kept && number < cache->numbers &&
                      place->pool == kept->pool && kept->count < kept->room)) {
        size_t count = kept->count;
        KDR_CACHE_AT(cache) = NULL; /* until the place is kept */
        kept->numbers[count] = number;
        kept->count = count + 1;
        place->after = 0;
        place->pool = 0;
        KDR_CACHE_AT(cache) = kept;
        return KDR_DONE;
    }
    kdr_place moved;
    kdr_inline_move(place, &moved);
    kdr_status status = kdr_cache_return(cache, &moved);
    kdr_inline_move_back(&moved, place);
    return status;
}

#ifdef KDR_DEBUG
#define kdr_place_return(handle, place) \
    kdr_debug_place_return((handle), (place), __FILE__, __LINE__)
#define kdr_cache_return(cache, place) \
    kdr_debug_cache_return((cache), (place), __FILE__, __LINE__)
#else
#define kdr_cache_pull(cache, place) kdr_inline_cache_pull((cache), (place))
#define kdr_cache_return(cache, place) kdr_inline_cache_return((cache), (place))
#endif

#ifdef __cplusplus
}
#endif

#endif
