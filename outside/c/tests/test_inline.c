/* The pull and the return of a kept place, as the header has them, beside the calls that they stand
   for: the same answers, and the same bytes in places and at caches. On x86-64 of Linux they run
   step by step too: while one of them changes a cache, a second thread would be told that it has no
   pool. */
#if defined(__x86_64__) && defined(__linux__)
#define HAS_STEPS
#include <signal.h>
#include <ucontext.h>
#include <unwind.h>
#endif
#include "kundratu_pool.h"
#include <stdbool.h>
#include <stdio.h>
#include <stdlib.h>
#include <string.h>

enum { ITEMS = 40, PLACES = 16, ROOMS = 5, CALLS = 200000 };

static const size_t ROOM_OF[ROOMS] = {0, 1, 2, 3, 8};

static void check(bool holds, const char *what) {
    if (!holds) {
        puts(what);
        exit(1);
    }
}

/* A pool with a cache and places of it. Two are used alike, one of them by the header's lines. */
struct user {
    kdr_handle handle;
    kdr_cache cache;
    kdr_place places[PLACES];
};

static void begin(struct user *user, size_t room) {
    memset(user, 0, sizeof *user);
    check(kdr_pool_new(ITEMS, &user->handle) == KDR_DONE, "no pool");
    check(kdr_cache_new(&user->handle, room, 0, &user->cache) == KDR_DONE, "no cache");
    check(user->cache.open == user->cache.at && user->cache.numbers == ITEMS,
          "the header's lines don't serve each place of a cache");
}

static void end(struct user *user) {
    for (size_t at = 0; at < PLACES; at++) {
        kdr_status status = kdr_place_return(&user->handle, &user->places[at]);
        check(status == KDR_DONE || status == KDR_HOLDS_NONE, "a place wasn't returned");
    }
    check(kdr_cache_drop(&user->cache) == KDR_DONE, "a cache wasn't dropped");
    size_t count = 0;
    for (kdr_place place = KDR_PLACE_EMPTY; kdr_place_pull(&user->handle, 0, &place) == KDR_DONE;
         count++) {
        place = KDR_PLACE_EMPTY; /* it stays out */
    }
    check(count == ITEMS, "a place was lost");
    check(kdr_pool_drop(&user->handle) == KDR_DONE, "a handle wasn't dropped");
}

static uint64_t drawn = 88172645463325252u;

static size_t draw(size_t below) {
    drawn ^= drawn << 13;
    drawn ^= drawn >> 7;
    drawn ^= drawn << 17;
    return (size_t)(drawn >> 20) % below;
}

static const struct kdr_kept *kept_by(const struct user *user) {
    return user->cache.at;
}

static void compare(const struct user *one, const struct user *other, size_t at) {
    const struct kdr_kept *kept = kept_by(one), *wanted = kept_by(other);
    check(kept->count == wanted->count && kept->room == wanted->room && kept->count <= kept->room,
          "a cache keeps more or fewer");
    check(memcmp(kept->numbers, wanted->numbers, kept->count * sizeof(size_t)) == 0,
          "a cache keeps other places");
    const kdr_place *place = &one->places[at], *same = &other->places[at];
    check(place->after == same->after, "a place was left otherwise");
    check(place->pool == (place->after == 0 ? 0 : kept->pool) &&
              same->pool == (same->after == 0 ? 0 : wanted->pool),
          "a place has another tag than its pool");
}

/* The header's line, or the call itself. */
static kdr_status pull(struct user *user, size_t at, bool is_call) {
    kdr_place *place = &user->places[at];
    return is_call ? (kdr_cache_pull)(&user->cache, place) : kdr_cache_pull(&user->cache, place);
}

static kdr_status give_back(struct user *user, kdr_place *place, bool is_call) {
    return is_call ? (kdr_cache_return)(&user->cache, place)
                   : kdr_cache_return(&user->cache, place);
}

/* A place that nobody holds, or of another pool: neither takes it. */
static void refuse(struct user *one, struct user *other, size_t after, size_t tags_on,
                   kdr_status wanted) {
    struct user *users[] = {one, other};
    for (int way = 0; way < 2; way++) {
        kdr_place made_up = {after, kept_by(users[way])->pool + tags_on}, before = made_up;
        check(give_back(users[way], &made_up, way == 1) == wanted,
              "a place that was made up has another answer");
        check(memcmp(&made_up, &before, sizeof before) == 0,
              "a place was changed that wasn't taken");
    }
    compare(one, other, 0);
}

static void refuse_all(struct user *one, struct user *other) {
    refuse(one, other, 0, 0, KDR_HOLDS_NONE);
    refuse(one, other, ITEMS + 1, 0, KDR_NO_SUCH_PLACE);
    refuse(one, other, SIZE_MAX, 0, KDR_NO_SUCH_PLACE);
    refuse(one, other, ITEMS, 7, KDR_OTHER_POOL);
    refuse(one, other, 1, SIZE_MAX, KDR_OTHER_POOL);
}

static void follow_the_calls(size_t room) {
    static struct user one, other;
    size_t kept_pulls = 0, pulls_of_others = 0, kept_returns = 0, second_returns = 0,
           returns_beyond = 0;
    begin(&one, room);
    begin(&other, room);
    for (size_t call = 0; call < CALLS; call++) {
        size_t at = draw(PLACES), what = draw(100);
        size_t count = kept_by(&one)->count;
        bool is_empty = one.places[at].after == 0;
        if (what < 49) {
            check(pull(&one, at, false) == pull(&other, at, true), "a pull has another answer");
            kept_pulls += kept_by(&one)->count < count;
            pulls_of_others += count > 0 && !is_empty;
        } else if (what < 98) {
            kdr_status status = give_back(&one, &one.places[at], false);
            check(status == give_back(&other, &other.places[at], true),
                  "a return has another answer");
            kept_returns += kept_by(&one)->count > count;
            returns_beyond += status == KDR_DONE && count == room;
            second_returns += status == KDR_HOLDS_NONE;
        } else if (what == 98) {
            check(kdr_cache_flush(&one.cache) == KDR_DONE &&
                      kdr_cache_flush(&other.cache) == KDR_DONE,
                  "a cache wasn't flushed");
        } else {
            refuse_all(&one, &other);
        }
        compare(&one, &other, at);
    }
    check(pulls_of_others > CALLS / 100 || room == 0,
          "a place that isn't empty was pulled too seldom");
    check((kept_pulls > CALLS / 100 && kept_returns > CALLS / 100) == (room > 0),
          "another room is kept than was asked for");
    check(second_returns > CALLS / 100, "an empty place was returned too seldom");
    check(returns_beyond > CALLS / 1000, "a place was returned to a full cache too seldom");
    end(&one);
    end(&other);
}

/* Memory that was freed becomes that of a cache of this pool, which keeps a place and has room. */
static void use_freed_memory(size_t pool) {
    enum { BLOCKS = 16, STEP = 16 };
    static size_t numbers[2];
    struct kdr_kept kept = {{1, 1, 1}, pool, numbers, numbers, 1, 2};
    void *blocks[BLOCKS];
    for (size_t at = 0; at < BLOCKS; at++) {
        size_t size = (at + 1) * STEP;
        blocks[at] = malloc(size);
        check(blocks[at] != NULL, "no memory");
        memset(blocks[at], 1, size);
        memcpy(blocks[at], &kept, size < sizeof kept ? size : sizeof kept);
        __asm__ volatile("" : : "r"(blocks[at]) : "memory");
    }
    for (size_t at = 0; at < BLOCKS; at++) {
        free(blocks[at]);
    }
}

/* What is kept isn't of a cache that was dropped, or was never made. */
static void use_empty_caches(void) {
    struct user user;
    kdr_cache never = KDR_CACHE_EMPTY;
    kdr_place place = KDR_PLACE_EMPTY;
    begin(&user, 1);
    check(kdr_cache_pull(&user.cache, &place) == KDR_DONE &&
              kdr_cache_drop(&user.cache) == KDR_DONE,
          "no place");
    use_freed_memory(place.pool);
    kdr_cache *caches[] = {&user.cache, &never};
    for (int at = 0; at < 2; at++) {
        kdr_place none = KDR_PLACE_EMPTY;
        check(kdr_cache_pull(caches[at], &none) == KDR_NO_POOL && none.after == 0,
              "an empty cache has a place");
        check(kdr_cache_return(caches[at], &place) == KDR_NO_POOL && place.after != 0,
              "an empty cache keeps a place");
        check(kdr_cache_return(caches[at], &none) == KDR_NO_POOL,
              "an empty cache looks at a place first");
    }
    check(kdr_place_return(&user.handle, &place) == KDR_DONE &&
              kdr_pool_drop(&user.handle) == KDR_DONE,
          "no end");
}

/* Each argument is worked out once, whether a place is kept or not, or there is no cache. */
static void work_out_once(void) {
    struct user user;
    kdr_cache none = KDR_CACHE_EMPTY;
    begin(&user, 1);
    kdr_cache *caches[] = {&user.cache, &user.cache, &none}, **cache = caches;
    kdr_place *places[] = {user.places, user.places, user.places + 1}, **place = places;
    for (int at = 0; at < 3; at++) {
        kdr_status pulled = kdr_cache_pull(*cache++, *place++);
        check(cache == caches + at + 1 && place == places + at + 1,
              "a pull works its words out twice");
        cache--, place--;
        kdr_status returned = kdr_cache_return(*cache++, *place++);
        check(cache == caches + at + 1 && place == places + at + 1,
              "a return works its words out twice");
        check(pulled == returned && (pulled == KDR_NO_POOL) == (at == 2), "another answer");
    }
    end(&user);
}

#ifdef HAS_STEPS
enum { STEP_FLAG = 0x100 };

static kdr_cache watched;
static kdr_place moved;
static long steps, steps_within, refused, halves;

/* What runs from here on runs step by step, or does so no longer. */
static void switch_steps(int sent, siginfo_t *what, void *context) {
    ucontext_t *running = context;
    (void)sent, (void)what;
    running->uc_mcontext.gregs[REG_EFL] ^= STEP_FLAG;
}

static void pull_and_return(kdr_place *place, int first, int second);

/* Whether an instruction is of the header's lines, which a compiler may leave in functions. */
static bool is_of_lines(void *at) {
    uintptr_t function = (uintptr_t)_Unwind_FindEnclosingFunction(at);
    return function == (uintptr_t)pull_and_return || function == (uintptr_t)kdr_inline_cache_pull ||
           function == (uintptr_t)kdr_inline_cache_return;
}

/* At each step that is this file's, not the call's: what a second thread would be told. Where the
   cache is open, its place is kept or out, and not both. */
static void see_step(int sent, siginfo_t *what, void *context) {
    ucontext_t *running = context;
    void *at = (void *)running->uc_mcontext.gregs[REG_RIP];
    kdr_place none = KDR_PLACE_EMPTY;
    (void)sent, (void)what;
    steps++;
    if (is_of_lines(at)) {
        steps_within++;
        const struct kdr_kept *kept = *(struct kdr_kept *volatile *)&watched.at;
        if (kept == NULL) {
            refused += (kdr_cache_pull)(&watched, &none) == KDR_NO_POOL;
        } else {
            halves += (kept->count > 0) == (moved.after > 0);
        }
    }
}

static __attribute__((noinline)) void pull_and_return(kdr_place *place, int first, int second) {
    raise(first);
    kdr_status pulled = kdr_cache_pull(&watched, place);
    raise(first);
    raise(second);
    kdr_status returned = kdr_cache_return(&watched, place);
    raise(second);
    check(pulled == KDR_DONE && returned == KDR_DONE, "a step changed an answer");
}

/* A signal that is ignored switches nothing. */
static void step_through(const char *what, int first, int second) {
    refused = steps_within = halves = 0;
    moved = KDR_PLACE_EMPTY;
    pull_and_return(&moved, first, second);
    check(steps_within > 0 && refused > 0 && halves == 0, what);
    check(watched.at != NULL, "a cache stayed empty");
}

static void be_empty_within(void) {
    struct sigaction stepped, switched;
    kdr_handle handle = KDR_HANDLE_EMPTY;
    kdr_place place = KDR_PLACE_EMPTY;
    memset(&stepped, 0, sizeof stepped);
    stepped.sa_sigaction = see_step;
    stepped.sa_flags = SA_SIGINFO;
    switched = stepped;
    switched.sa_sigaction = switch_steps;
    check(sigaction(SIGTRAP, &stepped, NULL) == 0 && sigaction(SIGUSR1, &switched, NULL) == 0,
          "no handler");
    check(signal(SIGUSR2, SIG_IGN) != SIG_ERR, "no handler");
    check(kdr_pool_new(ITEMS, &handle) == KDR_DONE &&
              kdr_cache_new(&handle, 1, 0, &watched) == KDR_DONE,
          "no cache");
    check(kdr_cache_pull(&watched, &place) == KDR_DONE &&
              kdr_cache_return(&watched, &place) == KDR_DONE,
          "no place");
    step_through("a pull of a kept place lets a second thread in", SIGUSR1, SIGUSR2);
    step_through("a return that keeps a place lets a second thread in", SIGUSR2, SIGUSR1);
    check(kdr_cache_drop(&watched) == KDR_DONE && kdr_pool_drop(&handle) == KDR_DONE, "no end");
}
#endif

int main(void) {
    for (size_t at = 0; at < ROOMS; at++) {
        follow_the_calls(ROOM_OF[at]);
    }
    use_empty_caches();
    work_out_once();
#ifdef HAS_STEPS
    be_empty_within();
#endif
    puts("the header's pull and return leave what the calls leave");
    return 0;
}
