/* Ten million random calls, each answer against that of a plain model: arrays of who holds which place.
   usage: test_model [CALLS [SEED]] */
#include "kundratu_pool.h"
#include <stdbool.h>
#include <stdio.h>
#include <stdlib.h>

enum { HANDLES = 96, POOLS = 8, MOST_ITEMS = 200, NOBODY = -1, NO_POOL = -1, NO_PLACE = -1 };

/* What the model knows of a handle: which pool it is of, and which place it holds. */
struct plain_handle {
    int pool;
    int place;
};

/* What the model knows of a pool: how many handles it has, and who holds each of its places. */
struct plain_pool {
    int handles;
    int items;
    int out;
    int holder[MOST_ITEMS];
};

static kdr_handle handles[HANDLES];
static struct plain_handle plain[HANDLES];
static struct plain_pool pools[POOLS];
static unsigned long long calls;
static unsigned long long answered[8];

static uint64_t state = 1;

/* Steele, Lea and Flood's SplitMix64. */
static uint64_t next(void) {
    uint64_t z = (state += UINT64_C(0x9e3779b97f4a7c15));
    z = (z ^ (z >> 30)) * UINT64_C(0xbf58476d1ce4e5b9);
    z = (z ^ (z >> 27)) * UINT64_C(0x94d049bb133111eb);
    return z ^ (z >> 31);
}

static size_t below(size_t bound) {
    return (size_t)(next() % bound);
}

static void check(bool holds, const char *what) {
    if (!holds) {
        printf("call %llu: %s\n", calls, what);
        exit(1);
    }
}

static void expect(kdr_status answer, kdr_status wanted, const char *call) {
    if (answer != wanted) {
        printf("call %llu: %s answered %u, and the model %u\n", calls, call, answer, wanted);
        exit(1);
    }
    answered[answer]++;
}

static int spare_pool(void) {
    for (int pool = 0; pool < POOLS; pool++) {
        if (pools[pool].handles == 0) {
            return pool;
        }
    }
    return NO_POOL;
}

static void try_new(size_t at) {
    size_t items = below(MOST_ITEMS + 1);
    int pool = spare_pool();
    if (pool == NO_POOL && plain[at].pool == NO_POOL) {
        return;
    }
    kdr_status wanted = plain[at].pool != NO_POOL ? KDR_HAS_POOL : items == 0 ? KDR_NO_PLACES : KDR_DONE;
    expect(kdr_pool_new(items, &handles[at]), wanted, "new");
    if (wanted == KDR_DONE) {
        pools[pool] = (struct plain_pool){.handles = 1, .items = (int)items};
        for (size_t place = 0; place < items; place++) {
            pools[pool].holder[place] = NOBODY;
        }
        plain[at] = (struct plain_handle){.pool = pool, .place = NO_PLACE};
    }
}

static void try_share(size_t from, size_t to) {
    if (from == to) {
        return;
    }
    kdr_status wanted = plain[to].pool != NO_POOL ? KDR_HAS_POOL : plain[from].pool == NO_POOL ? KDR_NO_POOL : KDR_DONE;
    expect(kdr_pool_share(&handles[from], &handles[to]), wanted, "share");
    if (wanted == KDR_DONE) {
        plain[to] = (struct plain_handle){.pool = plain[from].pool, .place = NO_PLACE};
        pools[plain[from].pool].handles++;
    }
}

static void try_pull(size_t at, bool near) {
    struct plain_handle *one = &plain[at];
    struct plain_pool *pool = one->pool == NO_POOL ? NULL : &pools[one->pool];
    kdr_status wanted = !pool                      ? KDR_NO_POOL
                        : one->place != NO_PLACE   ? KDR_HOLDS_ONE
                        : pool->out == pool->items ? KDR_ALL_IN_USE
                                                   : KDR_DONE;
    size_t place = SIZE_MAX;
    kdr_status answer = near ? kdr_pool_pull_near(&handles[at], (size_t)next(), &place) : kdr_pool_pull(&handles[at], &place);
    expect(answer, wanted, "pull");
    if (answer != KDR_DONE) {
        check(place == SIZE_MAX, "a refused pull wrote a place");
        return;
    }
    check(place < (size_t)pool->items, "a place of another pool was pulled");
    check(pool->holder[place] == NOBODY, "a place was pulled that is held");
    pool->holder[place] = (int)at;
    pool->out++;
    one->place = (int)place;
}

static void let_go(struct plain_handle *one) {
    pools[one->pool].holder[one->place] = NOBODY;
    pools[one->pool].out--;
    one->place = NO_PLACE;
}

static void try_return(size_t at) {
    struct plain_handle *one = &plain[at];
    kdr_status wanted = one->pool == NO_POOL ? KDR_NO_POOL : one->place == NO_PLACE ? KDR_HOLDS_NONE : KDR_DONE;
    expect(kdr_pool_return(&handles[at]), wanted, "return");
    if (wanted == KDR_DONE) {
        let_go(one);
    }
}

static void try_items(size_t at) {
    size_t wanted = plain[at].pool == NO_POOL ? 0 : (size_t)pools[plain[at].pool].items;
    check(kdr_pool_items(&handles[at]) == wanted, "the number of items is another one");
}

static void try_drop(size_t at) {
    struct plain_handle *one = &plain[at];
    expect(kdr_pool_drop(&handles[at]), one->pool == NO_POOL ? KDR_NO_POOL : KDR_DONE, "drop");
    if (one->pool == NO_POOL) {
        return;
    }
    if (one->place != NO_PLACE) {
        let_go(one);
    }
    pools[one->pool].handles--;
    one->pool = NO_POOL;
}

/* Most calls are pulls and returns. The others keep some pools short-lived, and handles both empty and open. */
static void call_something(void) {
    size_t at = below(HANDLES);
    switch (below(32)) {
    case 0:
        try_new(at);
        break;
    case 1:
    case 2:
        try_share(at, below(HANDLES));
        break;
    case 3:
        try_items(at);
        break;
    case 4:
        try_drop(at);
        break;
    case 5:
    case 6:
    case 7:
    case 8:
        try_pull(at, true);
        break;
    default:
        if (below(2)) {
            try_pull(at, false);
        } else {
            try_return(at);
        }
    }
}

int main(int count, char **words) {
    unsigned long long wanted = count > 1 ? strtoull(words[1], NULL, 10) : 10000000;
    state = count > 2 ? strtoull(words[2], NULL, 10) : 1;
    for (size_t at = 0; at < HANDLES; at++) {
        plain[at] = (struct plain_handle){.pool = NO_POOL, .place = NO_PLACE};
    }
    for (; calls < wanted; calls++) {
        call_something();
    }
    for (size_t at = 0; at < HANDLES; at++) {
        try_drop(at);
    }
    for (int answer = KDR_DONE; answer <= KDR_NO_PLACES; answer++) {
        check(answered[answer] > 0, "an answer never came");
    }
    printf("%llu calls answered as the model does\n", wanted);
    return 0;
}
