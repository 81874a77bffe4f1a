/* Two threads on one pool, each with one call. ci/stopped runs it, stops a thread after an instruction of its call, and lets the other go
   on. It prints what crates/test_stopped prints.
   usage: test_stopped [KIND pull|return|turn|turns pull|return|turn|turns ROUNDS] */
#include "kundratu_pool.h"
#include <pthread.h>
#include <stdatomic.h>
#include <stdbool.h>
#include <stdio.h>
#include <stdlib.h>
#include <string.h>

enum { ITEMS = 40, TURNS = 200, ADDED = 100, FREE_AT_MOST = 4 };
enum call { PULL, RETURN, TURN, TURNS_OF_IT };

/* The last two are controls: pools of this file, one by loads and stores, and one under a lock. */
static const char *const KINDS[] = {"handle", "handle_last", "place", "place_last", "cache", "cache_last", "race", "lock"};
enum { KINDS_COUNT = 8, PLACE = 2, CACHE = 4, RACE = 6, LOCK = 7 };
static const char *const CALLS[] = {"pull", "return", "turn", "turns"};
static const size_t FREE[] = {33, 5, 20, 39};

struct item {
    bool is_there;
    size_t number, value;
};

/* A thread with its handle, its call, and what it tells. */
struct thread {
    kdr_handle handle;
    kdr_place place;
    /* It has no room, so each call makes its steps on the pool. What is kept makes none. */
    kdr_cache cache;
    /* What it holds of a control, which has no library. */
    size_t of_control;
    enum call call;
    struct item held, pulled;
};

static size_t kind, values[ITEMS];
static volatile unsigned long word;
static atomic_flag lock = ATOMIC_FLAG_INIT;

static void check(bool holds, const char *what) {
    if (!holds) {
        puts(what);
        exit(1);
    }
}

static bool pull_of_control(size_t *number) {
    while (kind == LOCK && atomic_flag_test_and_set(&lock)) {
    }
    unsigned long found = word;
    if (found != 0) word = found & (found - 1);
    if (kind == LOCK) atomic_flag_clear(&lock);
    if (found != 0) *number = (size_t)__builtin_ctzl(found);
    return found != 0;
}

static void give_back_to_control(size_t number) {
    while (kind == LOCK && atomic_flag_test_and_set(&lock)) {
    }
    unsigned long found = word;
    word = found | 1ul << number;
    if (kind == LOCK) atomic_flag_clear(&lock);
}

static inline bool pull(struct thread *thread, size_t *number) {
    if (kind >= RACE) {
        bool is_pulled = pull_of_control(number);
        thread->of_control = is_pulled ? *number : KDR_NO_PLACE;
        return is_pulled;
    }
    if (kind < PLACE) return kdr_pool_pull(&thread->handle, number) == KDR_DONE;
    kdr_status status = kind >= CACHE ? kdr_cache_pull(&thread->cache, &thread->place) : kdr_place_pull(&thread->handle, 0, &thread->place);
    if (status != KDR_DONE) return false;
    *number = kdr_place_number(&thread->place);
    return true;
}

static inline void give_back(struct thread *thread) {
    if (kind >= RACE) {
        if (thread->of_control != KDR_NO_PLACE) give_back_to_control(thread->of_control);
        thread->of_control = KDR_NO_PLACE;
    } else if (kind >= CACHE) {
        kdr_cache_return(&thread->cache, &thread->place);
    } else if (kind >= PLACE) {
        kdr_place_return(&thread->handle, &thread->place);
    } else {
        kdr_pool_return(&thread->handle);
    }
}

__attribute__((noinline)) static bool called_pull(struct thread *thread, size_t *number) { return pull(thread, number); }

__attribute__((noinline)) static void called_return(struct thread *thread) { give_back(thread); }

__attribute__((noinline)) static void called_turn(struct thread *thread) {
    size_t number = 0;
    if (!pull(thread, &number)) return;
    thread->pulled = (struct item){true, number, values[number]};
    values[number] = number + ADDED;
    give_back(thread);
}

__attribute__((noinline)) static void called_turns(struct thread *thread) {
    size_t number = 0;
    for (int turn = 0; turn < TURNS; turn++) {
        give_back(thread);
        (void)pull(thread, &number);
    }
}

static void *run(void *of) {
    struct thread *thread = of;
    size_t number = 0;
    if (thread->call == RETURN || thread->call == TURNS_OF_IT) {
        check(pull(thread, &number), "there is nothing to return");
        values[number] = number + ADDED;
        thread->held = (struct item){true, number, values[number]};
    }
    switch (thread->call) {
    case PULL:
        if (called_pull(thread, &number)) thread->pulled = (struct item){true, number, values[number]};
        break;
    case RETURN: called_return(thread); break;
    case TURN: called_turn(thread); break;
    case TURNS_OF_IT: called_turns(thread); break;
    }
    return NULL;
}

static void tell(const char *what, struct item item, const char *behind) {
    if (item.is_there)
        printf("%s %zu:%zu%s", what, item.number, item.value, behind);
    else
        printf("%s none%s", what, behind);
}

/* All places but those that are to be free, which it returns. Each has its number for value. */
static void hold_but(kdr_handle *handle, size_t free_ones, kdr_place places[ITEMS]) {
    for (size_t at = 0; at < ITEMS; at++) {
        places[at] = KDR_PLACE_EMPTY;
        check(kdr_place_pull(handle, 0, &places[at]) == KDR_DONE, "a new pool isn't free");
        values[kdr_place_number(&places[at])] = kdr_place_number(&places[at]);
    }
    for (size_t at = 0; at < ITEMS; at++)
        for (size_t of = 0; of < free_ones; of++)
            if (kdr_place_number(&places[at]) == FREE[of]) kdr_place_return(handle, &places[at]);
}

/* A handle of the pool and a cache for a thread, which holds nothing. */
static void open_for(struct thread *thread, kdr_handle *of) {
    thread->handle = KDR_HANDLE_EMPTY;
    thread->place = KDR_PLACE_EMPTY;
    thread->cache = KDR_CACHE_EMPTY;
    thread->of_control = KDR_NO_PLACE;
    check(kdr_pool_share(of, &thread->handle) == KDR_DONE, "no handle");
    check(kdr_cache_new(of, 0, 0, &thread->cache) == KDR_DONE, "no cache");
}

static void close_for(struct thread *thread) {
    kdr_cache_drop(&thread->cache);
    kdr_pool_drop(&thread->handle);
}

static void tell_rest(kdr_handle *handle, size_t free_ones) {
    struct thread rest[FREE_AT_MOST];
    for (size_t at = 0; at < free_ones; at++) {
        size_t number = 0;
        open_for(&rest[at], handle);
        if (pull(&rest[at], &number)) printf(" %zu:%zu", number, values[number]);
    }
    for (size_t at = 0; at < free_ones; at++) close_for(&rest[at]);
    puts("");
    fflush(stdout);
}

static void make_round(size_t free_ones, enum call first_call, enum call second_call) {
    struct thread first = {.call = first_call}, second = {.call = second_call};
    kdr_handle main_handle = KDR_HANDLE_EMPTY;
    kdr_place held[ITEMS];
    pthread_t other;
    check(kdr_pool_new(ITEMS, &main_handle) == KDR_DONE, "no pool");
    open_for(&first, &main_handle);
    open_for(&second, &main_handle);
    hold_but(&main_handle, free_ones, held);
    word = 0;
    for (size_t at = 0; at < free_ones; at++) word |= 1ul << FREE[at];
    check(pthread_create(&other, NULL, run, &first) == 0, "no thread");
    run(&second);
    pthread_join(other, NULL);
    tell("held", first.held, " ");
    tell("pulled", first.pulled, " ");
    tell("held", second.held, " ");
    tell("pulled", second.pulled, " rest");
    for (int who = 0; who < 2; who++) {
        struct thread *thread = who == 0 ? &first : &second;
        if (thread->call == PULL || thread->call == TURNS_OF_IT) give_back(thread);
    }
    tell_rest(&main_handle, free_ones);
    close_for(&first);
    close_for(&second);
    kdr_pool_drop(&main_handle);
}

static size_t named(const char *word, const char *const names[], size_t count) {
    for (size_t at = 0; at < count; at++)
        if (strcmp(word, names[at]) == 0) return at;
    check(false, "usage: test_stopped [KIND FIRST SECOND ROUNDS]");
    return 0;
}

int main(int argc, char **argv) {
    if (argc == 1)
        for (size_t at = 0; at < KINDS_COUNT; at++) puts(KINDS[at]);
    if (argc != 5) return argc != 1;
    kind = named(argv[1], KINDS, KINDS_COUNT);
    enum call first = (enum call)named(argv[2], CALLS, 4), second = (enum call)named(argv[3], CALLS, 4);
    size_t free_ones = (kind < RACE && kind % 2 == 1 ? 1 : 2) + (first == RETURN || first == TURNS_OF_IT) + (second == RETURN || second == TURNS_OF_IT);
    printf("free");
    for (size_t at = 0; at < free_ones; at++) printf(" %zu", FREE[at]);
    puts("");
    fflush(stdout);
    for (unsigned long round = strtoul(argv[4], NULL, 10); round > 0; round--) make_round(free_ones, first, second);
    return 0;
}
