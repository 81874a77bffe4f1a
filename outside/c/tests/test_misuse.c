/* Mistakes that C programs make with places, and how each is answered: places of zeroed memory,
   places whose bytes were made up, places of another pool and of one that has ended, and a place
   that was copied and is returned while it is free. The same by a cache. A place that was refused is
   as before, and the pools hand out each place once afterwards. */
#include "kundratu_pool.h"
#include <signal.h>
#include <stdbool.h>
#include <stdio.h>
#include <stdlib.h>
#include <string.h>
#if !defined(_WIN32)
#include <sys/wait.h>
#include <unistd.h>
#endif

enum { ITEMS = 40, FEW = 2 };

static void check(bool holds, const char *what) {
    if (!holds) {
        puts(what);
        exit(1);
    }
}

static kdr_handle new_pool(size_t items) {
    kdr_handle first = KDR_HANDLE_EMPTY;
    check(kdr_pool_new(items, &first) == KDR_DONE, "no pool");
    return first;
}

static kdr_place pull(kdr_handle *handle) {
    kdr_place place = KDR_PLACE_EMPTY;
    check(kdr_place_pull(handle, 0, &place) == KDR_DONE, "a pull was refused while a place was free");
    return place;
}

static bool is_same(const kdr_place *one, const kdr_place *other) {
    return memcmp(one, other, sizeof *one) == 0;
}

/* A return of this place is refused, and leaves it as it is. */
static void refuse(kdr_handle *handle, kdr_place place, kdr_status wanted) {
    kdr_place before = place;
    kdr_status status = kdr_place_return(handle, &place);
    if (status != wanted) {
        printf("a return of %zu was answered by %s, and not by %s\n", kdr_place_number(&place), kdr_status_name(status),
               kdr_status_name(wanted));
        exit(1);
    }
    check(is_same(&place, &before), "a return that was refused changed the place");
}

/* Nor does a cache of that pool keep it. */
static void refuse_by_cache(const kdr_handle *handle, kdr_place place, kdr_status wanted) {
    kdr_cache cache = KDR_CACHE_EMPTY;
    kdr_place before = place, more = KDR_PLACE_EMPTY;
    check(kdr_cache_new(handle, 1, 0, &cache) == KDR_DONE, "no cache");
    check(kdr_cache_return(&cache, &place) == wanted && is_same(&place, &before), "a cache takes a place that it shouldn't");
    if (kdr_cache_pull(&cache, &more) == KDR_DONE) {
        check(!is_same(&more, &before), "a cache keeps a place that it refused");
        check(kdr_cache_return(&cache, &more) == KDR_DONE, "a place wasn't returned to a cache");
    }
    check(kdr_cache_drop(&cache) == KDR_DONE, "a cache wasn't dropped");
}

/* The pool has as many free places as it should, each one of its own, and no further one. Then it is
   dropped. */
static void end_pool(kdr_handle *handle, size_t free) {
    bool taken[ITEMS] = {false};
    kdr_place more = KDR_PLACE_EMPTY;
    for (size_t at = 0; at < free; at++) {
        kdr_place place = pull(handle);
        size_t number = kdr_place_number(&place);
        check(number < kdr_pool_items(handle), "a place was pulled that is none of the pool's");
        check(!taken[number], "a place was pulled twice");
        taken[number] = true;
    }
    check(kdr_place_pull(handle, 0, &more) == KDR_ALL_IN_USE, "a place was free that nobody had returned");
    check(kdr_pool_drop(handle) == KDR_DONE, "a handle wasn't dropped");
}

/* All bytes of an empty place and of an empty handle are 0. */
static void use_zeroed_memory(void) {
    struct session {
        kdr_handle handle;
        kdr_place place;
    } *session = calloc(1, sizeof *session);
    check(session != NULL, "no memory");
    kdr_handle first = new_pool(FEW);
    kdr_place held = pull(&first), empty = KDR_PLACE_EMPTY;
    check(is_same(&empty, &session->place), "an empty place isn't one of zeros");
    check(kdr_place_number(&session->place) == KDR_NO_PLACE, "a zeroed place has a number");
    refuse(&first, session->place, KDR_HOLDS_NONE);
    refuse(&session->handle, held, KDR_NO_POOL);
    check(kdr_pool_items(&session->handle) == 0, "a zeroed handle has a pool");
    check(kdr_pool_drop(&session->handle) == KDR_NO_POOL, "a zeroed handle was dropped");
    check(kdr_place_pull(&first, 0, &session->place) == KDR_DONE, "a zeroed place isn't empty");
    check(!is_same(&held, &session->place), "a place has two holders");
    check(kdr_place_return(&first, &session->place) == KDR_DONE, "a place wasn't returned");
    free(session);
    end_pool(&first, FEW - 1);
}

/* Numbers that are none of the pool's, with its tag and without. */
static void make_places_up(void) {
    static const size_t numbers[] = {FEW, FEW + 1, 31, 32, 70, 1 << 20, (size_t)1 << 40, SIZE_MAX / 2, SIZE_MAX - 1};
    kdr_handle first = new_pool(FEW);
    kdr_place held = pull(&first);
    for (size_t at = 0; at < sizeof numbers / sizeof numbers[0]; at++) {
        kdr_place made_up = {numbers[at] + 1, held.pool};
        refuse(&first, made_up, KDR_NO_SUCH_PLACE);
        refuse_by_cache(&first, made_up, KDR_NO_SUCH_PLACE);
        check(kdr_place_pull(&first, 0, &made_up) == KDR_HOLDS_ONE, "a place was pulled that isn't empty");
        made_up.pool = 0;
        refuse(&first, made_up, KDR_OTHER_POOL);
        refuse_by_cache(&first, made_up, KDR_OTHER_POOL);
    }
    kdr_place guessed = {kdr_place_number(&held) + 1, 0};
    refuse(&first, guessed, KDR_OTHER_POOL);
    check(kdr_place_return(&first, &held) == KDR_DONE, "a place wasn't returned");
    end_pool(&first, FEW);
}

/* A place is of the pool that it was pulled from, by whatever handle, also when that has ended. */
static void take_another_pool(void) {
    kdr_handle first = new_pool(ITEMS), further = KDR_HANDLE_EMPTY, other = new_pool(ITEMS), few = new_pool(FEW);
    check(kdr_pool_share(&first, &further) == KDR_DONE, "no further handle");
    kdr_place held = pull(&first), of_other = pull(&other);
    refuse(&other, held, KDR_OTHER_POOL);
    refuse(&few, held, KDR_OTHER_POOL);
    refuse(&first, of_other, KDR_OTHER_POOL);
    refuse_by_cache(&other, held, KDR_OTHER_POOL);
    refuse_by_cache(&few, held, KDR_OTHER_POOL);
    check(kdr_place_return(&other, &of_other) == KDR_DONE, "a place wasn't returned to its own pool");
    refuse(&few, held, KDR_OTHER_POOL);
    check(kdr_place_return(&further, &held) == KDR_DONE, "a place wasn't returned by a further handle");
    held = pull(&further);
    check(kdr_pool_drop(&further) == KDR_DONE, "a handle wasn't dropped");
    end_pool(&first, ITEMS - 1);
    kdr_handle later = new_pool(ITEMS);
    refuse(&later, held, KDR_OTHER_POOL);
    refuse_by_cache(&later, held, KDR_OTHER_POOL);
    end_pool(&later, ITEMS);
    end_pool(&other, ITEMS);
    end_pool(&few, FEW);
}

/* By which calls a place is returned twice, the second time by a copy. It doesn't come back. */
static const char *const WAYS[] = {"plain", "debug", "full_cache", "flush", "drop", "cache_debug"};
enum way { PLAIN, DEBUG, FULL_CACHE, FLUSH, DROP, CACHE_DEBUG, WAYS_COUNT };

static void return_a_copy(enum way way) {
    kdr_handle first = new_pool(ITEMS);
    kdr_cache cache = KDR_CACHE_EMPTY;
    kdr_place held = pull(&first), copy = held;
    check(kdr_cache_new(&first, way == FULL_CACHE ? 0 : 2, 0, &cache) == KDR_DONE, "no cache");
    kdr_status status = way == CACHE_DEBUG ? kdr_cache_return(&cache, &held) : kdr_place_return(&first, &held);
    check(status == KDR_DONE, "a place wasn't returned");
    switch (way) {
    case PLAIN: (void)kdr_place_return(&first, &copy); break;
    case DEBUG: (void)kdr_debug_place_return(&first, &copy, "file.c", 12); break;
    case CACHE_DEBUG: (void)kdr_debug_cache_return(&cache, &copy, "file.c", 34); break;
    default: (void)kdr_cache_return(&cache, &copy);
    }
    if (way == FLUSH) {
        (void)kdr_cache_flush(&cache);
    } else {
        (void)kdr_cache_drop(&cache);
    }
}

/* How a program ends: by the processor's refusal, or by abort. */
enum end { BY_REFUSAL, BY_ABORT, OTHERWISE };

#if defined(_WIN32)
static const char *program;

/* Each has a file of its own: what looks into a program that ended may still have that open. */
static enum end end_of_a_copy(enum way way, char *said, size_t room) {
    char command[1024], name[64];
    snprintf(name, sizeof name, "said_%s.txt", WAYS[way]);
    snprintf(command, sizeof command, "\"%s\" %s 2>%s", program, WAYS[way], name);
    fflush(stdout);
    unsigned status = (unsigned)system(command);
    FILE *file = fopen(name, "r");
    check(file != NULL, "no file");
    said[fread(said, 1, room - 1, file)] = 0;
    fclose(file);
    remove(name);
    return status == 0xC000001D ? BY_REFUSAL : status == 3 ? BY_ABORT : OTHERWISE;
}
#else
static enum end end_of_a_copy(enum way way, char *said, size_t room) {
    int ends[2];
    check(pipe(ends) == 0, "no pipe");
    fflush(stdout);
    pid_t child = fork();
    check(child >= 0, "no child");
    if (child == 0) {
        dup2(ends[1], STDERR_FILENO);
        signal(SIGILL, SIG_DFL);
        signal(SIGTRAP, SIG_DFL);
        return_a_copy(way);
        _exit(0);
    }
    int status = 0;
    close(ends[1]);
    check(waitpid(child, &status, 0) == child, "no child ended");
    ssize_t length = read(ends[0], said, room - 1);
    close(ends[0]);
    said[length > 0 ? length : 0] = 0;
    int sent = WIFSIGNALED(status) ? WTERMSIG(status) : 0;
    return sent == SIGILL || sent == SIGTRAP ? BY_REFUSAL : sent == SIGABRT ? BY_ABORT : OTHERWISE;
}
#endif

/* It ends the program. With the header's debug build it says where. */
static void copy_a_place(void) {
    char said[256];
    for (enum way way = PLAIN; way < WAYS_COUNT; way++) {
        bool is_debug = way == DEBUG || way == CACHE_DEBUG;
        enum end end = end_of_a_copy(way, said, sizeof said);
        if (end != (is_debug ? BY_ABORT : BY_REFUSAL)) {
            printf("a copied place was returned twice, by the way %s\n", WAYS[way]);
            exit(1);
        }
        const char *call = way == DEBUG ? "file.c:12: kdr_place_return: place " : "file.c:34: kdr_cache_return: place ";
        const char *found = way == DEBUG ? "is free" : "is kept";
        check(!is_debug || (strstr(said, call) && strstr(said, found)), "nothing was said of a copied place");
    }
}

/* A cache with room doesn't see the copy of a place that it keeps: two pulls take one place. */
static void keep_a_copy(void) {
    kdr_handle first = new_pool(FEW);
    kdr_cache cache = KDR_CACHE_EMPTY;
    check(kdr_cache_new(&first, 2, 0, &cache) == KDR_DONE, "no cache");
    kdr_place one = pull(&first), copy = one, same = one;
    check(kdr_cache_return(&cache, &one) == KDR_DONE && kdr_cache_return(&cache, &copy) == KDR_DONE, "a copy isn't kept");
    check(kdr_cache_pull(&cache, &one) == KDR_DONE && kdr_cache_pull(&cache, &copy) == KDR_DONE, "what is kept wasn't pulled");
    check(is_same(&one, &same) && is_same(&copy, &same), "another place was pulled than the one that is kept");
    check(kdr_place_return(&first, &one) == KDR_DONE && kdr_cache_drop(&cache) == KDR_DONE, "no end");
    end_pool(&first, FEW);
}

/* The version is one, in numbers and as a string, in the header and in the library. */
static void compare_versions(void) {
    char version[32];
    snprintf(version, sizeof version, "%d.%d.%d", KDR_VERSION_MAJOR, KDR_VERSION_MINOR, KDR_VERSION_PATCH);
    check(strcmp(version, KDR_VERSION) == 0, "the header's version in numbers is another one than as a string");
    check(strcmp(kdr_version(), KDR_VERSION) == 0, "the header is of another version than the library");
}

/* Each status has its number and its name, and no other number has a name. */
static void name_statuses(void) {
#define NAMED(status) {status, #status}
    static const struct {
        kdr_status status;
        const char *name;
    } all[] = {
        NAMED(KDR_DONE),      NAMED(KDR_ALL_IN_USE), NAMED(KDR_HOLDS_ONE), NAMED(KDR_HOLDS_NONE),
        NAMED(KDR_NO_POOL),   NAMED(KDR_HAS_POOL),   NAMED(KDR_NO_PLACES), NAMED(KDR_NO_MEMORY),
        NAMED(KDR_OTHER_POOL), NAMED(KDR_NO_SUCH_PLACE),
    };
    kdr_status count = sizeof all / sizeof all[0];
    for (kdr_status at = 0; at < count; at++) {
        check(all[at].status == at, "a status has another number");
        check(strcmp(kdr_status_name(at), all[at].name) == 0, "a status has another name");
    }
    check(strcmp(kdr_status_name(count), "unknown") == 0, "a status too many has a name");
    check(strcmp(kdr_status_name(UINT32_MAX), "unknown") == 0, "the greatest number has a name");
}

/* Programs that were built with another header of this soname see the same bytes. */
static void compare_layouts(void) {
    check(sizeof(kdr_status) == 4 && sizeof(kdr_handle) == 8, "a handle is of another size");
    check(sizeof(kdr_place) == 16 && sizeof(kdr_cache) == 24, "a place is of another size");
    check(offsetof(kdr_cache, open) == 8 && offsetof(kdr_cache, numbers) == 16,
          "a cache is laid out otherwise");
}

int main(int count, char **words) {
    if (count > 1) {
        for (enum way way = PLAIN; way < WAYS_COUNT; way++) {
            if (strcmp(words[1], WAYS[way]) == 0) {
                return_a_copy(way);
            }
        }
        return 0;
    }
#if defined(_WIN32)
    program = words[0];
#endif
    compare_versions();
    name_statuses();
    compare_layouts();
    make_places_up();
    use_zeroed_memory();
    take_another_pool();
    copy_a_place();
    keep_a_copy();
    puts("each mistake was answered, and each place is in use once");
    return 0;
}
