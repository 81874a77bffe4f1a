/* What KDR_DEBUG makes of kdr_place_return() and kdr_cache_return(). Their answers are the same. Where a place is free that is returned,
   or the cache keeps it, the program says of which thread's return, and aborts. Other ends of
   the program, handlers of its own, and signals that it ignores are left as they are. NDEBUG changes
   nothing of this. */
#define KDR_DEBUG
#define NDEBUG
#include "kundratu_pool.h"
#include <pthread.h>
#include <signal.h>
#include <stdatomic.h>
#include <stdbool.h>
#include <stdio.h>
#include <stdlib.h>
#include <string.h>
#include <sys/wait.h>
#include <unistd.h>

enum { ITEMS = 40, SECONDS = 20, OWN_END = 7, GOOD_RETURNS = 1000, THREADS = 3, ROUNDS = 200 };

static const char *doing = "";
static size_t said_length;

static void check(bool holds, const char *what) {
    if (!holds) {
        printf("%s: %s\n", doing, what);
        fflush(stdout);
        _exit(1);
    }
}

static kdr_handle new_pool(void) {
    kdr_handle first = KDR_HANDLE_EMPTY;
    check(kdr_pool_new(ITEMS, &first) == KDR_DONE, "no pool");
    return first;
}

static kdr_place pull(kdr_handle *handle) {
    kdr_place place = KDR_PLACE_EMPTY;
    check(kdr_place_pull(handle, 0, &place) == KDR_DONE, "no place");
    return place;
}

/* An emulator says how its program ended, behind what the program said. */
static void forget_the_emulator(char *said) {
    char *note = strstr(said, "qemu: uncaught target signal ");
    if (note != NULL) {
        *note = 0;
        said_length = (size_t)(note - said);
    }
}

/* How a child ends that makes this call, and what it says. */
static int end_of(void (*call)(void), char *said, size_t room) {
    int ends[2], status = 0;
    size_t length = 0;
    check(pipe(ends) == 0, "no pipe");
    pid_t child = fork();
    check(child >= 0, "no child");
    if (child == 0) {
        dup2(ends[1], STDERR_FILENO);
        alarm(SECONDS);
        call();
        _exit(0);
    }
    close(ends[1]);
    for (ssize_t more; (more = read(ends[0], said + length, room - 1 - length)) > 0;) {
        length += (size_t)more;
    }
    said[length] = 0;
    said_length = length;
    forget_the_emulator(said);
    close(ends[0]);
    check(waitpid(child, &status, 0) == child, "no child ended");
    return status;
}

static bool is_ended_by(int status, int sent) {
    return WIFSIGNALED(status) && WTERMSIG(status) == sent;
}

/* Returns a place that is free, after one with another number was returned well. From here on this file has another name. */
#line 100 "short.c"
static void return_a_copy(void) {
    kdr_handle first = new_pool();
    kdr_place one = pull(&first), other = pull(&first), copy = other;
    kdr_place_return(&first, &one);
    kdr_place_return(&first, &other);
    kdr_place_return(&first, &copy); /* line 105 */
}

/* By a cache that keeps the place, and by one that has no room. */
static void keep_a_copy(void) {
    kdr_handle first = new_pool();
    kdr_cache cache = KDR_CACHE_EMPTY;
    check(kdr_cache_new(&first, 3, 0, &cache) == KDR_DONE, "no cache");
    kdr_place one = pull(&first), other = pull(&first), copy = one;
    kdr_cache_return(&cache, &one);
    kdr_cache_return(&cache, &other);
    kdr_cache_return(&cache, &copy); /* line 116 */
}

static void return_a_copy_past_a_cache(void) {
    kdr_handle first = new_pool();
    kdr_cache cache = KDR_CACHE_EMPTY;
    check(kdr_cache_new(&first, 0, 0, &cache) == KDR_DONE, "no cache");
    kdr_place one = pull(&first), copy = one;
    kdr_cache_return(&cache, &one);
    kdr_cache_return(&cache, &copy); /* line 125 */
}

static void name_the_cache_return(void) {
    char said[1024];
    doing = "a copied place and a cache";
    check(is_ended_by(end_of(keep_a_copy, said, sizeof said), SIGABRT), "no abort");
    check(strcmp(said, "short.c:116: kdr_cache_return: place 0 is kept: it was copied, and returned before\n") == 0, said);
    check(is_ended_by(end_of(return_a_copy_past_a_cache, said, sizeof said), SIGABRT), "no abort without room");
    check(strcmp(said, "short.c:125: kdr_cache_return: place 0 is free: it was copied, and returned before\n") == 0, said);
}

static void name_the_return(void) {
    char said[1024];
    doing = "a copied place";
    check(is_ended_by(end_of(return_a_copy, said, sizeof said), SIGABRT), "no abort");
    check(strcmp(said, "short.c:105: kdr_place_return: place 1 is free: it was copied, and returned before\n") == 0, said);
}

/* A long name of a file is cut, and nothing behind it is shown. */
static void return_in_a_long_file(void) {
    char name[2048];
    memset(name, 'x', sizeof name - 1);
    name[sizeof name - 1] = 0;
    kdr_handle first = new_pool();
    kdr_place held = pull(&first), copy = held;
    kdr_place_return(&first, &held);
    (void)kdr_debug_place_return(&first, &copy, name, 1);
}

static void cut_the_message(void) {
    char said[4096];
    doing = "a long name of a file";
    check(is_ended_by(end_of(return_in_a_long_file, said, sizeof said), SIGABRT), "no abort");
    check(said_length == 511 && strspn(said, "x") == 511, "the message isn't cut where it is full");
}

/* While other threads return places well. */
static atomic_bool is_running;

static void *return_well(void *unused) {
    kdr_handle first = new_pool();
    for (int turn = 0;; turn++) {
        kdr_place held = pull(&first);
        kdr_place_return(&first, &held);
        atomic_store(&is_running, turn > GOOD_RETURNS);
    }
    return unused;
}

static void return_a_copy_beside(void) {
    for (int number = 0; number < THREADS; number++) {
        pthread_t thread;
        check(pthread_create(&thread, NULL, return_well, NULL) == 0, "no thread");
    }
    while (!atomic_load(&is_running)) {
    }
    return_a_copy();
}

static void name_the_threads_return(void) {
    char said[1024];
    doing = "a copied place beside other threads";
    for (int round = 0; round < ROUNDS; round++) {
        check(is_ended_by(end_of(return_a_copy_beside, said, sizeof said), SIGABRT), "no abort");
        check(strncmp(said, "short.c:105: kdr_place_return: place 1 is", 41) == 0, said);
    }
}

#if defined(__linux__)
/* The thread whose return is the program's first one stays where it asks for the signals. */
static atomic_bool holds_up, is_held_up;
int __real_sigaction(int sent, const struct sigaction *new, struct sigaction *old);

int __wrap_sigaction(int sent, const struct sigaction *new, struct sigaction *old) {
    if (!atomic_exchange(&holds_up, false)) {
        return __real_sigaction(sent, new, old);
    }
    atomic_store(&is_held_up, true);
    for (;;) {
        pause();
    }
}

static void return_a_copy_beside_the_first(void) {
    pthread_t thread;
    atomic_store(&holds_up, true);
    check(pthread_create(&thread, NULL, return_well, NULL) == 0, "no thread");
    while (!atomic_load(&is_held_up)) {
    }
    return_a_copy();
}

static void name_a_return_beside_the_first(void) {
    char said[1024];
    doing = "a copied place while the first return is held up";
    check(is_ended_by(end_of(return_a_copy_beside_the_first, said, sizeof said), SIGABRT), "no abort");
    check(strncmp(said, "short.c:", 8) == 0, said);
}
#else
static void name_a_return_beside_the_first(void) {
}
#endif

/* Another end of the program than by a return, after one. */
static void refuse_elsewhere(void) {
    kdr_handle first = new_pool();
    kdr_place held = pull(&first);
    kdr_place_return(&first, &held);
    raise(SIGILL);
}

static void leave_other_ends(void) {
    char said[1024];
    doing = "a signal beside returns";
    check(is_ended_by(end_of(refuse_elsewhere, said, sizeof said), SIGILL), "the program doesn't end by it");
    check(said[0] == 0, said);
}

static void end_by_own_handler(int sent) {
    (void)sent;
    _exit(OWN_END);
}

static void return_a_copy_with_a_handler(void) {
    signal(SIGILL, end_by_own_handler);
    signal(SIGTRAP, end_by_own_handler);
    return_a_copy();
}

static void leave_own_handlers(void) {
    char said[1024];
    doing = "a handler of the program's own";
    int status = end_of(return_a_copy_with_a_handler, said, sizeof said);
    check(WIFEXITED(status) && WEXITSTATUS(status) == OWN_END && said[0] == 0, "it isn't called");
}

static void end_nowhere(void) {
    kdr_handle first = new_pool();
    kdr_place held = pull(&first);
    signal(SIGILL, SIG_IGN);
    signal(SIGTRAP, SIG_IGN);
    kdr_place_return(&first, &held);
    raise(SIGILL);
    raise(SIGTRAP);
}

static void leave_ignored_signals(void) {
    char said[1024];
    doing = "a signal that the program ignores";
    int status = end_of(end_nowhere, said, sizeof said);
    check(WIFEXITED(status) && WEXITSTATUS(status) == 0 && said[0] == 0, "the program ends by it");
}

/* On each processor both signals are listened to from the first return on. */
static void listen_from_the_first_return(void) {
    static const int sent[] = {SIGILL, SIGTRAP};
    struct sigaction now;
    doing = "the first return";
    kdr_handle first = new_pool();
    kdr_place places[] = {pull(&first), pull(&first)}, *next = places;
    check(signal(SIGILL, SIG_DFL) != SIG_ERR && signal(SIGTRAP, SIG_DFL) != SIG_ERR, "no signals");
    check(kdr_place_return(&first, next++) == KDR_DONE, "a place isn't returned");
    check(next == places + 1, "its words are worked out twice");
    for (int at = 0; at < 2; at++) {
        check(sigaction(sent[at], NULL, &now) == 0 && now.sa_handler != SIG_DFL, "no handler");
    }
    check(kdr_place_return(&first, next) == KDR_DONE, "a place isn't returned");
    check(kdr_pool_drop(&first) == KDR_DONE, "a handle isn't dropped");
}

/* Each answer of a return, by this handle and of this place. */
static void answer_alike(kdr_handle *handle, kdr_place place, kdr_status wanted) {
    kdr_place other = place;
    kdr_status plain = (kdr_place_return)(handle, &place);
    kdr_status debug = kdr_place_return(handle, &other);
    check(plain == wanted && debug == wanted, kdr_status_name(debug));
    check(kdr_place_number(&place) == kdr_place_number(&other), "it changes the place otherwise");
}

static void compare_answers(void) {
    doing = "an answer";
    kdr_handle first = new_pool(), none = KDR_HANDLE_EMPTY, another = new_pool();
    kdr_place held = pull(&first), empty = KDR_PLACE_EMPTY, past = held;
    past.after = ITEMS + 1;
    answer_alike(&first, empty, KDR_HOLDS_NONE);
    answer_alike(&none, empty, KDR_NO_POOL);
    answer_alike(&none, held, KDR_NO_POOL);
    answer_alike(&another, held, KDR_OTHER_POOL);
    answer_alike(&first, past, KDR_NO_SUCH_PLACE);
    check(kdr_place_return(&first, &held) == KDR_DONE && kdr_place_number(&held) == KDR_NO_PLACE, "a place isn't returned");
    check(kdr_pool_drop(&first) == KDR_DONE && kdr_pool_drop(&another) == KDR_DONE, "a handle isn't dropped");
}

/* Each answer of a return to a cache. It may have a place of another pool under the number of one that it keeps. */
static void keep_alike(kdr_cache *cache, kdr_place place, kdr_status wanted) {
    kdr_place other = place;
    kdr_status plain = (kdr_cache_return)(cache, &place);
    kdr_status debug = kdr_cache_return(cache, &other);
    check(plain == wanted && debug == wanted, kdr_status_name(debug));
    check(kdr_place_number(&place) == kdr_place_number(&other), "it changes the place otherwise");
}

static void compare_cache_answers(void) {
    doing = "an answer of a cache";
    kdr_handle first = new_pool(), another = new_pool();
    kdr_cache cache = KDR_CACHE_EMPTY, none = KDR_CACHE_EMPTY;
    check(kdr_cache_new(&first, 2, 0, &cache) == KDR_DONE, "no cache");
    kdr_place held = pull(&first), kept = pull(&first), of_other = pull(&another), empty = KDR_PLACE_EMPTY, past = held;
    past.after = ITEMS + 1;
    of_other.after = kept.after;
    check(kdr_cache_return(&cache, &kept) == KDR_DONE && kdr_place_number(&kept) == KDR_NO_PLACE, "a place isn't kept");
    keep_alike(&cache, empty, KDR_HOLDS_NONE);
    keep_alike(&none, empty, KDR_NO_POOL);
    keep_alike(&none, held, KDR_NO_POOL);
    keep_alike(&cache, of_other, KDR_OTHER_POOL);
    keep_alike(&cache, past, KDR_NO_SUCH_PLACE);
    check(kdr_cache_return(&cache, &held) == KDR_DONE && kdr_place_number(&held) == KDR_NO_PLACE, "a place isn't kept");
    check(kdr_cache_drop(&cache) == KDR_DONE && kdr_pool_drop(&first) == KDR_DONE && kdr_pool_drop(&another) == KDR_DONE, "no end");
}

/* The children come first: in each of them a return is the program's first one. */
int main(void) {
    name_the_return();
    name_the_cache_return();
    cut_the_message();
    name_the_threads_return();
    name_a_return_beside_the_first();
    leave_other_ends();
    leave_own_handlers();
    leave_ignored_signals();
    listen_from_the_first_return();
    compare_answers();
    compare_cache_answers();
    puts("each return that went wrong was named");
    return 0;
}
