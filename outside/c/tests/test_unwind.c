/* From each instruction of a call a debugger, a profiler or a handler of signals finds the way back to the caller. The calls run step
   by step. At each step an unwinder has to find this program's function, where its frame begins, and what its registers held. */
#include "kundratu_pool.h"
#include <signal.h>
#include <stdbool.h>
#include <stdint.h>
#include <stdio.h>
#include <stdlib.h>
#include <string.h>
#include <ucontext.h>
#include <unwind.h>

enum { ITEMS = 40, STEP_FLAG = 0x100, REGISTERS = 6, OWN_DEPTH = 3, LEAST_STEPS = 2000 };

/* The registers that a call keeps for its caller, by their numbers in DWARF: rbx, rbp, and r12 to r15. */
static const int kept[REGISTERS] = {3, 6, 12, 13, 14, 15};

/* The frame that makes the calls. It is the third, if it runs itself: first come this file's handler and the system's frame. */
struct frame {
    int depth;
    uintptr_t begin;
    uintptr_t registers[REGISTERS];
};

static void make_calls(int sent_around);
static struct frame before;
static bool is_within_call;
static long steps;

static void fail(const char *what) {
    printf("step %ld: %s\n", steps, what);
    fflush(stdout);
    _Exit(1);
}

static _Unwind_Reason_Code look(struct _Unwind_Context *context, void *data) {
    struct frame *found = data;
    found->depth++;
    if ((uintptr_t)_Unwind_FindEnclosingFunction((void *)_Unwind_GetIP(context)) != (uintptr_t)make_calls) {
        return _URC_NO_REASON;
    }
    found->begin = _Unwind_GetCFA(context);
    for (int at = 0; at < REGISTERS; at++) {
        found->registers[at] = _Unwind_GetGR(context, kept[at]);
    }
    return _URC_NORMAL_STOP;
}

/* The registers that the caller has at a call's first instruction are found at each further one. */
static void see_step(int sent) {
    struct frame found;
    (void)sent;
    memset(&found, 0, sizeof found);
    if (_Unwind_Backtrace(look, &found) != _URC_NO_REASON && found.begin == 0) {
        fail("no way leads back to the caller");
    }
    bool is_within = found.depth > OWN_DEPTH;
    found.depth = 0;
    if (is_within && is_within_call && memcmp(&found, &before, sizeof found) != 0) {
        fail("the caller's frame or its registers are lost");
    }
    before = found;
    is_within_call = is_within;
    steps += is_within;
}

/* What runs from here on runs step by step, or does so no longer. */
static void switch_steps(int sent, siginfo_t *what, void *context) {
    ucontext_t *running = context;
    (void)sent, (void)what;
    running->uc_mcontext.gregs[REG_EFL] ^= STEP_FLAG;
}

static void check(kdr_status status, kdr_status wanted) {
    if (status != wanted) {
        fail(kdr_status_name(status));
    }
}

static __attribute__((noinline)) void make_calls(int sent_around) {
    kdr_handle one = KDR_HANDLE_EMPTY, other = KDR_HANDLE_EMPTY;
    kdr_cache cache = KDR_CACHE_EMPTY;
    kdr_place places[ITEMS], more = KDR_PLACE_EMPTY;
    size_t number;
    raise(sent_around);
    check(kdr_pool_new(ITEMS, &one), KDR_DONE);
    check(kdr_pool_share(&one, &other), KDR_DONE);
    check(kdr_pool_pull(&one, &number), KDR_DONE);
    check(kdr_pool_pull_near(&other, 1, &number), KDR_DONE);
    check(kdr_pool_return(&one), KDR_DONE);
    check(kdr_pool_drop(&one), KDR_DONE);
    for (size_t at = 0; at < ITEMS - 1; at++) {
        places[at] = KDR_PLACE_EMPTY;
        check(kdr_place_pull(&other, at, &places[at]), KDR_DONE);
    }
    check(kdr_place_pull(&other, 0, &more), KDR_ALL_IN_USE);
    check(kdr_place_return(&other, &places[0]), KDR_DONE);
    check(kdr_cache_new(&other, 1, 0, &cache), KDR_DONE);
    check(kdr_cache_pull(&cache, &places[0]), KDR_DONE);
    check(kdr_cache_pull(&cache, &more), KDR_ALL_IN_USE);
    check(kdr_cache_return(&cache, &places[0]), KDR_DONE);
    check(kdr_cache_pull(&cache, &places[0]), KDR_DONE);
    check(kdr_cache_return(&cache, &places[0]), KDR_DONE);
    check(kdr_cache_return(&cache, &places[1]), KDR_DONE);
    check(kdr_cache_flush(&cache), KDR_DONE);
    check(kdr_debug_cache_return(&cache, &places[2], __FILE__, __LINE__), KDR_DONE);
    check(kdr_cache_drop(&cache), KDR_DONE);
    check(kdr_pool_drop(&other), KDR_DONE);
    raise(sent_around);
}

int main(void) {
    struct sigaction stepped, switched;
    memset(&stepped, 0, sizeof stepped);
    memset(&switched, 0, sizeof switched);
    stepped.sa_handler = see_step;
    switched.sa_sigaction = switch_steps;
    switched.sa_flags = SA_SIGINFO;
    if (sigaction(SIGTRAP, &stepped, NULL) != 0 || sigaction(SIGUSR1, &switched, NULL) != 0) {
        return 1;
    }
    make_calls(0);  /* once without steps, so that the loader has done its part */
    make_calls(SIGUSR1);
    if (steps < LEAST_STEPS) {
        printf("%ld steps, which are too few\n", steps);
        return 1;
    }
    puts("the way back is found at each step");
    return 0;
}
