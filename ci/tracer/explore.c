/* Stops a thread after each instruction of its call, or makes every schedule of two threads with so many changes between them.
 *
 *     explore PLACES stops PROGRAM KIND FIRST turns
 *     explore PLACES CHANGES PROGRAM KIND FIRST SECOND
 *
 * PLACES are the offsets in the program's file where calls begin, by commas. The last line tells what was done. The status is 1 if
 * something was wrong, 3 if a thread was held up, and 2 if it could not be tried. */
#define _POSIX_C_SOURCE 200809L
#include "judge.h"
#include "tracee.h"

#include <stdio.h>
#include <stdlib.h>
#include <string.h>
#include <time.h>

enum { MOST_CALLS = 64, MOST_INSTRUCTIONS = 50000 };
static const char *const NAMES[] = {"pull", "return", "turn", "turns"};
/* How long 200 turns may take while the other thread is stopped. They take a millisecond. */
static const double SECONDS = 5;

static enum call calls[THREADS];
static size_t schedules, wrong, refused;
static bool has_round, is_schedule;
static enum order last_order;
static char last_schedule[128];

static double now(void) {
    struct timespec time;
    clock_gettime(CLOCK_MONOTONIC, &time);
    return (double)time.tv_sec + (double)time.tv_nsec / 1e9;
}

static void end_with(int status) {
    fflush(stdout);
    tracee_kill();
    exit(status);
}

static void held_up(int who, size_t place) {
    printf("HELD UP: the other thread waits while one is stopped after instruction %zu of a %s\n", place, NAMES[calls[who]]);
    end_with(3);
}

/* Judges the round before, whose line the program has printed by now. */
static void judge_last(void) {
    if (!has_round) return;
    const char *line = tracee_line();
    if (line == NULL) printf("WRONG: the program ended\n"), end_with(1);
    refused += is_schedule && judge_refused(line);
    if (judge_round(line, calls[FIRST], calls[SECOND], last_order)) return;
    if (wrong++ == 0) printf("WRONG: %s: %s\n", last_schedule, line);
}

/* Begins a round. The line of the last one is there once both threads stand at their calls. */
static void begin(void) {
    if (!tracee_begin()) printf("tracer: the threads don't come to their calls\n"), end_with(2);
    if (!has_round && !judge_state(tracee_line())) printf("tracer: the program tells no state\n"), end_with(2);
    judge_last();
    has_round = true;
}

/* Ends a schedule: both calls are through. */
static void end(enum order order) {
    last_order = order;
    is_schedule = true;
    schedules++;
    tracee_release();
}

/* The order in which the calls were made, if this thread began and made so many instructions before the other made so many. */
static enum order order_of(int starter, bool is_through, size_t before, bool other_is_through) {
    if (is_through) return starter == FIRST ? FIRST_BEFORE : SECOND_BEFORE;
    if (before == 0 && other_is_through) return starter == FIRST ? SECOND_BEFORE : FIRST_BEFORE;
    return BESIDE;
}

/* The instructions of a thread's call, made alone. */
static struct path alone(int who) {
    struct path path = {0};
    begin();
    if (tracee_record(who, &path, MOST_INSTRUCTIONS) != AT_END) held_up(!who, 0);
    if (tracee_finish(!who, SECONDS) != AT_END) held_up(who, path.length);
    snprintf(last_schedule, sizeof last_schedule, "one call after the other");
    end(who == FIRST ? FIRST_BEFORE : SECOND_BEFORE);
    is_schedule = false;
    schedules--;
    return path;
}

/* One thread is stopped after each of its instructions, and the other makes its turns. */
static void stop_at_each(void) {
    struct path path = alone(FIRST);
    for (size_t place = 0; place <= path.length; place++) {
        begin();
        tracee_follow(FIRST, &path, 0, place);
        if (tracee_finish(SECOND, SECONDS) != AT_END) held_up(FIRST, place);
        if (tracee_finish(FIRST, SECONDS) != AT_END) held_up(SECOND, 0);
        snprintf(last_schedule, sizeof last_schedule, "stopped after %zu", place);
        end(BESIDE);
    }
    begin();
    printf("%zu stops, at each of which the other made 200 turns, %zu strayed\n", path.length, tracee_strayed());
    end_with(wrong > 0 || tracee_strayed() > 0);
}

/* The rest of a schedule: both calls run to their ends, this one first. */
static void run_out(int who) {
    if (tracee_finish(who, SECONDS) != AT_END) held_up(!who, 0);
    if (tracee_finish(!who, SECONDS) != AT_END) held_up(who, 0);
}

/* One change: a thread stops after so many instructions, the other runs to its end, and then the first. With two changes the other stops
 * after each number of its instructions too. */
struct exploration {
    int starter;
    size_t changes;
    struct path own;
};

/* Takes the starter to where it stops first. Whether its call is through. */
static bool start(const struct exploration *it, size_t before) {
    begin();
    return tracee_follow(it->starter, &it->own, 0, before) == AT_END;
}

/* A schedule of one change. The other thread's instructions, from where the starter stops until its call is through: none if no more
 * changes are to be made. */
static struct path other_from(const struct exploration *it, size_t before) {
    struct path path = {0};
    bool is_through = start(it, before);
    enum reached reached = it->changes == 1 ? tracee_finish(!it->starter, SECONDS) : tracee_record(!it->starter, &path, MOST_INSTRUCTIONS);
    if (reached != AT_END) held_up(it->starter, before);
    run_out(it->starter);
    snprintf(last_schedule, sizeof last_schedule, "%s thread %zu, the other to its end", it->starter == FIRST ? "first" : "second", before);
    end(order_of(it->starter, is_through, before, true));
    return path;
}

/* The schedules of three changes that stop both threads at these places. */
static void change_again(const struct exploration *it, size_t before, const struct path *other, size_t between) {
    struct path again = {0};
    for (size_t more = 0; more == 0 || more < again.length; more++) {
        start(it, before);
        tracee_follow(!it->starter, other, 0, between);
        if (more == 0) {
            if (tracee_record(it->starter, &again, MOST_INSTRUCTIONS) != AT_END) held_up(!it->starter, between);
            run_out(!it->starter);
        } else {
            tracee_follow(it->starter, &again, 0, more);
            run_out(!it->starter);
        }
        snprintf(last_schedule, sizeof last_schedule, "%s thread %zu, the other %zu, the first %zu",
                 it->starter == FIRST ? "first" : "second", before, between, more);
        end(BESIDE);
    }
    free(again.at);
}

/* The schedules of two changes whose first is at this place. */
static void change_back(const struct exploration *it, size_t before, const struct path *other) {
    for (size_t between = 1; between < other->length; between++) {
        if (it->changes == 3) {
            change_again(it, before, other, between);
            continue;
        }
        start(it, before);
        tracee_follow(!it->starter, other, 0, between);
        run_out(it->starter);
        snprintf(last_schedule, sizeof last_schedule, "%s thread %zu, the other %zu", it->starter == FIRST ? "first" : "second", before, between);
        end(BESIDE);
    }
}

static void explore(int starter, size_t changes) {
    struct exploration it = {starter, changes, alone(starter)};
    for (size_t before = 0; before <= it.own.length; before++) {
        struct path other = other_from(&it, before);
        if (changes > 1 && before > 0 && before < it.own.length) change_back(&it, before, &other);
        free(other.at);
    }
    printf("%zu ", it.own.length);
    free(it.own.at);
}

static enum call call_named(const char *name) {
    for (int call = PULL; call <= TURNS; call++)
        if (strcmp(NAMES[call], name) == 0) return (enum call)call;
    printf("explore: %s is no call\n", name);
    exit(2);
}

static size_t read_places(char *words, uint64_t *places) {
    size_t count = 0;
    for (char *word = strtok(words, ","); word != NULL && count < MOST_CALLS; word = strtok(NULL, ",")) places[count++] = strtoull(word, NULL, 16);
    return count;
}

int main(int argc, char **argv) {
    if (argc != 7) {
        printf("usage: explore PLACES stops|CHANGES PROGRAM KIND FIRST SECOND\n");
        return 2;
    }
    uint64_t places[MOST_CALLS];
    size_t count = read_places(argv[1], places);
    calls[FIRST] = call_named(argv[5]);
    calls[SECOND] = call_named(argv[6]);
    double from = now();
    tracee_start((char *[]){argv[3], argv[4], argv[5], argv[6], "4294967295", NULL}, places, count);
    if (strcmp(argv[2], "stops") == 0) stop_at_each();
    explore(FIRST, strtoul(argv[2], NULL, 10));
    if (calls[FIRST] != calls[SECOND]) explore(SECOND, strtoul(argv[2], NULL, 10));
    begin();
    printf("instructions, %zu schedules, %zu wrong, %zu with a refusal, %zu strayed, %.1f s\n", schedules, wrong, refused, tracee_strayed(),
           now() - from);
    end_with(wrong > 0);
}
