#define _GNU_SOURCE
#include "tracee.h"

#include <errno.h>
#include <fcntl.h>
#include <signal.h>
#include <stdio.h>
#include <stdlib.h>
#include <string.h>
#include <sys/personality.h>
#include <sys/ptrace.h>
#include <sys/time.h>
#include <sys/user.h>
#include <sys/wait.h>
#include <unistd.h>

/* What a thread is stopped for. */
enum stop { BREAKPOINT, STEPPED, CLONED, STARTED, ENDED, NO_STOP };

struct thread {
    pid_t id;
    /* Where its call returns to, and where its stack is then. */
    uint64_t end, stack;
};

enum { MOST_CALLS = 64, LINE = 4096 };
/* How long the program may take between two calls. */
static const double SECONDS = 20;

static struct thread threads[THREADS];
static uint64_t calls[MOST_CALLS], text_start, text_end, base;
static size_t call_count, strayed;
static long saved[MOST_CALLS];
static int output;
static char lines[1 << 16];
static size_t lines_end;
static volatile sig_atomic_t late;

static void fail(const char *what) {
    printf("tracer: %s: %s\n", what, strerror(errno));
    tracee_kill();
    exit(2);
}

static void program_is_gone(const char *why) {
    printf("WRONG: the program ended: %s\n", why);
    exit(1);
}

static long ask(int request, pid_t id, void *address, void *data) {
    errno = 0;
    long answer = ptrace(request, id, address, data);
    if (errno != 0) fail("ptrace");
    return answer;
}

static struct user_regs_struct registers_of(pid_t id) {
    struct user_regs_struct registers;
    ask(PTRACE_GETREGS, id, NULL, &registers);
    return registers;
}

static void set_place(pid_t id, struct user_regs_struct *registers, uint64_t place) {
    registers->rip = place;
    ask(PTRACE_SETREGS, id, NULL, registers);
}

/* Breaks at a place. What stood there. */
static long plant(uint64_t place) {
    pid_t id = threads[SECOND].id;
    long word = ask(PTRACE_PEEKTEXT, id, (void *)place, NULL);
    ask(PTRACE_POKETEXT, id, (void *)place, (void *)((word & ~0xffL) | 0xcc));
    return word;
}

static void restore(uint64_t place, long word) { ask(PTRACE_POKETEXT, threads[SECOND].id, (void *)place, (void *)word); }

static void ring(int number) {
    (void)number;
    late = 1;
}

static void set_alarm(double seconds) {
    late = 0;
    struct itimerval timer = {.it_value = {.tv_sec = (time_t)seconds, .tv_usec = (suseconds_t)((seconds - (time_t)seconds) * 1e6)}};
    setitimer(ITIMER_REAL, &timer, NULL);
}

/* Why a thread that waitpid told of has stopped. */
static enum stop reason(pid_t id, int status) {
    if (WIFSIGNALED(status)) program_is_gone(strsignal(WTERMSIG(status)));
    if (WIFEXITED(status)) {
        if (id == threads[SECOND].id) program_is_gone("it exits");
        return ENDED;
    }
    if (status >> 8 == (SIGTRAP | (PTRACE_EVENT_CLONE << 8))) return CLONED;
    if (status >> 8 == (SIGTRAP | (PTRACE_EVENT_EXIT << 8))) return ENDED;
    if (WSTOPSIG(status) == SIGSTOP) return STARTED;
    if (WSTOPSIG(status) != SIGTRAP) program_is_gone(strsignal(WSTOPSIG(status)));
    return BREAKPOINT;
}

/* Waits for this thread, or for any if it is -1. NO_STOP if the alarm rang. */
static enum stop wait_for(pid_t id, pid_t *who) {
    int status;
    pid_t found;
    while ((found = waitpid(id, &status, __WALL)) < 0) {
        if (errno != EINTR) fail("waitpid");
        if (late) return NO_STOP;
    }
    if (who != NULL) *who = found;
    return reason(found, status);
}

/* The folders where the program's own code lies. */
static void read_map(const char *program) {
    char name[64], line[LINE], *path = realpath(program, NULL);
    snprintf(name, sizeof name, "/proc/%d/maps", threads[SECOND].id);
    FILE *maps = fopen(name, "r");
    if (maps == NULL || path == NULL) fail(program);
    while (fgets(line, sizeof line, maps) != NULL) {
        unsigned long start, end, offset;
        char access[8];
        if (sscanf(line, "%lx-%lx %7s %lx", &start, &end, access, &offset) != 4 || strstr(line, path) == NULL) continue;
        if (offset == 0 && base == 0) base = start;
        if (access[2] == 'x') text_start = start, text_end = end;
    }
    fclose(maps);
    free(path);
}

static void run_program(char **words, int pipe_end) {
    if (personality(ADDR_NO_RANDOMIZE) < 0 || dup2(pipe_end, STDOUT_FILENO) < 0) _exit(127);
    if (ptrace(PTRACE_TRACEME, 0, NULL, NULL) != 0) _exit(126);
    execv(words[0], words);
    _exit(127);
}

void tracee_start(char **words, const uint64_t *offsets, size_t count) {
    int ends[2], status;
    struct sigaction action = {.sa_handler = ring};
    sigaction(SIGALRM, &action, NULL);
    if (pipe2(ends, O_CLOEXEC) != 0) fail("pipe");
    pid_t id = threads[SECOND].id = fork();
    if (id == 0) run_program(words, ends[1]);
    close(ends[1]);
    output = ends[0];
    if (waitpid(id, &status, __WALL) != id || !WIFSTOPPED(status)) {
        printf("tracer: the program can't be traced\n");
        exit(2);
    }
    ask(PTRACE_SETOPTIONS, id, NULL, (void *)(long)(PTRACE_O_TRACECLONE | PTRACE_O_EXITKILL));
    read_map(words[0]);
    for (call_count = 0; call_count < count; call_count++) calls[call_count] = base + offsets[call_count];
}

void tracee_kill(void) {
    if (threads[SECOND].id > 0) kill(threads[SECOND].id, SIGKILL);
}

static bool is_call(uint64_t place) {
    for (size_t i = 0; i < call_count; i++)
        if (calls[i] == place) return true;
    return false;
}

/* Notes where a thread's call ends, if it stands at a call's first instruction. */
static bool notes_call(int who) {
    struct user_regs_struct registers = registers_of(threads[who].id);
    if (!is_call(registers.rip - 1)) return false;
    set_place(threads[who].id, &registers, registers.rip - 1);
    threads[who].end = (uint64_t)ask(PTRACE_PEEKDATA, threads[who].id, (void *)registers.rsp, NULL);
    threads[who].stack = registers.rsp + 8;
    return true;
}

/* Runs the thread that the program started with to its call, and waits until it has started the other. The end of the thread of the
 * round before may be told late. */
static bool second_begins(void) {
    bool is_started = false, is_there = false;
    while (!is_started || !is_there) {
        pid_t who = 0;
        enum stop stop = wait_for(-1, &who);
        if (stop == NO_STOP) return false;
        if (stop == CLONED) {
            ask(PTRACE_CONT, who, NULL, NULL);
        } else if (who == threads[SECOND].id) {
            is_there = notes_call(SECOND);
            if (!is_there) return false;
        } else if (stop == STARTED) {
            threads[FIRST].id = who;
            is_started = true;
        }
    }
    return true;
}

bool tracee_begin(void) {
    for (size_t i = 0; i < call_count; i++) saved[i] = plant(calls[i]);
    set_alarm(SECONDS);
    ask(PTRACE_CONT, threads[SECOND].id, NULL, NULL);
    bool begun = second_begins();
    if (begun) {
        ask(PTRACE_CONT, threads[FIRST].id, NULL, NULL);
        begun = wait_for(threads[FIRST].id, NULL) == BREAKPOINT && notes_call(FIRST);
    }
    set_alarm(0);
    for (size_t i = 0; i < call_count; i++) restore(calls[i], saved[i]);
    return begun;
}

/* Lets a thread run to a place, or to the end of its call if that comes first. */
static enum reached run_to(int who, uint64_t place, double seconds) {
    struct thread *thread = &threads[who];
    long at_place = plant(place), at_end = place == thread->end ? 0 : plant(thread->end);
    set_alarm(seconds);
    ask(PTRACE_CONT, thread->id, NULL, NULL);
    enum stop stop = wait_for(thread->id, NULL);
    set_alarm(0);
    if (stop == NO_STOP) return TOO_LATE;
    struct user_regs_struct registers = registers_of(thread->id);
    set_place(thread->id, &registers, registers.rip - 1);
    if (place != thread->end) restore(thread->end, at_end);
    restore(place, at_place);
    return registers.rip == thread->end ? AT_END : AT_PLACE;
}

enum reached tracee_finish(int who, double seconds) {
    if (registers_of(threads[who].id).rip == threads[who].end) return AT_END;
    return run_to(who, threads[who].end, seconds);
}

/* One instruction of the program's own code, and those of the C library behind it. */
static enum reached step(int who, uint64_t *place) {
    struct thread *thread = &threads[who];
    struct user_regs_struct registers;
    do {
        ask(PTRACE_SINGLESTEP, thread->id, NULL, NULL);
        if (wait_for(thread->id, NULL) == NO_STOP) return TOO_LATE;
        registers = registers_of(thread->id);
        if (registers.rip == thread->end && registers.rsp >= thread->stack) return AT_END;
    } while (registers.rip < text_start || registers.rip >= text_end);
    *place = registers.rip;
    return AT_PLACE;
}

static void append(struct path *path, uint64_t place) {
    if (path->length == path->room) {
        path->room = path->room * 2 + 256;
        path->at = realloc(path->at, path->room * sizeof *path->at);
        if (path->at == NULL) fail("memory");
    }
    path->at[path->length++] = place;
}

enum reached tracee_record(int who, struct path *path, size_t most) {
    uint64_t place = registers_of(threads[who].id).rip;
    enum reached reached = place == threads[who].end ? AT_END : AT_PLACE;
    set_alarm(SECONDS);
    while (reached == AT_PLACE && path->length < most) {
        append(path, place);
        reached = step(who, &place);
    }
    set_alarm(0);
    return reached == AT_PLACE ? TOO_LATE : reached;
}

/* The last place of a path, at most this one, to which the thread comes there for the first time. */
static size_t anchor(const struct path *path, size_t from, size_t to) {
    for (size_t place = to; place > from; place--) {
        size_t earlier = from;
        while (path->at[earlier] != path->at[place]) earlier++;
        if (earlier == place) return place;
    }
    return from;
}

enum reached tracee_follow(int who, const struct path *path, size_t from, size_t to) {
    if (to >= path->length) return tracee_finish(who, SECONDS);
    size_t place = anchor(path, from, to);
    enum reached reached = AT_PLACE;
    uint64_t at = path->at[from];
    if (place > from) {
        reached = run_to(who, path->at[place], SECONDS);
        at = path->at[place];
    }
    for (; place < to && reached == AT_PLACE; place++) reached = step(who, &at);
    if (reached != AT_PLACE || at != path->at[to]) strayed++;
    return reached;
}

size_t tracee_strayed(void) { return strayed; }

void tracee_release(void) { ask(PTRACE_CONT, threads[FIRST].id, NULL, NULL); }

const char *tracee_line(void) {
    static char line[LINE];
    char *end;
    while ((end = memchr(lines, '\n', lines_end)) == NULL) {
        ssize_t more = read(output, lines + lines_end, sizeof lines - lines_end);
        if (more <= 0) return NULL;
        lines_end += (size_t)more;
    }
    size_t length = (size_t)(end - lines);
    if (length >= sizeof line) fail("a line is too long");
    memcpy(line, lines, length);
    line[length] = '\0';
    lines_end -= length + 1;
    memmove(lines, end + 1, lines_end);
    return line;
}
