/* A program of two threads under a tracer: the one that the program starts with, and one that it starts for each round. Each makes one
 * call a round, and stops where the call begins and ends. One thread runs at a time. */
#ifndef TRACEE_H
#define TRACEE_H

#include <stdbool.h>
#include <stddef.h>
#include <stdint.h>
#include <sys/types.h>

enum { FIRST, SECOND, THREADS };

/* How a thread's run ended. */
enum reached { AT_PLACE, AT_END, TOO_LATE };

/* The instructions of a call in the order in which they ran, but for those of the C library. */
struct path {
    uint64_t *at;
    size_t length, room;
};

/* Starts the program, stopped at its first instruction. The calls begin at these offsets of its file. */
void tracee_start(char **words, const uint64_t *calls, size_t count);
/* Brings both threads to where their calls begin. False if the program has ended. */
bool tracee_begin(void);
/* Lets a thread run to the end of its call, for so many seconds at most. */
enum reached tracee_finish(int who, double seconds);
/* The same instruction by instruction, which it adds to the path. TOO_LATE after so many instructions. */
enum reached tracee_record(int who, struct path *path, size_t most);
/* Takes a thread so many instructions along a path, from the one at which it stands. AT_END if the path has no more. It may stray from
 * the path, and is left where it is then. */
enum reached tracee_follow(int who, const struct path *path, size_t from, size_t to);
/* Lets both threads go on, each behind its call. */
void tracee_release(void);
/* The next line that the program prints, without its end. Null if it has ended. */
const char *tracee_line(void);
/* How often a thread strayed from a path that it took before. */
size_t tracee_strayed(void);
void tracee_kill(void);

#endif
