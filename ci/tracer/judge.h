/* Judges what two threads tell of their calls: whether one thread that does one operation after another could have seen the same. */
#ifndef JUDGE_H
#define JUDGE_H

#include <stdbool.h>

enum call { PULL, RETURN, TURN, TURNS };

/* In which order the calls were made: one before the other, or at the same time. */
enum order { FIRST_BEFORE, SECOND_BEFORE, BESIDE };

/* Reads the line that tells the pool's state before the calls. False if it isn't one. */
bool judge_state(const char *line);
/* Whether the line of a round tells of two calls that can be put into an order. */
bool judge_round(const char *line, enum call first, enum call second, enum order order);
/* Whether it tells of a pull that took nothing. */
bool judge_refused(const char *line);

#endif
