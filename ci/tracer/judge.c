#define _POSIX_C_SOURCE 200809L
#include "judge.h"

#include <stdio.h>
#include <stdlib.h>
#include <string.h>

enum { MOST_ITEMS = 256, PAGE_ITEMS = 32, MOST_OPERATIONS = 2, NONE = -1 };

struct item {
    int number, value;
};

/* A pool between two operations: which items are free, and the value that each has. */
struct state {
    bool is_free[MOST_ITEMS];
    int values[MOST_ITEMS];
    /* The number of the first item that isn't made yet. */
    int further;
};

/* A pull, with the item that it took or none, or a return. */
struct operation {
    bool is_return;
    struct item item;
};

struct operations {
    struct operation list[MOST_OPERATIONS];
    int length;
};

/* What a round's line tells. */
struct round {
    struct item held[2], pulled[2];
    int free_behind;
    struct item behind[MOST_ITEMS];
};

static struct state opening;
static int free_at_first;

static bool read_item(const char *word, struct item *item) {
    item->number = NONE;
    if (strcmp(word, "none") == 0) return true;
    return sscanf(word, "%d:%d", &item->number, &item->value) == 2 && item->number >= 0 && item->number < MOST_ITEMS;
}

bool judge_state(const char *line) {
    memset(&opening, 0, sizeof opening);
    opening.further = MOST_ITEMS;
    free_at_first = 0;
    char *copy = strdup(line), *word = strtok(copy, " ");
    bool is_good = word != NULL && strcmp(word, "free") == 0;
    while (is_good && (word = strtok(NULL, " ")) != NULL) {
        if (strcmp(word, "further") == 0) {
            word = strtok(NULL, " ");
            is_good = word != NULL && (opening.further = atoi(word)) > 0;
            continue;
        }
        int number = atoi(word);
        is_good = number >= 0 && number < MOST_ITEMS;
        if (is_good) opening.is_free[number] = true, opening.values[number] = number, free_at_first++;
    }
    free(copy);
    return is_good;
}

static bool read_round(const char *line, struct round *round) {
    char words[8][32];
    int length = 0;
    round->free_behind = 0;
    if (sscanf(line, "%31s %31s %31s %31s %31s %31s %31s %31s rest%n", words[0], words[1], words[2], words[3], words[4], words[5], words[6],
               words[7], &length) != 8 ||
        length == 0)
        return false;
    bool is_good = true;
    for (int who = 0; who < 2; who++)
        is_good &= read_item(words[4 * who + 1], &round->held[who]) && read_item(words[4 * who + 3], &round->pulled[who]);
    struct item item;
    int more = 0;
    for (line += length; is_good && sscanf(line, " %d:%d%n", &item.number, &item.value, &more) == 2; line += more) {
        is_good = item.number >= 0 && item.number < MOST_ITEMS && round->free_behind < MOST_ITEMS;
        if (is_good) round->behind[round->free_behind++] = item;
    }
    return is_good;
}

/* The operations of a call. False if it held nothing though it had to. */
static bool operations_of(enum call call, struct item held, struct item pulled, int added, struct operations *operations) {
    operations->length = 0;
    if (call == PULL || call == TURN) operations->list[operations->length++] = (struct operation){false, pulled};
    if (call == TURN && pulled.number != NONE)
        operations->list[operations->length++] = (struct operation){true, {pulled.number, pulled.number + added}};
    if (call == RETURN) operations->list[operations->length++] = (struct operation){true, held};
    return call != RETURN || held.number != NONE;
}

static bool has_free(const struct state *state) {
    for (int number = 0; number < MOST_ITEMS; number++)
        if (state->is_free[number]) return true;
    return false;
}

/* Makes a page of items, if the pool has none free and may grow. */
static void grow(struct state *state) {
    if (state->further == MOST_ITEMS || has_free(state)) return;
    for (int number = state->further; number < state->further + PAGE_ITEMS; number++) state->is_free[number] = true, state->values[number] = 0;
    state->further += PAGE_ITEMS;
}

/* Does an operation. False if the pool can't have done it so. */
static bool does(struct state *state, const struct operation *operation) {
    struct item item = operation->item;
    if (operation->is_return) {
        bool was_held = !state->is_free[item.number];
        state->is_free[item.number] = true;
        state->values[item.number] = item.value;
        return was_held;
    }
    grow(state);
    if (item.number == NONE) return !has_free(state);
    bool was_free = state->is_free[item.number] && state->values[item.number] == item.value;
    state->is_free[item.number] = false;
    return was_free;
}

/* Whether the items that are free behind the calls are those, with the values that were left there, and none is lost. What a pull took
 * is free again. */
static bool ends_so(struct state state, const struct round *round) {
    for (int who = 0; who < 2; who++)
        if (round->pulled[who].number != NONE) state.is_free[round->pulled[who].number] = true;
    for (int i = 0; i < round->free_behind; i++)
        if (!does(&state, &(struct operation){false, round->behind[i]})) return false;
    return round->free_behind == free_at_first || !has_free(&state);
}

/* Whether the operations can be put into an order: each thread's own stay in theirs. */
static bool can_be_ordered(struct state state, const struct operations *first, int done, const struct operations *second, int done_second,
                           enum order order, const struct round *round) {
    if (done == first->length && done_second == second->length) return ends_so(state, round);
    struct state other = state;
    bool may_first = done < first->length && (order != SECOND_BEFORE || done_second == second->length);
    bool may_second = done_second < second->length && (order != FIRST_BEFORE || done == first->length);
    if (may_first && does(&state, &first->list[done]) && can_be_ordered(state, first, done + 1, second, done_second, order, round)) return true;
    return may_second && does(&other, &second->list[done_second]) &&
           can_be_ordered(other, first, done, second, done_second + 1, order, round);
}

/* Whether the items that are free behind the calls are different ones. It is what is judged of many turns. */
static bool are_different(const struct round *round) {
    bool is_there[MOST_ITEMS] = {false};
    for (int i = 0; i < round->free_behind; i++) {
        if (is_there[round->behind[i].number]) return false;
        is_there[round->behind[i].number] = true;
    }
    return true;
}

bool judge_round(const char *line, enum call first, enum call second, enum order order) {
    enum { ADDED = 100 };
    struct round round;
    struct operations of_first, of_second;
    if (!read_round(line, &round)) return false;
    if (second == TURNS) return are_different(&round);
    if (!operations_of(first, round.held[0], round.pulled[0], ADDED, &of_first)) return false;
    if (!operations_of(second, round.held[1], round.pulled[1], ADDED, &of_second)) return false;
    struct state state = opening;
    for (int who = 0; who < 2; who++)
        if (round.held[who].number != NONE) state.is_free[round.held[who].number] = false;
    return can_be_ordered(state, &of_first, 0, &of_second, 0, order, &round);
}

bool judge_refused(const char *line) {
    return strstr(line, "held none pulled none") != NULL;
}
