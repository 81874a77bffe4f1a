#include "ck.h"
#include <ck_ring.h>
#include <ck_stack.h>
#include <stdlib.h>

struct node {
    _Alignas(64) ck_stack_entry_t entry;
};

struct stack {
    _Alignas(64) ck_stack_t list;
    _Alignas(64) struct node *nodes;
};

static void *lines(size_t bytes) {
    void *made = aligned_alloc(64, (bytes + 63) / 64 * 64);
    if (made == NULL) {
        abort();
    }
    return made;
}

void *ck_stack_of(size_t items) {
    struct stack *stack = lines(sizeof *stack);
    ck_stack_init(&stack->list);
    stack->nodes = lines(items * sizeof *stack->nodes);
    for (size_t at = 0; at < items; at++) {
        ck_stack_push_mpmc(&stack->list, &stack->nodes[at].entry);
    }
    return stack;
}

void ck_stack_end(void *of) {
    struct stack *stack = of;
    free(stack->nodes);
    free(stack);
}

void *ck_stack_pull(void *of) {
    struct stack *stack = of;
    return ck_stack_pop_mpmc(&stack->list);
}

void ck_stack_give_back(void *of, void *held) {
    struct stack *stack = of;
    ck_stack_push_mpmc(&stack->list, held);
}

size_t ck_stack_number(void *of, void *held) {
    struct stack *stack = of;
    return (size_t)((struct node *)held - stack->nodes);
}

/* A ring of Concurrency Kit has a power of two of slots, one of which stays free. */
struct ring {
    ck_ring_t ring;
    ck_ring_buffer_t *slots;
};

void *ck_ring_of(size_t items, void *first, size_t size) {
    struct ring *ring = lines(sizeof *ring);
    unsigned slots = 1;
    while (slots <= items) {
        slots *= 2;
    }
    ring->slots = lines(slots * sizeof *ring->slots);
    ck_ring_init(&ring->ring, slots);
    for (size_t at = 0; at < items; at++) {
        ck_ring_enqueue_mpmc(&ring->ring, ring->slots, (char *)first + at * size);
    }
    return ring;
}

void ck_ring_end(void *of) {
    struct ring *ring = of;
    free(ring->slots);
    free(ring);
}

bool ck_ring_pull(void *of, void **held) {
    struct ring *ring = of;
    return ck_ring_dequeue_mpmc(&ring->ring, ring->slots, held);
}

bool ck_ring_give_back(void *of, void *held) {
    struct ring *ring = of;
    return ck_ring_enqueue_mpmc(&ring->ring, ring->slots, held);
}
