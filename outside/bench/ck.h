/* Concurrency Kit's stack and ring for C++, which doesn't read its headers. */
#ifndef CK_FOR_THE_BENCH_H
#define CK_FOR_THE_BENCH_H
#include <stdbool.h>
#include <stddef.h>

#ifdef __cplusplus
extern "C" {
#endif

void *ck_stack_of(size_t items);
void ck_stack_end(void *stack);
void *ck_stack_pull(void *stack);
void ck_stack_give_back(void *stack, void *held);
size_t ck_stack_number(void *stack, void *held);

void *ck_ring_of(size_t items, void *first, size_t size);
void ck_ring_end(void *ring);
bool ck_ring_pull(void *ring, void **held);
bool ck_ring_give_back(void *ring, void *held);

#ifdef __cplusplus
}
#endif
#endif
