/* Which order the pool's own atomic steps give, for ThreadSanitizer: the library isn't built with it. What was done at a place before
   its return comes before what is done there after its next pull. Two holders of one place at once are a race. */
#ifndef TEST_ORDER_H
#define TEST_ORDER_H

#if defined(__has_feature)
#if __has_feature(thread_sanitizer)
#define __SANITIZE_THREAD__ 1
#endif
#endif

#ifdef __SANITIZE_THREAD__
#include <sanitizer/tsan_interface.h>
#define COMES_AFTER_THE_RETURN(cell) __tsan_acquire(cell)
#define COMES_BEFORE_THE_PULL(cell) __tsan_release(cell)
#else
#define COMES_AFTER_THE_RETURN(cell) ((void)(cell))
#define COMES_BEFORE_THE_PULL(cell) ((void)(cell))
#endif

/* Windows has no alarm: who runs the tests there limits their time. */
#if defined(_WIN32)
#define alarm(seconds) ((void)(seconds))
#endif

#endif
