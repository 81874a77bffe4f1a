// What others have for the same work, as far as their headers are there.
#pragma once
#include "contender.hpp"
#include <dlfcn.h>
#include <memory>
#include <mutex>
#include <pthread.h>
#include <vector>

struct UnderMutex : Numbers {
    explicit UnderMutex(size_t count) {
        for (size_t at = 0; at < count; at++) {
            list.push_back(static_cast<Held>(at));
        }
    }
    bool pull(User &, Held &held) {
        std::lock_guard guard(lock);
        if (list.empty()) {
            return false;
        }
        held = list.back();
        list.pop_back();
        return true;
    }
    void give_back(User &, Held &held) {
        std::lock_guard guard(lock);
        list.push_back(held);
    }

private:
    std::mutex lock;
    std::vector<Held> list;
};

struct Malloc : Pointers {
    explicit Malloc(size_t) {}
    bool pull(User &, Held &held) { return (held = std::malloc(sizeof(Item))) != nullptr; }
    void give_back(User &, Held &held) { std::free(held); }
};

// A program that is linked with mimalloc has its malloc. So the library is opened beside the C library's.
struct Mimalloc : Malloc {
    explicit Mimalloc(size_t count) : Malloc(count) {}
    static bool is_there() { return library() != nullptr; }
    bool pull(User &, Held &held) { return (held = take(sizeof(Item))) != nullptr; }
    void give_back(User &, Held &held) { put(held); }

private:
    static void *library() {
        static void *found = dlopen("libmimalloc.so.2", RTLD_NOW | RTLD_LOCAL);
        return found;
    }
    void *(*take)(size_t) = reinterpret_cast<void *(*)(size_t)>(dlsym(library(), "mi_malloc"));
    void (*put)(void *) = reinterpret_cast<void (*)(void *)>(dlsym(library(), "mi_free"));
};

#if __has_include(<boost/lockfree/stack.hpp>)
#define HAS_BOOST
#include <boost/lockfree/queue.hpp>
#include <boost/lockfree/stack.hpp>
template <template <typename...> class List>
struct Boost : Numbers {
    explicit Boost(size_t count) : list(count) {
        for (size_t at = 0; at < count; at++) {
            must(list.bounded_push(static_cast<Held>(at)));
        }
    }
    bool pull(User &, Held &held) { return list.pop(held); }
    void give_back(User &, Held &held) { must(list.bounded_push(held)); }

private:
    List<Held, boost::lockfree::fixed_sized<true>> list;
};
using BoostStack = Boost<boost::lockfree::stack>;
using BoostQueue = Boost<boost::lockfree::queue>;
#endif

#if __has_include(<ck_stack.h>)
#define HAS_CK
#include "ck.h"
struct CkStack : Pointers {
    explicit CkStack(size_t count) : stack(ck_stack_of(count)) {}
    ~CkStack() { ck_stack_end(stack); }
    bool pull(User &, Held &held) { return (held = ck_stack_pull(stack)) != nullptr; }
    void give_back(User &, Held &held) { ck_stack_give_back(stack, held); }
    Item &item(const Held &held) { return items[ck_stack_number(stack, held)]; }

private:
    void *stack;
};
struct CkRing : Pointers {
    explicit CkRing(size_t count) : ring(ck_ring_of(count, items, sizeof(Item))) {}
    ~CkRing() { ck_ring_end(ring); }
    bool pull(User &, Held &held) { return ck_ring_pull(ring, &held); }
    void give_back(User &, Held &held) { must(ck_ring_give_back(ring, held)); }

private:
    void *ring;
};
#endif

#if __has_include(<concurrentqueue/concurrentqueue.h>)
#define HAS_MOODYCAMEL
#include <concurrentqueue/concurrentqueue.h>
struct Moodycamel : Pointers {
    struct User {
        std::unique_ptr<moodycamel::ProducerToken> producer;
        std::unique_ptr<moodycamel::ConsumerToken> consumer;
    };
    explicit Moodycamel(size_t count) : queue(2 * count) {
        for (size_t at = 0; at < count; at++) {
            must(queue.enqueue(items + at));
        }
    }
    void enter(User &user) {
        user.producer = std::make_unique<moodycamel::ProducerToken>(queue);
        user.consumer = std::make_unique<moodycamel::ConsumerToken>(queue);
    }
    void leave(User &user) {
        user.producer.reset();
        user.consumer.reset();
    }
    bool pull(User &user, Held &held) { return queue.try_dequeue(*user.consumer, held); }
    void give_back(User &user, Held &held) { must(queue.enqueue(*user.producer, held)); }

private:
    moodycamel::ConcurrentQueue<void *> queue;
};
#endif

#if __has_include(<tbb/concurrent_queue.h>)
#define HAS_TBB
#include <tbb/concurrent_queue.h>
struct Tbb : Pointers {
    explicit Tbb(size_t count) {
        for (size_t at = 0; at < count; at++) {
            queue.push(items + at);
        }
    }
    bool pull(User &, Held &held) { return queue.try_pop(held); }
    void give_back(User &, Held &held) { queue.push(held); }

private:
    tbb::concurrent_queue<void *> queue;
};
#endif

#if __has_include(<urcu/wfstack.h>)
#define HAS_URCU
#include <urcu/wfstack.h>
struct Urcu : Pointers {
    struct alignas(64) Node {
        cds_wfs_node node;
    };
    explicit Urcu(size_t count) : nodes(count) {
        cds_wfs_init(&stack);
        for (Node &one : nodes) {
            push(&one.node);
        }
    }
    bool pull(User &, Held &held) { return (held = cds_wfs_pop_blocking(&stack)) != nullptr; }
    void give_back(User &, Held &held) { push(static_cast<cds_wfs_node *>(held)); }
    Item &item(const Held &held) { return items[static_cast<Node *>(held) - nodes.data()]; }

private:
    void push(cds_wfs_node *node) {
        cds_wfs_stack_ptr_t list;
        list.s = &stack;
        cds_wfs_node_init(node);
        cds_wfs_push(list, node);
    }
    cds_wfs_stack stack;
    std::vector<Node> nodes;
};
#endif

#ifdef HAS_DPDK
#include <rte_eal.h>
#include <rte_lcore.h>
#include <rte_mempool.h>
// A thread's cache in a mempool belongs to the number of its processor core, which a thread registers for.
template <unsigned CACHE>
struct Mempool : Pointers {
    explicit Mempool(size_t count)
        : pool(rte_mempool_create("mempool", static_cast<unsigned>(count), sizeof(Item), CACHE, 0, nullptr, nullptr, nullptr, nullptr,
                                  SOCKET_ID_ANY, 0)) {
        must(pool != nullptr);
    }
    ~Mempool() { rte_mempool_free(pool); }
    void enter(User &) { must(rte_lcore_id() != LCORE_ID_ANY || rte_thread_register() == 0); }
    void leave(User &) {
        if (rte_mempool_cache *cache = rte_mempool_default_cache(pool, rte_lcore_id())) {
            rte_mempool_cache_flush(cache, pool);
        }
        rte_thread_unregister();
    }
    bool pull(User &, Held &held) { return rte_mempool_get(pool, &held) == 0; }
    void give_back(User &, Held &held) { rte_mempool_put(pool, held); }

private:
    rte_mempool *pool;
};

inline void begin_dpdk(char *program) {
    char none[][16] = {"--no-huge", "--no-shconf", "--no-pci", "-m", "64"};
    char *words[] = {program, none[0], none[1], none[2], none[3], none[4]};
    must(rte_eal_init(6, words) >= 0);
}
#else
inline void begin_dpdk(char *) {}
#endif
