// What the rounds measure: a pool of items, each of which is a cache line. A contender is a class with
//
//   Contender(size_t items)          all items are free
//   User                             what a thread has of it, made by enter() and ended by leave()
//   Held                             what a thread has of an item
//   pull(user, held), give_back(user, held)
//   hold(user, held), release(user, held)   how items are held meanwhile, if in another way
//   item(held)                       the item itself
#pragma once
#include <cstddef>
#include <cstdint>
#include <cstdio>
#include <cstdlib>

#define must(holds) (static_cast<bool>(holds) ? static_cast<void>(0) : fail(__FILE__, __LINE__))

[[noreturn]] inline void fail(const char *file, int line) {
    std::fprintf(stderr, "%s:%d: a call failed\n", file, line);
    std::abort();
}

struct alignas(64) Item {
    volatile std::uint64_t word;
};

// The items of contenders that have none of their own.
extern Item *items;

struct NoUser {
    struct User {};

    void enter(User &) {}
    void leave(User &) {}
};

struct Numbers : NoUser {
    using Held = std::uint32_t;

    Item &item(const Held &held) { return items[held]; }
};

struct Pointers : NoUser {
    using Held = void *;

    Item &item(const Held &held) { return *static_cast<Item *>(held); }
};
