// Ways to use kundratu_pool: by a handle, by places, by a cache, and by an array of places as programs keep one without a cache.
#pragma once
#include "contender.hpp"
#include "kundratu_pool.h"
#include <mutex>

// A pool, and how a thread comes to a handle of it and to a page of its own.
class OurPool {
public:
    struct User {
        kdr_handle handle = KDR_HANDLE_EMPTY;
        size_t apart = 0, page = 0;
    };

    explicit OurPool(size_t items) : pages((items + KDR_PAGE_PLACES - 1) / KDR_PAGE_PLACES) {
        must(kdr_pool_new(items, &first) == KDR_DONE);
    }
    ~OurPool() { kdr_pool_drop(&first); }

    void enter(User &user) {
        std::lock_guard guard(lock);
        must(kdr_pool_share(&first, &user.handle) == KDR_DONE);
        user.page = 17 * ++users % pages;
        user.apart = (user.page + 17) % pages;
    }
    void leave(User &user) { kdr_pool_drop(&user.handle); }

protected:
    // A thread whose page is full goes on at another one, apart from that to which all are sent.
    bool pull_place(User &user, kdr_place &place) const {
        place = KDR_PLACE_EMPTY;
        if (kdr_place_pull(&user.handle, user.page, &place) != KDR_DONE) {
            return false;
        }
        size_t page = kdr_place_number(&place) / KDR_PAGE_PLACES;
        if (page != user.page) {
            user.page = (page + user.apart) % pages;
            user.apart = pages - user.apart; // on the other side the next time
        }
        return true;
    }

private:
    kdr_handle first = KDR_HANDLE_EMPTY;
    std::mutex lock;
    size_t users = 0, pages;
};

struct ByPlace : OurPool {
    using Held = kdr_place;
    using OurPool::OurPool;

    bool pull(User &user, Held &held) { return pull_place(user, held); }
    void give_back(User &user, Held &held) { kdr_place_return(&user.handle, &held); }
    Item &item(const Held &held) { return items[kdr_place_number(&held)]; }
};

// A handle holds one place. What a thread holds meanwhile are places at the handle's page.
struct ByHandle : OurPool {
    struct Held {
        kdr_place place = KDR_PLACE_EMPTY;
        size_t number = 0;
    };
    using OurPool::OurPool;

    bool pull(User &user, Held &held) { return kdr_pool_pull(&user.handle, &held.number) == KDR_DONE; }
    void give_back(User &user, Held &) { kdr_pool_return(&user.handle); }
    bool hold(User &user, Held &held) { return kdr_place_pull(&user.handle, user.page, &held.place) == KDR_DONE; }
    void release(User &user, Held &held) { kdr_place_return(&user.handle, &held.place); }
    Item &item(const Held &held) { return items[held.number]; }
};

template <size_t ROOM>
struct ByCache : OurPool {
    struct User : OurPool::User {
        kdr_cache cache = KDR_CACHE_EMPTY;
    };
    using Held = kdr_place;
    using OurPool::OurPool;

    void enter(User &user) {
        OurPool::enter(user);
        must(kdr_cache_new(&user.handle, ROOM, user.page, &user.cache) == KDR_DONE);
    }
    void leave(User &user) {
        kdr_cache_drop(&user.cache);
        OurPool::leave(user);
    }
    bool pull(User &user, Held &held) {
        held = KDR_PLACE_EMPTY;
        return kdr_cache_pull(&user.cache, &held) == KDR_DONE;
    }
    void give_back(User &user, Held &held) { kdr_cache_return(&user.cache, &held); }
    Item &item(const Held &held) { return items[kdr_place_number(&held)]; }
};

// The same by the proved calls, past the header's lines for what is kept.
template <size_t ROOM>
struct ByCacheCalls : ByCache<ROOM> {
    using typename ByCache<ROOM>::User;
    using typename ByCache<ROOM>::Held;
    using ByCache<ROOM>::ByCache;

    bool pull(User &user, Held &held) {
        held = KDR_PLACE_EMPTY;
        return (kdr_cache_pull)(&user.cache, &held) == KDR_DONE;
    }
    void give_back(User &user, Held &held) { (kdr_cache_return)(&user.cache, &held); }
};

struct ByArray : OurPool {
    struct User : OurPool::User {
        kdr_place kept[8];
        size_t count = 0;
    };
    using Held = kdr_place;
    using OurPool::OurPool;

    void leave(User &user) {
        while (user.count > 0) {
            kdr_place_return(&user.handle, &user.kept[--user.count]);
        }
        OurPool::leave(user);
    }
    bool pull(User &user, Held &held) {
        if (user.count > 0) {
            held = user.kept[--user.count];
            return true;
        }
        return pull_place(user, held);
    }
    void give_back(User &user, Held &held) {
        if (user.count < 8) {
            user.kept[user.count++] = held;
            held = KDR_PLACE_EMPTY;
        } else {
            kdr_place_return(&user.handle, &held);
        }
    }
    Item &item(const Held &held) { return items[kdr_place_number(&held)]; }
};
