/* The header and the library from C++: a place that is returned at the end of its scope. */
#include "kundratu_pool.h"
#include <cstdio>
#include <vector>

class Place {
public:
    explicit Place(kdr_handle &handle) : handle(handle), held(kdr_pool_pull(&handle, &number) == KDR_DONE) {}
    Place(const Place &) = delete;
    Place &operator=(const Place &) = delete;
    ~Place() {
        if (held) {
            kdr_pool_return(&handle);
        }
    }
    explicit operator bool() const { return held; }
    std::size_t at() const { return number; }

private:
    kdr_handle &handle;
    std::size_t number = 0;
    bool held;
};

int main() {
    kdr_handle handle = KDR_HANDLE_EMPTY;
    if (kdr_pool_new(2, &handle) != KDR_DONE) {
        return 1;
    }
    std::vector<int> items(kdr_pool_items(&handle));
    for (int turn = 0; turn < 3; turn++) {
        Place place(handle);
        if (!place || Place(handle)) {
            return 1;
        }
        items.at(place.at())++;
    }
    kdr_cache cache = KDR_CACHE_EMPTY;
    kdr_place kept = KDR_PLACE_EMPTY;
    if (kdr_cache_new(&handle, 1, 0, &cache) != KDR_DONE || kdr_cache_pull(&cache, &kept) != KDR_DONE ||
        kdr_cache_return(&cache, &kept) != KDR_DONE || kdr_cache_drop(&cache) != KDR_DONE) {
        return 1;
    }
    bool counted = items[0] + items[1] == 3;
    bool ended = kdr_pool_drop(&handle) == KDR_DONE;
    std::puts(counted && ended ? "C++ pulled and returned three times" : "C++ lost a place");
    return counted && ended ? 0 : 1;
}
