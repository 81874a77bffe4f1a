// Measures a pull and a return of our pool and of others, by turns in one process, and prints a table.
// usage: bench [SECONDS [NAME..]]
//
// In a turn of some milliseconds, so many threads pull an item, write to it and return it again and again, each on a processor of its
// own, while each holds some items. A turn in which a thread was put off its processor isn't counted, nor one in which the threads hardly
// ran at once. A cell is the median of a column's turns, which take so many seconds (10) in all, in nanoseconds.
#include "others.hpp"
#include "ours.hpp"
#include <algorithm>
#include <atomic>
#include <chrono>
#include <cstring>
#include <sched.h>
#include <string>
#include <sys/resource.h>
#include <thread>

Item *items;

namespace {

using Clock = std::chrono::steady_clock;

constexpr size_t ITEMS = 8192;
constexpr size_t REFUSALS = 2000;
constexpr size_t LAPS_AT_ONCE = 256;
constexpr auto TURN = std::chrono::milliseconds(2);

// How many threads run, and how many items each holds meanwhile.
struct Work {
    unsigned threads;
    size_t held;
};

constexpr Work COLUMNS[] = {{1, 0}, {2, 0}, {4, 0}, {1, 32}, {4, 32}, {4, 1024}};
constexpr size_t COLUMNS_COUNT = sizeof COLUMNS / sizeof COLUMNS[0];

// What a thread of a turn tells.
struct Told {
    Clock::time_point begin, end;
    size_t laps = 0;
    bool is_refused = false;
    bool was_put_off = false;
};

struct Turn {
    Work work;
    std::atomic<unsigned> ready{0}, done{0};
    std::vector<Told> told = std::vector<Told>(work.threads);

    explicit Turn(Work given) : work(given) {}
};

void wait_for(std::atomic<unsigned> &count, unsigned wanted) {
    count++;
    while (count < wanted) {
        __builtin_ia32_pause();
    }
}

void stay_on_processor(unsigned number) {
    cpu_set_t set;
    CPU_ZERO(&set);
    CPU_SET(number % std::thread::hardware_concurrency(), &set);
    pthread_setaffinity_np(pthread_self(), sizeof set, &set);
}

// How often this thread was put off its processor.
long put_off() {
    rusage usage;
    getrusage(RUSAGE_THREAD, &usage);
    return usage.ru_nivcsw;
}

template <class Contender>
concept HoldsApart = requires(Contender &pool, typename Contender::User &user, typename Contender::Held &held) { pool.hold(user, held); };

template <class Contender>
bool hold(Contender &pool, typename Contender::User &user, typename Contender::Held &held) {
    if constexpr (HoldsApart<Contender>) {
        return pool.hold(user, held);
    } else {
        return pool.pull(user, held);
    }
}

template <class Contender>
void release(Contender &pool, typename Contender::User &user, typename Contender::Held &held) {
    if constexpr (HoldsApart<Contender>) {
        pool.release(user, held);
    } else {
        pool.give_back(user, held);
    }
}

template <class Contender>
bool pull_and_return(Contender &pool, typename Contender::User &user, size_t times) {
    for (size_t at = 0; at < times; at++) {
        typename Contender::Held held{};
        if (!pool.pull(user, held)) {
            return false;
        }
        pool.item(held).word = at;
        pool.give_back(user, held);
    }
    return true;
}

template <class Contender>
void run_laps(Contender &pool, typename Contender::User &user, Told &told) {
    long before = put_off();
    told.begin = told.end = Clock::now();
    while (told.end - told.begin < TURN && !told.is_refused) {
        told.is_refused = !pull_and_return(pool, user, LAPS_AT_ONCE);
        told.laps += LAPS_AT_ONCE;
        told.end = Clock::now();
    }
    told.was_put_off = put_off() != before;
}

template <class Contender>
void run(Contender &pool, Turn &turn, unsigned number) {
    stay_on_processor(number);
    Told &told = turn.told[number];
    typename Contender::User user;
    pool.enter(user);
    std::vector<typename Contender::Held> held(turn.work.held);
    for (auto &one : held) {
        must(hold(pool, user, one));
    }
    wait_for(turn.ready, turn.work.threads);
    told.is_refused = !pull_and_return(pool, user, LAPS_AT_ONCE);
    run_laps(pool, user, told);
    wait_for(turn.done, turn.work.threads);
    for (auto &one : held) {
        release(pool, user, one);
    }
    pool.leave(user);
}

double nanoseconds(Clock::duration time) {
    return std::chrono::duration<double, std::nano>(time).count();
}

// The nanoseconds of a pull and a return, or less than none if the turn isn't counted.
double settle(const Turn &turn) {
    double sum = 0;
    auto begin = turn.told[0].begin, end = turn.told[0].end, first = begin, last = end;
    for (const Told &told : turn.told) {
        if (told.is_refused || told.was_put_off) {
            return -1;
        }
        sum += nanoseconds(told.end - told.begin) / static_cast<double>(told.laps);
        begin = std::max(begin, told.begin), first = std::min(first, told.begin);
        end = std::min(end, told.end), last = std::max(last, told.end);
    }
    bool ran_at_once = (end - begin) * 2 >= last - first;
    return ran_at_once ? sum / static_cast<double>(turn.told.size()) : -1;
}

template <class Contender>
double take_turn(Work work) {
    auto pool = std::make_unique<Contender>(ITEMS);
    Turn turn(work);
    std::vector<std::thread> threads;
    for (unsigned number = 0; number < work.threads; number++) {
        threads.emplace_back([&, number] { run(*pool, turn, number); });
    }
    for (auto &thread : threads) {
        thread.join();
    }
    return settle(turn);
}

// The nanoseconds of a pull that is refused since all items are in use.
template <class Contender>
double refuse() {
    auto pool = std::make_unique<Contender>(ITEMS);
    double found = -1;
    std::thread([&] {
        typename Contender::User user;
        pool->enter(user);
        std::vector<typename Contender::Held> held(ITEMS);
        size_t count = 0;
        while (count < ITEMS && hold(*pool, user, held[count])) {
            count++;
        }
        typename Contender::Held more{};
        auto begin = Clock::now();
        for (size_t at = 0; at < REFUSALS; at++) {
            must(!pool->pull(user, more));
        }
        found = nanoseconds(Clock::now() - begin) / REFUSALS;
        while (count > 0) {
            release(*pool, user, held[--count]);
        }
        pool->leave(user);
    }).join();
    return found;
}

struct Row {
    std::string name;
    std::string promises;
    double (*turn)(Work);
    double (*refusal)();
    std::vector<double> found[COLUMNS_COUNT];
};

template <class Contender>
void add(std::vector<Row> &rows, const char *name, const char *promises, bool refuses = true) {
    rows.push_back({name, promises, take_turn<Contender>, refuses ? refuse<Contender> : nullptr, {}});
}

std::vector<Row> all_rows() {
    std::vector<Row> rows;
    add<ByHandle>(rows, "kundratu, handle", "refused only if all are in use; one item a handle");
    add<ByPlace>(rows, "kundratu, place", "refused only if all are in use");
    add<ByCache<8>>(rows, "kundratu, cache of 8", "others' caches count as in use; last in, first out");
    add<ByCacheCalls<8>>(rows, "kundratu, cache of 8, calls", "the same, past the header's lines");
    add<ByCache<256>>(rows, "kundratu, cache of 256", "the same");
    add<ByArray>(rows, "kundratu, an array of 8", "the same, by hand");
#ifdef HAS_DPDK
    add<Mempool<256>>(rows, "rte_mempool, cache of 256", "others' caches count as in use; threads register");
    add<Mempool<0>>(rows, "rte_mempool, no cache", "first in, first out");
#endif
    add<Malloc>(rows, "malloc", "memory grows; never refused while there is some", false);
    if (Mimalloc::is_there()) {
        add<Mimalloc>(rows, "mimalloc", "the same", false);
    }
#ifdef HAS_BOOST
    add<BoostStack>(rows, "boost::lockfree::stack", "last in, first out");
    add<BoostQueue>(rows, "boost::lockfree::queue", "first in, first out");
#endif
#ifdef HAS_CK
    add<CkStack>(rows, "ck_stack", "last in, first out; items carry the links");
    add<CkRing>(rows, "ck_ring", "first in, first out");
#endif
#ifdef HAS_MOODYCAMEL
    add<Moodycamel>(rows, "moodycamel", "first in, first out of each thread; memory grows");
#endif
#ifdef HAS_TBB
    add<Tbb>(rows, "tbb::concurrent_queue", "first in, first out; memory grows");
#endif
#ifdef HAS_URCU
    add<Urcu>(rows, "liburcu wfstack", "last in, first out; a pop takes a lock");
#endif
    add<UnderMutex>(rows, "a mutex round a list", "last in, first out; waits for a stopped thread");
    return rows;
}

// All rows by turns, so that what else the machine does is shared by them.
void fill(std::vector<Row> &rows, size_t column, double seconds) {
    auto begin = Clock::now();
    while (nanoseconds(Clock::now() - begin) < seconds * 1e9) {
        for (Row &row : rows) {
            double found = row.turn(COLUMNS[column]);
            if (found >= 0) {
                row.found[column].push_back(found);
            }
        }
    }
}

std::string cell(std::vector<double> found) {
    if (found.empty()) {
        return "-";
    }
    std::nth_element(found.begin(), found.begin() + static_cast<long>(found.size() / 2), found.end());
    char text[32];
    std::snprintf(text, sizeof text, "%.*f", found[found.size() / 2] < 10 ? 1 : 0, found[found.size() / 2]);
    return text;
}

void print(const std::vector<Row> &rows) {
    std::string head = "| |", line = "|---|";
    for (const Work &work : COLUMNS) {
        head += " " + std::to_string(work.threads) + (work.held ? ", " + std::to_string(work.held) + " held" : "") + " |";
        line += "---:|";
    }
    std::printf("%s refusal | promises |\n%s---:|---|\n", head.c_str(), line.c_str());
    for (const Row &row : rows) {
        std::printf("| %s |", row.name.c_str());
        for (const auto &found : row.found) {
            std::printf(" %s |", cell(found).c_str());
        }
        std::printf(" %s | %s |\n", row.refusal ? cell({row.refusal()}).c_str() : "-", row.promises.c_str());
    }
    for (size_t column = 0; column < COLUMNS_COUNT; column++) {
        size_t least = SIZE_MAX;
        for (const Row &row : rows) {
            least = std::min(least, row.found[column].size());
        }
        std::fprintf(stderr, "%u threads, %zu held: at least %zu turns a row\n", COLUMNS[column].threads, COLUMNS[column].held, least);
    }
}

} // namespace

int main(int count, char **words) {
    double seconds = count > 1 ? std::atof(words[1]) : 10;
    items = new Item[ITEMS];
    cpu_set_t processors;
    sched_getaffinity(0, sizeof processors, &processors);
    begin_dpdk(words[0]);
    sched_setaffinity(0, sizeof processors, &processors); // DPDK keeps its main thread to one
    std::vector<Row> rows = all_rows();
    if (count > 2) {
        std::erase_if(rows, [&](const Row &row) {
            return std::none_of(words + 2, words + count, [&](const char *name) { return row.name.find(name) != std::string::npos; });
        });
    }
    for (size_t column = 0; column < COLUMNS_COUNT; column++) {
        fill(rows, column, seconds);
    }
    print(rows);
}
