//! How long a pull and its return of a lazy pool take, how long its first pulls take, and how often
//! threads that wait for few items get one, beside two pools as others have them: a vector behind a
//! mutex with a condition variable, and one beside a fair semaphore. Of many short rounds, by turns,
//! the least time is told. `KUNDRATU_BENCH_TURNS` says how many turns all rounds of a thread have,
//! where it isn't 1,000,000. `cargo bench --bench lazy -- pulls`, `first` or `waits` runs that part.
use kundratu_pool::{LazyPool, Pool};
use std::collections::VecDeque;
use std::env;
use std::hint::{black_box, spin_loop};
use std::sync::atomic::{AtomicBool, AtomicUsize, Ordering::SeqCst};
use std::sync::{Arc, Barrier, Condvar, Mutex};
use std::thread::{self, Thread};
use std::time::{Duration, Instant};

const ITEMS: usize = 4_096;
const ROUNDS: usize = 250;

/// A pool as it is written by hand: those wait on the condition variable who found no item.
struct ByHand {
    kept: Mutex<Kept>,
    returned: Condvar,
}

struct Kept {
    items: Vec<u64>,
    waiting: usize,
}

impl ByHand {
    fn new(items: usize) -> ByHand {
        let items = vec![0; items];
        let kept = Mutex::new(Kept { items, waiting: 0 });
        let returned = Condvar::new();
        ByHand { kept, returned }
    }

    fn turn(&self) {
        let mut kept = self.kept.lock().expect("no panic");
        let item = loop {
            if let Some(item) = kept.items.pop() {
                break item;
            }
            kept.waiting += 1;
            kept = self.returned.wait(kept).expect("no panic");
            kept.waiting -= 1;
        };
        drop(kept);
        let item = black_box(item + 1);
        let mut kept = self.kept.lock().expect("no panic");
        kept.items.push(item);
        let is_awaited = kept.waiting > 0;
        drop(kept);
        if is_awaited {
            self.returned.notify_one();
        }
    }
}

/// A pool as deadpool has it: a semaphore whose permits go to those that wait in their order, and a
/// vector behind a mutex.
struct BySemaphore {
    semaphore: Mutex<Semaphore>,
    items: Mutex<Vec<u64>>,
}

struct Semaphore {
    permits: usize,
    waiting: VecDeque<(Arc<AtomicBool>, Thread)>,
}

impl BySemaphore {
    fn new(items: usize) -> BySemaphore {
        let (permits, waiting) = (items, VecDeque::new());
        let semaphore = Mutex::new(Semaphore { permits, waiting });
        let items = Mutex::new(vec![0; items]);
        BySemaphore { semaphore, items }
    }

    fn acquire(&self) {
        let mut semaphore = self.semaphore.lock().expect("no panic");
        if semaphore.permits > 0 {
            semaphore.permits -= 1;
            return;
        }
        let has_permit = Arc::new(AtomicBool::new(false));
        let waits = (Arc::clone(&has_permit), thread::current());
        semaphore.waiting.push_back(waits);
        drop(semaphore);
        while !has_permit.load(SeqCst) {
            thread::park();
        }
    }

    fn release(&self) {
        let mut semaphore = self.semaphore.lock().expect("no panic");
        let Some((has_permit, thread)) = semaphore.waiting.pop_front() else {
            semaphore.permits += 1;
            return;
        };
        drop(semaphore);
        has_permit.store(true, SeqCst);
        thread.unpark();
    }

    fn turn(&self) {
        self.acquire();
        let item = self.items.lock().expect("no panic").pop();
        let item = black_box(item.expect("there are as many as permits") + 1);
        self.items.lock().expect("no panic").push(item);
        self.release();
    }
}

fn fair(items: usize) -> LazyPool<u64, ()> {
    let fair = LazyPool::builder(items).init(|| Ok(0)).fair();
    fair.build().expect("there is memory")
}

fn lazy(items: usize) -> LazyPool<u64, ()> {
    let reset = |number: &mut u64| {
        *number = 0;
        true
    };
    LazyPool::new(items, || Ok(0), reset).expect("there is memory")
}

/// The least nanoseconds a turn of some rounds, each of which is as long as its slowest thread's.
fn least(threads: usize, turns: usize, turn: impl Fn() + Sync) -> f64 {
    let (turns, begun, ends) = (turns.div_ceil(ROUNDS), AtomicUsize::new(0), Barrier::new(threads));
    let run = || {
        let rounds = 1..=ROUNDS;
        let times = rounds.map(|round| {
            ends.wait();
            begun.fetch_add(1, SeqCst);
            while begun.load(SeqCst) < round * threads {
                spin_loop();
            }
            let begun = Instant::now();
            (0..turns).for_each(|_| turn());
            begun.elapsed().as_nanos() as f64 / turns as f64
        });
        times.collect::<Vec<_>>()
    };
    let times = thread::scope(|scope| {
        let runs: Vec<_> = (0..threads).map(|_| scope.spawn(run)).collect();
        let times = runs.into_iter().map(|run| run.join().expect("it ends"));
        times.collect::<Vec<_>>()
    });
    let slowest = |round: usize| times.iter().map(|times| times[round]).fold(0.0, f64::max);
    (0..ROUNDS).map(slowest).fold(f64::INFINITY, f64::min)
}

/// Millions of turns a second of all threads together.
fn turns_a_second(threads: usize, turns: usize, turn: impl Fn() + Sync) -> f64 {
    let (begun, all_run) = (Instant::now(), Barrier::new(threads));
    thread::scope(|scope| {
        let run = || {
            all_run.wait();
            (0..turns).for_each(|_| turn());
        };
        (0..threads).for_each(|_| drop(scope.spawn(run)));
    });
    (threads * turns) as f64 / begun.elapsed().as_micros() as f64
}

fn pulls(turns: usize) {
    println!("{ITEMS} items, nanoseconds a pull and return, the least of {ROUNDS} rounds");
    let (made, few, fixed) =
        (lazy(ITEMS), lazy(ITEMS), Pool::new(ITEMS, || 0, |number| *number = 0));
    made.fill(ITEMS).expect("it makes them");
    let fixed = fixed.expect("there is memory");
    for threads in [1, 2, 4] {
        let least = |turn: &(dyn Fn() + Sync)| least(threads, turns, turn);
        println!(
            "{threads} threads: {:.1}, if only so many are made {:.1}; pull_wait {:.1}, pull_timeout {:.1}; Pool {:.1}",
            least(&|| *black_box(made.pull().expect("one is free")) += 1),
            least(&|| *black_box(few.pull().expect("one is free")) += 1),
            least(&|| *black_box(made.pull_wait().expect("one is free")) += 1),
            least(&|| *black_box(made.pull_timeout(LIMIT).expect("one is free")) += 1),
            least(&|| *black_box(fixed.pull().expect("one is free")) += 1),
        );
    }
}

const LIMIT: Duration = Duration::from_secs(60);

/// The least nanoseconds an item of some first pulls, and of the returns and pulls after them.
fn first_pulls() {
    println!("first pulls, returns, and pulls again, nanoseconds an item");
    for items in [4_096, 32_768, 262_144] {
        let mut least = [f64::INFINITY; 3];
        for _ in 0..5 {
            let (pool, mut held) = (lazy(items), Vec::with_capacity(items));
            let pulls = |held: &mut Vec<_>| {
                let begun = Instant::now();
                held.extend((0..items).map(|_| pool.pull().expect("one is free")));
                begun.elapsed()
            };
            let first = pulls(&mut held);
            let begun = Instant::now();
            held.clear();
            let times = [first, begun.elapsed(), pulls(&mut held)];
            for (least, time) in least.iter_mut().zip(times) {
                *least = least.min(time.as_nanos() as f64 / items as f64);
            }
        }
        println!("{items}: {:.1}, {:.1}, {:.1}", least[0], least[1], least[2]);
    }
}

fn waits(turns: usize) {
    println!("8 threads that wait, millions of turns a second, by turns");
    for items in [1, 2, 3] {
        let (lazy, by_hand) = (lazy(items), ByHand::new(items));
        let (fair, by_semaphore) = (fair(items), BySemaphore::new(items));
        for _ in 0..7 {
            let turns = |turn: &(dyn Fn() + Sync)| turns_a_second(8, turns / 16, turn);
            let pulls = |pool: &LazyPool<_, _>| {
                *black_box(pool.pull_wait().expect("one comes")) += 1;
            };
            println!(
                "{items} items: lazy {:.2}, by hand {:.2}; fair {:.2}, by a semaphore {:.2}",
                turns(&|| pulls(&lazy)),
                turns(&|| by_hand.turn()),
                turns(&|| pulls(&fair)),
                turns(&|| by_semaphore.turn()),
            );
        }
    }
}

fn main() {
    let turns = env::var("KUNDRATU_BENCH_TURNS")
        .map_or(1_000_000, |turns| turns.parse().expect("KUNDRATU_BENCH_TURNS is a number"));
    let words: Vec<_> = env::args().skip(1).collect();
    let parts = ["pulls", "first", "waits"];
    let is_named = |part: &str| words.iter().any(|word| word == part);
    let is_asked = |part| is_named(part) || !parts.into_iter().any(is_named);
    if is_asked("pulls") {
        pulls(turns);
    }
    if is_asked("first") {
        first_pulls();
    }
    if is_asked("waits") {
        waits(turns);
    }
}
