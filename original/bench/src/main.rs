//! The original pools at the work of the program `test_original` of the workspace, with its arguments and its line of output, and
//! two pools of the crate `kundratu-pool`.
mod waiting;

use kundratu_pool::{LinearObjectPool as DropIn, Pool};
use lockfree_object_pool::{LinearObjectPool, MutexObjectPool, SpinLockObjectPool};
use std::ops::DerefMut;
use std::sync::Arc;
use std::time::{Duration, Instant};
use std::{env, fs, thread};
use waiting::WaitingPool;

/// How many items a pool that waits has, but for one whose items are all held or waited for.
const ITEMS: usize = 65_536;

/// What is done to the pool, turn by turn.
#[derive(Clone, Copy)]
enum Work {
    /// An item is pulled and dropped, while so many others are held.
    Pull { held: usize },
    /// The same with owned items.
    PullOwned { held: usize },
    /// So many threads pull and drop, each in all turns, while so many other items are held.
    Share { threads: usize, held: usize },
    /// An item is pulled and held.
    Hold,
    /// So many threads wait for so few items, each in all turns.
    Wait { threads: usize, items: usize },
}

/// What a task gave.
struct Measured {
    /// The sum of what the items were, by which it is seen that the turns were done.
    sum: u64,
    /// How long the turns took.
    time: Duration,
}

fn main() {
    let words: Vec<String> = env::args().skip(1).collect();
    let words: Vec<&str> = words.iter().map(String::as_str).collect();
    let Some(Measured { sum, time }) = measure(&words) else {
        panic!("usage: bench POOL WORK TURNS");
    };
    let (task, nanoseconds) = (words.join(" "), time.as_nanos());
    println!("{task}: {sum} in {nanoseconds} ns, {} kB", peak_kilobytes());
}

/// Does the task that the words ask for, on a new pool.
fn measure(words: &[&str]) -> Option<Measured> {
    let [kind, work @ .., turns] = words else {
        return None;
    };
    let (work, turns) = (work_of(work)?, turns.parse().ok()?);
    let (init, reset) = (|| 0u64, |value: &mut u64| *value = 0);
    match *kind {
        "lazy_wait" => {
            // an item borrows the pool: its owned pulls are the same
            let pool = WaitingPool::new(items_of(work, turns));
            Some(measure_pulls(work, turns, &|| pool.pull(), &|| pool.pull()))
        }
        "linear" | "fixed" | "fixed_near" | "lazy" => {
            let pool = Arc::new(LinearObjectPool::new(init, reset));
            Some(measure_pulls(work, turns, &|| pool.pull(), &|| {
                pool.pull_owned()
            }))
        }
        "drop_in" => {
            let pool = Arc::new(DropIn::new(init, reset));
            Some(measure_pulls(work, turns, &|| pool.pull(), &|| {
                pool.pull_owned()
            }))
        }
        "pool" => {
            let pool = Pool::new(items_of(work, turns), init, reset);
            let pool = Arc::new(pool.expect("there is memory"));
            Some(measure_pulls(
                work,
                turns,
                &|| pool.pull().expect("one is free"),
                &|| pool.pull_owned().expect("one is free"),
            ))
        }
        "spin_lock" => {
            let pool = Arc::new(SpinLockObjectPool::new(init, reset));
            Some(measure_pulls(work, turns, &|| pool.pull(), &|| {
                pool.pull_owned()
            }))
        }
        "mutex" => {
            let pool = Arc::new(MutexObjectPool::new(init, reset));
            Some(measure_pulls(work, turns, &|| pool.pull(), &|| {
                pool.pull_owned()
            }))
        }
        _ => None,
    }
}

/// How many items a pool that waits has for a work.
fn items_of(work: Work, turns: u64) -> usize {
    match work {
        Work::Hold => ITEMS.max(turns as usize),
        Work::Wait { threads: _, items } => items,
        _ => ITEMS,
    }
}

fn work_of(words: &[&str]) -> Option<Work> {
    match words {
        ["pull", held] => Some(Work::Pull {
            held: held.parse().ok()?,
        }),
        ["pull_owned", held] => Some(Work::PullOwned {
            held: held.parse().ok()?,
        }),
        ["share", threads, held] => Some(Work::Share {
            threads: threads.parse().ok()?,
            held: held.parse().ok()?,
        }),
        // the original has no workers: their threads pull from the pool
        ["worker", threads] => Some(Work::Share {
            threads: threads.parse().ok()?,
            held: 0,
        }),
        ["hold"] => Some(Work::Hold),
        ["wait", threads, items] => Some(Work::Wait {
            threads: threads.parse().ok()?,
            items: items.parse().ok()?,
        }),
        _ => None,
    }
}

/// Does the work by the two ways to pull.
fn measure_pulls<A, P, B, Q>(work: Work, turns: u64, pull: &P, pull_owned: &Q) -> Measured
where
    A: DerefMut<Target = u64>,
    P: Fn() -> A + Sync,
    B: DerefMut<Target = u64>,
    Q: Fn() -> B,
{
    match work {
        Work::Pull { held } => measure_turns(pull, held, turns),
        Work::PullOwned { held } => measure_turns(pull_owned, held, turns),
        Work::Share { threads, held } => {
            let _held = hold(pull, held);
            measure_share(pull, threads, turns)
        }
        Work::Wait { threads, items: _ } => measure_share(pull, threads, turns),
        Work::Hold => {
            let start = Instant::now();
            let items = hold(pull, turns as usize);
            let time = start.elapsed();
            let sum = items.len() as u64;
            Measured { sum, time }
        }
    }
}

/// The turns of so many threads, beside each other.
fn measure_share<A, P>(pull: &P, threads: usize, turns: u64) -> Measured
where
    A: DerefMut<Target = u64>,
    P: Fn() -> A + Sync,
{
    let start = Instant::now();
    let sum = share(pull, threads, turns);
    let time = start.elapsed();
    Measured { sum, time }
}

/// One thread's turns, while so many other items are held.
fn measure_turns<A: DerefMut<Target = u64>>(
    pull: &impl Fn() -> A,
    held: usize,
    turns: u64,
) -> Measured {
    let _held = hold(pull, held);
    let start = Instant::now();
    let sum = pull_and_drop(pull, turns);
    let time = start.elapsed();
    Measured { sum, time }
}

/// In each turn an item is pulled, the turn's number is added to it, and it is dropped. The sum of what the items were then.
fn pull_and_drop<A: DerefMut<Target = u64>>(pull: &impl Fn() -> A, turns: u64) -> u64 {
    let mut sum = 0u64;
    for turn in 0..turns {
        let mut item = pull();
        *item = item.wrapping_add(turn);
        sum = sum.wrapping_add(*item);
    }
    sum
}

/// So many items, pulled one after the other.
fn hold<A>(pull: &impl Fn() -> A, count: usize) -> Vec<A> {
    let mut items = Vec::with_capacity(count);
    for _ in 0..count {
        items.push(pull());
    }
    items
}

/// So many threads pull and drop. The sum of what they saw.
fn share<A, P>(pull: &P, threads: usize, turns: u64) -> u64
where
    A: DerefMut<Target = u64>,
    P: Fn() -> A + Sync,
{
    thread::scope(|scope| {
        let mut running = Vec::with_capacity(threads);
        for _ in 0..threads {
            running.push(scope.spawn(|| pull_and_drop(pull, turns)));
        }
        running
            .into_iter()
            .fold(0u64, |sum, one| sum.wrapping_add(one.join().unwrap()))
    })
}

/// The most kilobytes that were resident at once.
fn peak_kilobytes() -> u64 {
    let status = fs::read_to_string("/proc/self/status").unwrap();
    let peak = status
        .lines()
        .find_map(|line| line.strip_prefix("VmHWM:"))
        .unwrap();
    peak.split_whitespace().next().unwrap().parse().unwrap()
}
