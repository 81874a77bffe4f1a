//! How long a pull and its return take, of the proved pool by its C calls, of the two pools of the
//! Rust crate over it, of the original, of sharded-slab's pool, of an `ArrayQueue` of indices, and
//! of a mutex round a vector of indices: all in one process, and each with the same work between.
//! Two rows without a pool tell what that work and the threads' ways to each other take.
use std::array;
use std::env;
use std::hint::black_box;
use std::iter;
use std::sync::atomic::{AtomicU64, Ordering};
use std::sync::Barrier;
use std::thread;
use std::time::Instant;

mod channels;
mod contenders;

use channels::{Kind, Sleeping, Yielding};
use contenders::{Contender, Grows, Indices, Original, Places, Queue, Sharded, Stack};
use contenders::{Turns, Wrapped};

/// How many items each pool has.
const ITEMS: usize = 65_536;
/// Of so many rounds the middle one and the least are told: in the quickest of several threads,
/// they may not have run beside each other.
const ROUNDS: usize = 7;
/// How many items may be under way between two threads.
const UNDER_WAY: usize = 256;
/// How many rows, the last ones, have no pool.
const WITHOUT: usize = 2;
/// How many steps of work more a slower receiver does with an item: some 80 ns.
const STEPS: u32 = 200;

/// How many items are held, and how many threads pull and return.
#[derive(Clone, Copy)]
struct Task {
    held: usize,
    threads: usize,
}

const TASKS: [Task; 6] = [
    Task {
        held: 0,
        threads: 1,
    },
    Task {
        held: 32,
        threads: 1,
    },
    Task {
        held: 1_024,
        threads: 1,
    },
    Task {
        held: 32_768,
        threads: 1,
    },
    Task {
        held: 0,
        threads: 2,
    },
    Task {
        held: 0,
        threads: 4,
    },
];

const CROSSINGS: [Crossing; 4] = [
    Crossing {
        senders: 1,
        receivers: 1,
    },
    Crossing {
        senders: 5,
        receivers: 1,
    },
    Crossing {
        senders: 1,
        receivers: 5,
    },
    Crossing {
        senders: 5,
        receivers: 5,
    },
];

/// Nanoseconds a turn, of the thread that took longest.
fn one_round<C: Contender>(pool: &C, threads: usize, turns: u64) -> f64 {
    let start = Barrier::new(threads);
    let run = || {
        let mut user = pool.user();
        start.wait();
        let begun = Instant::now();
        for _ in 0..turns {
            black_box(pool.turn(&mut user));
        }
        begun.elapsed().as_nanos() as f64 / turns as f64
    };
    thread::scope(|scope| {
        let runs: Vec<_> = (0..threads).map(|_| scope.spawn(run)).collect();
        let times = runs.into_iter().map(|run| run.join().expect("it ends"));
        times.fold(0.0, f64::max)
    })
}

/// How many threads pull items and send them, and how many receive and return them.
#[derive(Clone, Copy)]
struct Crossing {
    senders: usize,
    receivers: usize,
}

/// Nanoseconds an item that one thread pulls and another one returns. Each receiver has a channel,
/// and a sender sends to each in turn.
fn one_crossing<K: Kind, C: Contender>(pool: &C, crossing: Crossing, turns: u64) -> f64 {
    let channel = || K::channel(crossing.senders, UNDER_WAY);
    let channels = iter::repeat_with(channel).take(crossing.receivers);
    let (ends, receivers): (Vec<_>, Vec<_>) = channels.unzip();
    let mut ends: Vec<_> = ends.into_iter().map(Vec::into_iter).collect();
    let turns = turns / crossing.senders as u64;
    let begun = Instant::now();
    thread::scope(|scope| {
        for receiver in receivers {
            scope.spawn(move || {
                let mut user = pool.user();
                for sent in receiver {
                    pool.take_back(&mut user, sent);
                }
            });
        }
        for _ in 0..crossing.senders {
            // It has an end of each channel.
            let ends: Vec<_> = ends.iter_mut().filter_map(Iterator::next).collect();
            scope.spawn(move || {
                let mut user = pool.user();
                for end in ends.iter().cycle().take(turns as usize) {
                    K::send(end, pool.lend(&mut user));
                }
            });
        }
    });
    begun.elapsed().as_nanos() as f64 / (turns * crossing.senders as u64) as f64
}

/// Nanoseconds a turn, while other items are held.
fn one_task<C: Contender>(pool: &C, task: Task, turns: u64) -> f64 {
    let _held: Vec<C::Held<'_>> = (0..task.held).map(|_| pool.hold()).collect();
    // The original passes by each full page, so it has fewer turns where many items are held.
    let turns = if C::SCANS {
        turns / (1 + task.held as u64 / 256)
    } else {
        turns
    };
    one_round(pool, task.threads, turns.max(1))
}

/// Measures each task once, and each crossing by each kind of channel, with a new pool each.
fn measure<C: Contender>(make: impl Fn() -> C, turns: u64) -> Vec<f64> {
    let tasks = TASKS.map(|task| one_task(&make(), task, turns));
    let queues = CROSSINGS.map(|crossing| one_crossing::<Yielding, C>(&make(), crossing, turns));
    let channels = CROSSINGS.map(|crossing| one_crossing::<Sleeping, C>(&make(), crossing, turns));
    [tasks.as_slice(), &queues, &channels].concat()
}

/// A pool's name, and the times of each column in their order, the least first.
struct Row {
    name: &'static str,
    columns: Vec<[f64; ROUNDS]>,
}

/// The rounds go round the pools: what disturbs some seconds disturbs all pools alike.
fn rows(pools: &[(&'static str, &dyn Fn() -> Vec<f64>)]) -> Vec<Row> {
    let rounds: [Vec<_>; ROUNDS] =
        array::from_fn(|_| pools.iter().map(|(_, measure)| measure()).collect());
    let row = |(at, (name, _)): (usize, &(&'static str, _))| Row {
        name,
        columns: (0..rounds[0][at].len())
            .map(|column| {
                let mut times = rounds.each_ref().map(|round| round[at][column]);
                times.sort_by(f64::total_cmp);
                times
            })
            .collect(),
    };
    pools.iter().enumerate().map(row).collect()
}

/// Prints a table of some columns, with a row for each pool: of their times the one of this rank.
fn print(title: &str, names: &[&str], rows: &[Row], first: usize, rank: usize) {
    println!("| {title} | {} |", names.join(" | "));
    println!("|---|{}", "---:|".repeat(names.len()));
    for row in rows {
        let columns = row.columns[first..].iter().take(names.len());
        let times = columns.map(|times| format!("{:.0}", times[rank]));
        let cells: Vec<_> = times.collect();
        println!("| {} | {} |", row.name, cells.join(" | "));
    }
    println!();
}

/// Prints the tables of the middle times, or of the least ones.
fn print_times(which: &str, rows: &[Row], rank: usize) {
    let held = ["0 held", "32", "1,024", "32,768", "2 threads", "4 threads"];
    let ways = ["1 to 1", "5 to 1", "1 to 5", "5 to 5"];
    let crossing = |by| format!("An item that crosses threads by {by}, {which}");
    let (queues, channels) = (TASKS.len(), TASKS.len() + CROSSINGS.len());
    let pools = &rows[..rows.len() - WITHOUT];
    print(&format!("Nanoseconds, {which}"), &held, pools, 0, rank);
    print(&crossing("queues"), &ways, rows, queues, rank);
    print(&crossing("channels"), &ways, rows, channels, rank);
}

/// The items of the contenders that pull indices.
fn cells() -> Box<[AtomicU64]> {
    (0..ITEMS).map(|_| AtomicU64::new(0)).collect()
}

/// What is done with an item of theirs between the pull and the return, which is what the others do
/// with theirs.
fn use_item(cells: &[AtomicU64], index: usize) {
    write_item(cells, index);
    reset_item(cells, index);
}

fn write_item(cells: &[AtomicU64], index: usize) {
    let cell = &cells[index];
    cell.store(cell.load(Ordering::Relaxed) + 1, Ordering::Relaxed);
}

fn reset_item(cells: &[AtomicU64], index: usize) {
    cells[index].store(0, Ordering::Relaxed);
}

fn main() {
    let turns = env::args().nth(1).map_or(1_000_000, |turns| {
        turns.parse().expect("the number of turns")
    });
    let queue = || Indices::new(Queue::new(ITEMS), cells());
    let stack = || Indices::new(Stack::new(ITEMS), cells());
    let places = || Places::new(ITEMS, cells());
    let rows = rows(&[
        ("the proved pool, by its C calls", &|| {
            measure(places, turns)
        }),
        ("the Rust crate's `Pool`", &|| {
            measure(|| Wrapped::new(ITEMS), turns)
        }),
        ("its `LinearObjectPool`", &|| measure(Grows::new, turns)),
        ("the original's `LinearObjectPool`", &|| {
            measure(Original::new, turns)
        }),
        ("sharded-slab's `Pool`", &|| measure(Sharded::new, turns)),
        ("crossbeam's `ArrayQueue` of indices", &|| {
            measure(queue, turns)
        }),
        ("a mutex round a vector of indices", &|| {
            measure(stack, turns)
        }),
        ("no pool", &|| measure(|| Turns::new(cells(), 0), turns)),
        ("no pool, and slower receivers", &|| {
            measure(|| Turns::new(cells(), STEPS), turns)
        }),
    ]);
    print_times("the middle one", &rows, ROUNDS / 2);
    print_times("the least", &rows, 0);
}
