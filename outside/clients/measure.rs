//! How long a match of a short text takes by a `Regex` that threads share, and what a `Regex` costs
//! that is made and used once: of a crate as it is, with our pool in it, and without a pool.
use std::convert::identity;
use std::hint::black_box;
use std::sync::Barrier;
use std::time::Instant;
use std::{env, thread};

#[macro_use]
mod client;

/// How often each is measured, by turns. The middle one of its times is told.
const ROUNDS: usize = 75;
const PATTERN: &str = r"[a-z]+@[a-z]+\.[a-z]+";
const TEXT: &str = "write to ann@example.org";
const MADE: usize = 200;

/// What glibc says of its heap.
#[repr(C)]
struct Info {
    before: [usize; 4],
    mapped: usize,
    unused: [usize; 2],
    used: usize,
    after: [usize; 2],
}

unsafe extern "C" {
    safe fn mallinfo2() -> Info;
}

fn used() -> f64 {
    let info = mallinfo2();
    (info.used + info.mapped) as f64
}

/// The work on the `Regex` of a crate. A thread uses what this call gives it of the one that threads
/// share.
macro_rules! work {
    ($name:ident, $of_thread:expr) => {
        mod $name {
            use super::*;
            client!($name);

            /// Nanoseconds a match, of the thread that took longest.
            pub fn shared(threads: usize, turns: u32) -> f64 {
                let regex = new();
                let start = Barrier::new(threads);
                let run = || {
                    let mine = $of_thread(&regex);
                    start.wait();
                    let begun = Instant::now();
                    for _ in 0..turns {
                        assert!(is_match(&mine));
                    }
                    begun.elapsed().as_nanos() as f64 / f64::from(turns)
                };
                thread::scope(|scope| {
                    let runs: Vec<_> = (0..threads).map(|_| scope.spawn(run)).collect();
                    let times = runs.into_iter().map(|run| run.join().expect("it ends"));
                    times.fold(0.0, f64::max)
                })
            }

            /// Microseconds and bytes of a `Regex` that is made and used once.
            pub fn made() -> [f64; 2] {
                let mut all = Vec::with_capacity(MADE);
                let (before, begun) = (used(), Instant::now());
                for _ in 0..MADE {
                    let regex = new();
                    assert!(is_match(&regex));
                    all.push(regex);
                }
                let time = begun.elapsed().as_nanos() as f64 / 1000.0;
                [time, used() - before].map(|all| all / MADE as f64)
            }

            /// A row of each: a match by 1, 2 and 4 threads, and what is made.
            pub fn measure(turns: u32) -> [f64; 5] {
                let [one, two, four] = [1, 2, 4].map(|threads| shared(threads, turns));
                let [time, bytes] = made();
                [one, two, four, time, bytes]
            }
        }
    };
}

work!(theirs, identity);
work!(ours, identity);
#[cfg(feature = "without")]
work!(without, Clone::clone);

/// The middle one of each column.
fn middle(rounds: &[[f64; 5]]) -> [f64; 5] {
    std::array::from_fn(|column| {
        let mut times: Vec<f64> = rounds.iter().map(|round| round[column]).collect();
        times.sort_by(f64::total_cmp);
        times[times.len() / 2]
    })
}

fn print(name: &str, row: [f64; 5]) {
    let cells = row.map(|cell| format!("{cell:.2} |")).join(" ");
    println!("| {name} | {cells}");
}

type Measure = fn(u32) -> [f64; 5];

fn main() {
    let turns = env::args().nth(1).map_or(40_000, |turns| {
        turns.parse().expect("the number of turns")
    });
    let kinds = [
        ("its own", theirs::measure as Measure),
        ("ours", ours::measure),
        #[cfg(feature = "without")]
        ("none", without::measure),
    ];
    let mut rounds = kinds.map(|_| Vec::new());
    for _ in 0..ROUNDS {
        for (rows, (_, measure)) in rounds.iter_mut().zip(kinds) {
            rows.push(measure(turns));
        }
    }
    let rows = rounds.map(|rounds| middle(&rounds));
    println!("| Pool | ns, 1 thread | 2 | 4 | made, us | bytes |");
    println!("|---|---:|---:|---:|---:|---:|");
    for ((name, _), row) in kinds.iter().zip(rows) {
        print(name, row);
    }
    for ((name, _), row) in kinds.iter().zip(rows).skip(1) {
        let name = format!("{name}, ratio");
        print(&name, std::array::from_fn(|at| row[at] / rows[0][at]));
    }
}
