//! How long a pull and its return take, and how long it takes a pool that grows to make the next item.
//! `KUNDRATU_BENCH_TURNS` says how many turns a thread makes, where it isn't 1,000,000.
use kundratu_pool::{LinearObjectPool, Pool};
use std::env;
use std::hint::black_box;
use std::sync::Barrier;
use std::thread;
use std::time::Instant;

const ITEMS: usize = 65_536;
const ROUNDS: usize = 5;

/// Nanoseconds a pull and return, of the best of some rounds, while so many items are held and so
/// many threads pull.
fn measure(pool: &Pool<u64>, held: usize, threads: usize, turns: u32) -> f64 {
    let guards: Vec<_> = (0..held).map(|_| pool.pull().expect("one is free")).collect();
    let best = (0..ROUNDS).map(|_| one_round(pool, threads, turns)).fold(f64::INFINITY, f64::min);
    drop(guards);
    best
}

fn one_round(pool: &Pool<u64>, threads: usize, turns: u32) -> f64 {
    let start = Barrier::new(threads);
    let run = || {
        start.wait();
        let begun = Instant::now();
        for _ in 0..turns {
            *black_box(pool.pull().expect("one is free")) += 1;
        }
        begun.elapsed().as_nanos() as f64 / f64::from(turns)
    };
    thread::scope(|scope| {
        let runs: Vec<_> = (0..threads).map(|_| scope.spawn(run)).collect();
        let times = runs.into_iter().map(|run| run.join().expect("it ends"));
        times.fold(0.0, f64::max)
    })
}

/// The least nanoseconds an item of some first pulls of a pool that grows, of the returns, and of the
/// pulls after them. Where the guards lie was written to before.
fn first_pulls(items: usize) -> [f64; 3] {
    let mut least = [f64::INFINITY; 3];
    for _ in 0..ROUNDS {
        let pool = LinearObjectPool::<u64>::new(|| 0, |number| *number = 0);
        let mut held: Vec<_> = (0..items).map(|_| None).collect();
        let pull = |held: &mut Vec<_>| {
            let begun = Instant::now();
            held.iter_mut().for_each(|room| *room = Some(pool.pull()));
            begun.elapsed()
        };
        let first = pull(&mut held);
        let begun = Instant::now();
        held.iter_mut().for_each(|room| *room = None);
        let times = [first, begun.elapsed(), pull(&mut held)];
        for (least, time) in least.iter_mut().zip(times) {
            *least = least.min(time.as_nanos() as f64 / items as f64);
        }
    }
    least
}

/// The least nanoseconds a pull and return of a pool that grows, while so many items are held.
fn grown(held: usize, turns: u32) -> f64 {
    let pool = LinearObjectPool::<u64>::new(|| 0, |number| *number = 0);
    let _held: Vec<_> = (0..held).map(|_| pool.pull()).collect();
    let round = |_| {
        let begun = Instant::now();
        (0..turns).for_each(|_| *black_box(pool.pull()) += 1);
        begun.elapsed().as_nanos() as f64 / f64::from(turns)
    };
    (0..ROUNDS).map(round).fold(f64::INFINITY, f64::min)
}

fn grow(turns: u32) {
    for held in [0, 32_768] {
        println!("LinearObjectPool, {held} held: {:.1}", grown(held, turns));
    }
    println!("LinearObjectPool, nanoseconds an item: its first pull, its return, a pull again");
    let sizes = [4_096, 32_768, 262_144, 1_048_576, 4_194_304];
    for items in sizes.into_iter().filter(|items| *items <= turns as usize * 5) {
        let [first, give_back, again] = first_pulls(items);
        println!("{items:>9}: {first:.1}, {give_back:.1}, {again:.1}");
    }
}

fn main() {
    let turns = env::var("KUNDRATU_BENCH_TURNS")
        .map_or(1_000_000, |turns| turns.parse().expect("KUNDRATU_BENCH_TURNS is a number"));
    let pool = Pool::new(ITEMS, || 0_u64, |number| *number = 0).expect("there is memory");
    println!("{ITEMS} items, nanoseconds a pull and return");
    for held in [0, 32, 1_024, 32_768] {
        println!("{held:>6} held: {:.1}", measure(&pool, held, 1, turns));
    }
    for threads in [2, 4] {
        println!("{threads} threads: {:.1}", measure(&pool, 0, threads, turns));
    }
    grow(turns);
}
