//! Where the items of threads lie. This file has one test, so that its threads have the numbers
//! from 0 or 1 on.
use kundratu_pool::LinearObjectPool;
use std::collections::HashSet;
use std::sync::Barrier;
use std::thread;

/// A linear pool has so many parts at first, of four items each.
const THREADS: usize = 8;

/// The cache lines, in pairs, of an item that each of some threads pulls, after one of them held so
/// many, so many times.
fn lines(held: usize, times: usize) -> HashSet<usize> {
    let pool = LinearObjectPool::<u32>::new(|| 0, |number| *number = 0);
    let [all_run, one_held, all_hold] = [(); 3].map(|()| Barrier::new(THREADS));
    let run = |thread: usize| {
        drop(pool.pull()); // it has its number from now on
        all_run.wait();
        if thread == 0 {
            for time in 0..times {
                let mut items: Vec<_> = (0..held).map(|_| pool.pull()).collect();
                if time + 1 < times {
                    items.reverse();
                }
            }
        }
        one_held.wait();
        let item = pool.pull();
        all_hold.wait();
        std::ptr::from_ref(&*item) as usize / 128
    };
    thread::scope(|scope| {
        let run = &run;
        let threads: Vec<_> = (0..THREADS).map(|t| scope.spawn(move || run(t))).collect();
        let lines = threads.into_iter().map(|thread| thread.join());
        lines.map(|line| line.expect("it ends")).collect()
    })
}

#[test]
fn threads_of_a_linear_pool_keep_to_cache_lines_of_their_own() {
    for held in [0, 1, 4, 5, 7] {
        for times in 1..4 {
            let lines = lines(held, times);
            assert_eq!(lines.len(), THREADS, "{held} were held {times} times");
        }
    }
}
