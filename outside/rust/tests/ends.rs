//! What a thread leaves at its end, and what a panic leaves of its thread.
use kundratu_pool::{LinearObjectPool, Pool};
use std::panic::{catch_unwind, AssertUnwindSafe};
use std::sync::atomic::{AtomicUsize, Ordering::SeqCst};
use std::sync::{mpsc, Arc, Barrier};
use std::thread;
use std::time::Duration;

/// A pool that counts its items, and how many it made.
fn counting_pool() -> (LinearObjectPool<usize>, Arc<AtomicUsize>) {
    let made = Arc::new(AtomicUsize::new(0));
    let count = Arc::clone(&made);
    let init = move || count.fetch_add(1, SeqCst);
    (LinearObjectPool::new(init, |_| ()), made)
}

/// Among them are some that end before the thread does.
#[test]
fn a_thread_returns_what_it_kept_of_each_of_many_pools() {
    let (first, _) = counting_pool();
    drop(first.pull()); // so this thread has another number
    let pools: Vec<_> = (0..40).map(|_| counting_pool()).collect();
    let use_all = || {
        for (pool, _) in &pools {
            (0..2).for_each(|_| drop(pool.pull()));
            drop(counting_pool().0.pull());
        }
    };
    thread::scope(|scope| scope.spawn(use_all).join()).expect("it ends");
    for (at, (pool, made)) in pools.iter().enumerate() {
        let _item = pool.pull();
        assert_eq!(made.load(SeqCst), 1, "the item of pool {at} is lost");
    }
}

#[test]
fn a_thread_keeps_places_after_a_panic_too() {
    let (pool, made) = counting_pool();
    let [has_kept, may_end] = [(); 2].map(|()| Barrier::new(2));
    let run = || {
        let panics = || {
            let _item = pool.pull();
            panic!("on purpose");
        };
        assert!(catch_unwind(AssertUnwindSafe(panics)).is_err());
        (0..2).for_each(|_| drop(pool.pull()));
        has_kept.wait();
        may_end.wait();
    };
    thread::scope(|scope| {
        scope.spawn(run);
        has_kept.wait();
        let by_thread = made.load(SeqCst);
        drop(pool.pull());
        may_end.wait();
        assert_eq!(by_thread, 1, "the thread didn't keep what the panic returned");
    });
    assert_eq!(made.load(SeqCst), 2, "the thread kept nothing");
}

/// Of three items this thread keeps one, which another one takes after it was refused. What this
/// thread keeps next the other one leaves, and pulls the free one.
#[test]
fn a_thread_that_was_refused_once_takes_what_others_keep_only_if_nothing_else_is_free() {
    let pool = Pool::new(3, || 0, |_| ()).expect("there is memory");
    let (orders, told) = mpsc::channel();
    let (tell, done) = mpsc::channel();
    let limit = Duration::from_secs(60);
    thread::scope(|scope| {
        let pool = &pool;
        scope.spawn(move || {
            let mut held = Vec::new();
            for () in told {
                held.push(pool.pull());
                let number = held.last().and_then(|item| item.as_ref());
                tell.send(number.map(|item| item.number())).expect("somebody waits");
            }
        });
        let other_pulls = || {
            orders.send(()).expect("it runs");
            done.recv_timeout(limit).expect("it runs")
        };
        let items = [(); 3].map(|()| pool.pull());
        assert_eq!(other_pulls(), None);
        let [first, second, third] = items;
        drop(first); // it is kept
        assert!(other_pulls().is_some());
        drop(second); // so is this
        drop(third); // and this is free
        let kept = pool.pull().map(|item| item.number());
        assert_ne!(other_pulls(), kept);
        assert_eq!(pool.pull().map(|item| item.number()), kept);
        drop(orders);
    });
}
