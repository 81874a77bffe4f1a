//! Threads that wait for items of a fair lazy pool get them in the order in which they came.
use kundratu_pool::{LazyPool, PullError};
use std::future::Future;
use std::pin::pin;
use std::sync::atomic::{AtomicBool, AtomicUsize, Ordering::SeqCst};
use std::sync::{Barrier, Mutex};
use std::task::{Context, Waker};
use std::thread;
use std::time::{Duration, Instant};

/// A wait that is longer isn't one for a place, but for one that was lost.
const LOST: Duration = Duration::from_secs(60);

type Numbers = LazyPool<u32, &'static str>;

fn fair(items: usize) -> Numbers {
    let fair = LazyPool::builder(items).init(|| Ok(0)).fair();
    fair.build().expect("there is memory")
}

fn until_waiting(pool: &Numbers, threads: usize) {
    let begun = Instant::now();
    while pool.status().waiting != threads {
        assert!(begun.elapsed() < LOST, "{:?}", pool.status());
        thread::sleep(Duration::from_millis(1));
    }
}

fn is_free(pool: &Numbers) {
    assert_eq!((pool.status().in_use, pool.status().waiting), (0, 0));
}

#[test]
fn who_comes_first_is_served_first() {
    let (pool, order) = (fair(1), Mutex::new(vec![]));
    let item = pool.pull().expect("it is free");
    thread::scope(|scope| {
        for thread in 0..20 {
            let (pool, order) = (&pool, &order);
            scope.spawn(move || {
                let item = pool.pull_timeout(LOST).expect("it was lost");
                order.lock().expect("no panic").push(thread);
                drop(item);
            });
            until_waiting(pool, thread + 1);
        }
        drop(item);
    });
    assert!(order.into_inner().expect("no panic").into_iter().eq(0..20));
    is_free(&pool);
}

/// A thread that returns its item and pulls again comes after those that wait.
#[test]
fn who_returns_an_item_comes_last() {
    let (pool, got) = (fair(1), AtomicUsize::new(0));
    let item = pool.pull().expect("it is free");
    thread::scope(|scope| {
        for _ in 0..3 {
            scope.spawn(|| {
                let _item = pool.pull_wait().expect("it isn't closed");
                got.fetch_add(1, SeqCst);
            });
        }
        until_waiting(&pool, 3);
        drop(item);
        let _item = pool.pull_timeout(LOST).expect("it was lost");
        assert_eq!(got.load(SeqCst), 3);
    });
    is_free(&pool);
}

#[test]
fn a_pull_that_does_not_wait_is_refused_while_others_do() {
    let pool = fair(1);
    let item = pool.pull().expect("it is free");
    let meet = Barrier::new(2);
    thread::scope(|scope| {
        scope.spawn(|| {
            let _item = pool.pull_wait().expect("it isn't closed");
            meet.wait();
            meet.wait();
        });
        until_waiting(&pool, 1);
        assert_eq!(pool.pull().err(), Some(PullError::AllInUse));
        assert!(pool.try_pull().is_none() && pool.attach(7).is_err());
        drop(item); // it is handed over
        assert_eq!(pool.pull().err(), Some(PullError::AllInUse));
        meet.wait();
        assert_eq!(pool.status().waiting, 0);
        meet.wait();
    });
    assert!(pool.pull().is_ok() && pool.try_pull().is_some());
}

#[test]
fn who_gives_up_leaves_the_queue() {
    let pool = fair(1);
    let item = pool.pull().expect("it is free");
    thread::scope(|scope| {
        let soon = Duration::from_millis(30);
        let gives_up = scope.spawn(|| pool.pull_timeout(Duration::from_secs(1)).map(drop));
        until_waiting(&pool, 1);
        let waits = scope.spawn(|| pool.pull_timeout(LOST).map(drop));
        until_waiting(&pool, 2);
        assert_eq!(pool.pull_timeout(soon).err(), Some(PullError::TimedOut));
        assert_eq!(gives_up.join().expect("it ends"), Err(PullError::TimedOut));
        until_waiting(&pool, 1);
        drop(item);
        assert_eq!(waits.join().expect("it ends"), Ok(()));
    });
    is_free(&pool);
    let _item = pool.pull().expect("it is free");
    assert_eq!(pool.pull_timeout(Duration::ZERO).err(), Some(PullError::TimedOut));
}

/// Some give up all the time, just as places are handed to them; the others get theirs.
#[test]
fn a_place_that_is_handed_to_one_that_gives_up_goes_on() {
    let (pool, ends) = (fair(1), AtomicBool::new(false));
    let gives_up = || {
        while !ends.load(SeqCst) {
            drop(pool.pull_timeout(Duration::from_micros(20)));
        }
    };
    thread::scope(|scope| {
        (0..3).for_each(|_| drop(scope.spawn(gives_up)));
        let waits = || (0..500).for_each(|_| drop(pool.pull_timeout(LOST).expect("it was lost")));
        let waiters = [(); 3].map(|()| scope.spawn(waits));
        waiters.into_iter().for_each(|waiter| waiter.join().expect("it ends"));
        ends.store(true, SeqCst);
    });
    is_free(&pool);
}

/// The one that comes first can't make an item, so the next one may.
#[test]
fn a_place_of_an_init_that_fails_goes_to_the_next() {
    let made = AtomicUsize::new(0);
    let init = move || match made.fetch_add(1, SeqCst) {
        1 => Err("on purpose"),
        _ => Ok(0),
    };
    let pool = LazyPool::builder(1).init(init).fair().build();
    let pool = pool.expect("there is memory");
    let item = pool.pull().expect("it is free");
    let got = thread::scope(|scope| {
        let waits = || pool.pull_timeout(LOST).map(drop);
        let waiters = [1, 2].map(|waiting| {
            let waiter = scope.spawn(waits);
            until_waiting(&pool, waiting);
            waiter
        });
        item.discard();
        waiters.map(|waiter| waiter.join().expect("it ends"))
    });
    assert_eq!(got, [Err(PullError::Init("on purpose")), Ok(())]);
}

#[test]
fn eight_threads_on_two_items_get_them_in_rounds() {
    const THREADS: usize = 8;
    let (pool, meet, in_use) = (fair(2), Barrier::new(THREADS), AtomicUsize::new(0));
    let run = |thread: usize| {
        for round in 0..300 {
            meet.wait();
            let item = pool.pull_timeout(LOST).expect("a wake was lost");
            assert!(in_use.fetch_add(1, SeqCst) < 2);
            in_use.fetch_sub(1, SeqCst);
            match (round + thread) % 7 {
                0 => item.discard(),
                1 => assert_eq!(item.detach(), 0),
                _ => drop(item),
            }
        }
    };
    thread::scope(|scope| {
        let run = &run;
        (0..THREADS).for_each(|thread| drop(scope.spawn(move || run(thread))));
    });
    is_free(&pool);
}

/// So it is while a task still waits that wasn't polled since.
#[test]
fn a_pull_of_a_closed_pool_says_that_it_is_closed() {
    let pool = fair(1);
    let _item = pool.pull().expect("it is free");
    let mut task = pin!(pool.pull_async());
    let mut context = Context::from_waker(Waker::noop());
    assert!(task.as_mut().poll(&mut context).is_pending());
    assert_eq!(pool.pull().err(), Some(PullError::AllInUse));
    pool.close();
    assert_eq!(pool.status().waiting, 1);
    assert_eq!(pool.pull().err(), Some(PullError::Closed));
}
