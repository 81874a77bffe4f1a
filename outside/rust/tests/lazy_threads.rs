//! What threads see that share a lazy pool: who waits gets a place, whatever becomes of an item.
use kundratu_pool::{LazyOwnedReusable, LazyPool, LazyReusable, PullError};
use std::panic::{catch_unwind, AssertUnwindSafe};
use std::sync::atomic::{AtomicBool, AtomicUsize, Ordering::SeqCst};
use std::sync::{mpsc, Arc, Barrier};
use std::time::{Duration, Instant};
use std::{iter, mem, thread};

/// A wait that is longer isn't one for a place, but for one that was lost.
const LOST: Duration = Duration::from_secs(30);
/// In such a time a thread falls asleep.
const SOON: Duration = Duration::from_millis(20);

/// Something that goes wrong once, when another thread waits for the place.
struct Trap {
    is_set: AtomicBool,
    meet: Barrier,
}

impl Trap {
    fn new() -> Arc<Trap> {
        let (is_set, meet) = (AtomicBool::new(false), Barrier::new(2));
        Arc::new(Trap { is_set, meet })
    }

    /// Lets the other thread wait, if the trap is set. Returns whether it was.
    fn springs(&self) -> bool {
        let is_set = self.is_set.swap(false, SeqCst);
        if is_set {
            self.meet.wait();
            thread::sleep(SOON);
        }
        is_set
    }
}

/// An item whose drop meets the trap, and panics then.
struct Item(Option<Arc<Trap>>);

impl Drop for Item {
    fn drop(&mut self) {
        let springs = self.0.take().is_some_and(|trap| trap.springs());
        assert!(!springs || thread::panicking(), "on purpose");
    }
}

type Items = LazyPool<Item, &'static str>;
type One<'p> = LazyReusable<'p, Item, &'static str>;

/// A pool of one place, by this reset.
fn one(reset: impl Fn(&mut Item) -> bool + Send + Sync + 'static) -> Items {
    LazyPool::new(1, || Ok(Item(None)), reset).expect("there is memory")
}

/// While this call has the place, another thread waits for it, and gets it.
fn gets_the_place(trap: &Trap, pool: &Items, call: impl FnOnce(&Items)) {
    trap.is_set.store(true, SeqCst);
    let waits = || {
        trap.meet.wait();
        pool.pull_timeout(LOST).map(drop)
    };
    let got = thread::scope(|scope| {
        let waiter = scope.spawn(waits);
        let _ = catch_unwind(AssertUnwindSafe(|| call(pool)));
        waiter.join().expect("it doesn't panic")
    });
    assert_eq!(got, Ok(()));
    assert!(!trap.is_set.load(SeqCst), "nothing went wrong");
    assert_eq!((pool.status().in_use, pool.status().waiting), (0, 0));
    assert_eq!(pool.pull().map(drop), Ok(()));
}

#[test]
fn who_waits_gets_the_place_of_an_init_that_fails_or_panics() {
    for panics in [false, true] {
        let (trap, of_init) = Trap::new().zip();
        let init = move || match of_init.springs() {
            true if panics => panic!("on purpose"),
            true => Err("on purpose"),
            false => Ok(Item(None)),
        };
        let pool = LazyPool::new(1, init, |_| true).expect("there is memory");
        gets_the_place(&trap, &pool, |pool| drop(pool.pull()));
    }
}

#[test]
fn who_waits_gets_the_place_of_a_fill_that_fails_or_succeeds() {
    for fails in [false, true] {
        let (trap, of_init) = Trap::new().zip();
        let init = move || match of_init.springs() && fails {
            true => Err("on purpose"),
            false => Ok(Item(None)),
        };
        let pool = LazyPool::new(1, init, |_| true).expect("there is memory");
        gets_the_place(&trap, &pool, |pool| assert_eq!(pool.fill(1).is_err(), fails));
    }
}

#[test]
fn who_waits_gets_the_place_of_a_reset_that_keeps_rejects_or_panics() {
    for answer in [Some(true), Some(false), None] {
        let (trap, of_reset) = Trap::new().zip();
        let pool = one(move |_| match of_reset.springs() {
            true => answer.expect("on purpose"),
            false => true,
        });
        gets_the_place(&trap, &pool, |pool| drop(pool.pull()));
    }
}

#[test]
fn who_waits_gets_the_place_of_a_check_that_rejects_or_panics() {
    for panics in [false, true] {
        let (trap, of_check) = Trap::new().zip();
        let pool = one(|_| true).with_check(move |_| match of_check.springs() {
            true if panics => panic!("on purpose"),
            springs => !springs,
        });
        assert_eq!(pool.fill(1), Ok(()));
        gets_the_place(&trap, &pool, |pool| drop(pool.try_pull()));
        gets_the_place(&trap, &pool, |pool| drop(pool.pull()));
    }
}

#[test]
fn who_waits_gets_the_place_of_an_item_whose_drop_panics() {
    let calls: [fn(One<'_>); 2] = [|item| drop(item), |item| item.discard()];
    for call in calls {
        let trap = Trap::new();
        let pool = one(|item| item.0.is_none());
        gets_the_place(&trap, &pool, |pool| {
            let mut item = pool.pull().expect("it is free");
            item.0 = Some(Arc::clone(&trap));
            call(item);
        });
    }
}

#[test]
fn who_waits_gets_the_place_of_an_item_that_is_thrown_away() {
    let calls: [fn(One<'_>); 2] = [|item| item.discard(), |item| mem::forget(item.detach())];
    for call in calls {
        let (trap, pool) = (Trap::new(), one(|_| true));
        gets_the_place(&trap, &pool, |pool| {
            let item = pool.pull().expect("it is free");
            assert!(trap.springs());
            call(item);
        });
    }
}

fn numbers(items: usize) -> LazyPool<u64, &'static str> {
    LazyPool::new(items, || Ok(0), |_| true).expect("there is memory")
}

/// Waits until so many threads wait, and lets them fall asleep.
fn until_asleep<T, E>(pool: &LazyPool<T, E>, threads: usize) {
    while pool.status().waiting != threads {
        thread::sleep(Duration::from_millis(1));
    }
    thread::sleep(SOON);
}

/// Of two threads that wait, the one that is woken can't make an item, so the other one may.
#[test]
fn a_waiter_whose_init_fails_wakes_the_next() {
    for panics in [false, true] {
        let made = AtomicUsize::new(0);
        let init = move || match made.fetch_add(1, SeqCst) {
            1 if panics => panic!("on purpose"),
            1 => Err("on purpose"),
            _ => Ok(Item(None)),
        };
        let pool = LazyPool::new(1, init, |_| true).expect("there is memory");
        let item = pool.pull().expect("it is free");
        let waits = || catch_unwind(AssertUnwindSafe(|| pool.pull_timeout(LOST).map(drop)));
        let got = thread::scope(|scope| {
            let waiters = [scope.spawn(waits), scope.spawn(waits)];
            until_asleep(&pool, 2);
            item.discard();
            waiters.map(|waiter| waiter.join().expect("it caught its panic"))
        });
        assert_eq!(got.iter().filter(|got| matches!(got, Ok(Ok(())))).count(), 1);
        let failed = |got: &&_| match got {
            Ok(Err(PullError::Init("on purpose"))) => !panics,
            Err(_) => panics,
            _ => false,
        };
        assert_eq!(got.iter().filter(failed).count(), 1);
    }
}

#[test]
fn a_closed_pool_wakes_all_who_wait() {
    let pool = Arc::new(numbers(2));
    let held = [pool.pull(), pool.pull()];
    let waits = |thread: usize| match thread % 4 {
        0 => pool.pull_wait().map(drop),
        1 => pool.pull_timeout(LOST).map(drop),
        2 => pool.pull_owned_wait().map(drop),
        _ => pool.pull_owned_timeout(LOST).map(drop),
    };
    let got = thread::scope(|scope| {
        let waits = &waits;
        let waiters: Vec<_> = (0..8).map(|t| scope.spawn(move || waits(t))).collect();
        until_asleep(&pool, 8);
        pool.close();
        let got = waiters.into_iter().map(|waiter| waiter.join().expect("it ends"));
        got.collect::<Vec<_>>()
    });
    assert_eq!(got, [Err(PullError::Closed); 8]);
    drop(held);
    assert_eq!((pool.status().made, pool.status().waiting), (0, 0));
}

/// Items come back to a pool while another thread closes it: none stays.
#[test]
fn what_comes_back_to_a_pool_that_is_closed_just_then_is_dropped() {
    for _ in 0..100 {
        let (pool, meet) = (numbers(8), Barrier::new(4));
        let turns = || {
            meet.wait();
            iter::from_fn(|| pool.pull_wait().ok()).for_each(drop);
        };
        thread::scope(|scope| {
            let threads = [(); 3].map(|()| scope.spawn(turns));
            meet.wait();
            thread::yield_now();
            pool.close();
            threads.into_iter().for_each(|thread| thread.join().expect("it ends"));
        });
        assert_eq!((pool.status().made, pool.status().in_use), (0, 0));
        assert_eq!(pool.pull().err(), Some(PullError::Closed));
    }
}

/// Each round is over only if none of the eight is left waiting beside a free place.
#[test]
fn eight_threads_that_wait_for_two_items_get_them() {
    const THREADS: usize = 8;
    const ROUNDS: usize = 1_000;
    let (pool, meet) = (numbers(2), Barrier::new(THREADS));
    let wrong = AtomicUsize::new(0);
    let run = |thread: usize| {
        for round in 0..ROUNDS {
            meet.wait();
            let mine = (round * THREADS + thread) as u64;
            let mut item = pool.pull_timeout(LOST).expect("a wake was lost");
            *item = mine;
            if mine % 3 == 0 {
                thread::yield_now();
            }
            wrong.fetch_add(usize::from(*item != mine), SeqCst);
            match mine % 7 {
                0 => item.discard(),
                1 => assert_eq!(item.detach(), mine),
                _ => drop(item),
            }
        }
    };
    thread::scope(|scope| {
        let run = &run;
        (0..THREADS).for_each(|thread| drop(scope.spawn(move || run(thread))));
    });
    assert_eq!((wrong.load(SeqCst), pool.status().in_use), (0, 0));
}

/// Some give up all the time; those who don't get their item.
#[test]
fn who_waits_on_gets_the_item_though_others_give_up() {
    let (pool, ends) = (numbers(1), AtomicBool::new(false));
    let gives_up = || {
        while !ends.load(SeqCst) {
            let _ = pool.pull_timeout(Duration::from_micros(50)).map(drop);
        }
    };
    thread::scope(|scope| {
        (0..3).for_each(|_| drop(scope.spawn(gives_up)));
        let waits = || (0..500).for_each(|_| drop(pool.pull_timeout(LOST).expect("it was lost")));
        let waiters = [(); 3].map(|()| scope.spawn(waits));
        waiters.into_iter().for_each(|waiter| waiter.join().expect("it ends"));
        ends.store(true, SeqCst);
    });
    assert_eq!((pool.status().in_use, pool.status().waiting), (0, 0));
}

/// Items of which some are thrown away: at no time are there more than there may be.
#[test]
fn there_are_never_more_items_than_places() {
    const ITEMS: usize = 3;
    let there_are = Arc::new(AtomicUsize::new(0));
    struct Counted(Arc<AtomicUsize>);
    impl Drop for Counted {
        fn drop(&mut self) {
            self.0.fetch_sub(1, SeqCst);
        }
    }
    let count = Arc::clone(&there_are);
    let init = move || {
        assert!(count.fetch_add(1, SeqCst) < ITEMS, "there are too many");
        Ok::<_, ()>(Counted(Arc::clone(&count)))
    };
    let turn = AtomicUsize::new(0);
    let pool = LazyPool::new(ITEMS, init, move |_| turn.fetch_add(1, SeqCst) % 3 != 0);
    let pool = pool.expect("there is memory");
    let run = || {
        for turn in 0..5_000 {
            let item = pool.pull_wait().expect("there aren't too many");
            match turn % 5 {
                0 => item.discard(),
                1 => pool.clear(),
                _ => drop(item),
            }
        }
    };
    thread::scope(|scope| (0..6).for_each(|_| drop(scope.spawn(run))));
    assert_eq!(there_are.load(SeqCst), pool.status().made);
    pool.clear();
    assert_eq!(there_are.load(SeqCst), 0);
}

/// At most one of two places is in use: another thread holds the only item, or tries to make a second
/// one, which fails. So no pull is refused, and none is late.
#[test]
fn an_init_that_fails_beside_it_refuses_no_pull() {
    let (made, ends) = (AtomicUsize::new(0), AtomicBool::new(false));
    let init = move || match made.fetch_add(1, SeqCst) {
        0 => Ok(()),
        _ => Err("on purpose"),
    };
    let pool = LazyPool::new(2, init, |()| true).expect("there is memory");
    assert_eq!(pool.fill(1), Ok(()));
    let other = || {
        while !ends.load(SeqCst) {
            drop(pool.try_pull());
            assert_ne!(pool.fill(2), Err(PullError::Closed));
        }
    };
    thread::scope(|scope| {
        scope.spawn(other);
        let begun = Instant::now();
        while begun.elapsed() < Duration::from_millis(300) {
            let refused = [pool.pull().err(), pool.pull_timeout(LOST).err()];
            let failed = |error| matches!(error, None | Some(PullError::Init(_)));
            if !refused.into_iter().all(failed) {
                ends.store(true, SeqCst);
                panic!("it was refused: {refused:?}");
            }
        }
        ends.store(true, SeqCst);
    });
    assert_eq!((pool.status().made, pool.status().in_use), (1, 0));
}

#[test]
fn a_limit_of_time_is_over_all_though_others_go_on() {
    let (pool, ends) = (numbers(1), AtomicBool::new(false));
    let item = pool.pull().expect("it is free");
    let longest = thread::scope(|scope| {
        (0..4).for_each(|_| {
            scope.spawn(|| {
                while !ends.load(SeqCst) {
                    let got = pool.pull_timeout(Duration::from_micros(100)).map(drop);
                    assert_eq!(got, Err(PullError::TimedOut));
                }
            });
        });
        let begun = Instant::now();
        let got = pool.pull_timeout(Duration::from_millis(50)).map(drop);
        assert_eq!(got, Err(PullError::TimedOut));
        ends.store(true, SeqCst);
        begun.elapsed()
    });
    assert!(longest < Duration::from_secs(20));
    drop(item);
}

#[test]
fn owned_items_go_from_thread_to_thread() {
    let pool = Arc::new(numbers(4));
    let (sender, receiver) = mpsc::channel::<LazyOwnedReusable<u64, &'static str>>();
    let sends = {
        let pool = Arc::clone(&pool);
        move || {
            for number in 0..5_000 {
                let mut item = pool.pull_owned_wait().expect("it isn't closed");
                *item = number;
                sender.send(item).expect("it is read");
            }
        }
    };
    let sender = thread::spawn(sends);
    assert!(receiver.iter().map(|item| *item).eq(0..5_000));
    sender.join().expect("it ends");
    assert!(pool.status().made <= 4);
}

#[test]
fn more_threads_than_have_numbers_wait() {
    let pool = numbers(3);
    let run = || (0..20).for_each(|_| drop(pool.pull_timeout(LOST).expect("it was lost")));
    thread::scope(|scope| (0..200).for_each(|_| drop(scope.spawn(run))));
    assert_eq!((pool.status().in_use, pool.status().waiting), (0, 0));
}

/// Two of something shared.
trait Zip: Sized {
    fn zip(self) -> (Self, Self);
}

impl<S> Zip for Arc<S> {
    fn zip(self) -> (Self, Self) {
        (Arc::clone(&self), self)
    }
}
