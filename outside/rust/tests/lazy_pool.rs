//! What a user of the lazy pool sees, in one thread.
use kundratu_pool::{LazyOwnedReusable, LazyPool, LazyReusable, PullError};
use std::collections::HashSet;
use std::panic::{catch_unwind, AssertUnwindSafe};
use std::sync::atomic::{AtomicBool, AtomicUsize, Ordering::SeqCst};
use std::sync::{Arc, OnceLock};
use std::time::{Duration, Instant};
use std::{iter, mem};

type Numbers = LazyPool<u32, &'static str>;

/// A pool whose items are numbered as they are made, and kept.
fn numbered(items: usize) -> Numbers {
    let next = AtomicUsize::new(0);
    let init = move || Ok(next.fetch_add(1, SeqCst) as u32);
    LazyPool::new(items, init, |_| true).expect("there is memory")
}

/// How many items are made and in use.
fn counts<T, E>(pool: &LazyPool<T, E>) -> (usize, usize) {
    let status = pool.status();
    (status.made, status.in_use)
}

/// Each of so many places can be had, and no more of them.
fn all_can_be_had<T, E: std::fmt::Debug>(pool: &LazyPool<T, E>, items: usize) {
    let held: Vec<_> = (0..items).map(|_| pool.pull().expect("a place is free")).collect();
    assert!(matches!(pool.pull(), Err(PullError::AllInUse)));
    assert_eq!(counts(pool), (items, items));
    drop(held);
    assert_eq!(counts(pool), (items, 0));
}

fn panics(call: impl FnOnce()) -> bool {
    catch_unwind(AssertUnwindSafe(call)).is_err()
}

#[test]
fn nothing_is_made_before_it_is_needed() {
    let pool = numbered(100);
    assert_eq!(counts(&pool), (0, 0));
    assert!(pool.try_pull().is_none());
    for _ in 0..100 {
        assert_eq!(*pool.pull().expect("it is free"), 0);
    }
    assert_eq!(counts(&pool), (1, 0));
    assert_eq!(pool.try_pull().as_deref(), Some(&0));
}

#[test]
fn a_made_item_is_preferred_wherever_it_lies() {
    let pool = numbered(200);
    let mut held: Vec<_> = (0..200).map(|_| Some(pool.pull().expect("one is free"))).collect();
    for kept in [0, 63, 64, 199] {
        held.iter_mut().flatten().for_each(|_| ());
        let others = held.iter_mut().enumerate().filter(|(at, _)| *at != kept);
        others.filter_map(|(_, item)| item.take()).for_each(LazyReusable::discard);
        assert_eq!(counts(&pool), (1, 1));
        drop(held[kept].take());
        let made = pool.pull().expect("it is free");
        assert_eq!(pool.status().made, 1);
        held = iter::once(Some(made)).chain((1..200).map(|_| pool.pull().ok())).collect();
        assert!(held.iter().all(Option::is_some));
    }
}

/// After some pulls that made items, so that no look for a free one is made any more.
#[test]
fn an_item_that_came_back_is_preferred_to_making_one() {
    for before in 0..4 {
        let pool = numbered(500);
        let mut held: Vec<_> = (0..before).map(|_| pool.pull()).collect();
        for made in before + 1..before + 100 {
            held.push(pool.pull());
            drop(held.swap_remove((made * 7) % held.len()));
            held.push(pool.pull());
            assert_eq!((counts(&pool), held.len()), ((made, made), made));
        }
    }
}

/// The same, where another thread returns it.
#[test]
fn an_item_that_another_thread_returned_is_preferred() {
    let pool = numbered(500);
    let mut held: Vec<_> = (0..50).map(|_| pool.pull().ok()).collect();
    for at in 0..50 {
        let item = held[at].take();
        std::thread::scope(|scope| drop(scope.spawn(|| drop(item))));
        held[at] = pool.pull().ok();
        assert_eq!(counts(&pool), (50, 50));
    }
}

#[test]
fn each_place_is_had_once_and_then_none() {
    for items in [1, 2, 31, 32, 33, 100, 300] {
        let pool = numbered(items);
        let held: Vec<_> = iter::from_fn(|| pool.pull().ok()).collect();
        let numbers: HashSet<u32> = held.iter().map(|item| **item).collect();
        assert_eq!(numbers, (0..items as u32).collect());
        assert!(pool.try_pull().is_none());
        assert_eq!(pool.pull().err(), Some(PullError::AllInUse));
        drop(held);
        all_can_be_had(&pool, items);
        let kept = iter::from_fn(|| pool.try_pull().map(|item| item.detach()));
        let kept: HashSet<u32> = kept.take(1_000).collect();
        assert_eq!(kept, numbers);
    }
}

#[test]
fn an_item_comes_as_its_reset_left_it() {
    let pool = LazyPool::<u32, ()>::new(
        1,
        || Ok(1),
        |number| {
            *number *= 2;
            true
        },
    );
    let pool = pool.expect("there is memory");
    for turn in 0..5 {
        let mut item = pool.pull().expect("it is free");
        assert_eq!(*item, [1, 6, 16, 36, 76][turn]);
        *item += 2;
    }
}

#[test]
fn an_init_that_fails_says_why_and_loses_no_place() {
    let fails = Arc::new(AtomicBool::new(true));
    let asked = Arc::clone(&fails);
    let init = move || {
        if asked.load(SeqCst) {
            Err("no server")
        } else {
            Ok(0)
        }
    };
    let pool = LazyPool::<u32, _>::new(40, init, |_| true).expect("there is memory");
    for _ in 0..100 {
        assert_eq!(pool.pull().err(), Some(PullError::Init("no server")));
        assert_eq!(pool.pull_wait().err(), Some(PullError::Init("no server")));
        assert_eq!(pool.fill(3), Err(PullError::Init("no server")));
    }
    assert_eq!(counts(&pool), (0, 0));
    fails.store(false, SeqCst);
    all_can_be_had(&pool, 40);
}

#[test]
fn an_init_that_panics_loses_no_place() {
    let fails = Arc::new(AtomicBool::new(true));
    let asked = Arc::clone(&fails);
    let init = move || {
        assert!(!asked.load(SeqCst), "on purpose");
        Ok::<_, ()>(0)
    };
    let pool = LazyPool::<u32, ()>::new(2, init, |_| true).expect("there is memory");
    for _ in 0..5 {
        assert!(panics(|| drop(pool.pull())) && panics(|| drop(pool.pull_wait())));
        assert!(panics(|| assert_eq!(pool.fill(1), Ok(()))));
    }
    assert_eq!(counts(&pool), (0, 0));
    fails.store(false, SeqCst);
    all_can_be_had(&pool, 2);
}

/// Counts how many there are, and panics at its drop if it is told to.
struct Counted {
    there_are: Arc<AtomicUsize>,
    panics: bool,
}

impl Drop for Counted {
    fn drop(&mut self) {
        self.there_are.fetch_sub(1, SeqCst);
        assert!(!self.panics, "on purpose");
    }
}

/// A pool of items that are counted, by this reset. Returns their count too.
fn counted(
    items: usize,
    reset: impl Fn(&mut Counted) -> bool + Send + Sync + 'static,
) -> (LazyPool<Counted, ()>, Arc<AtomicUsize>) {
    let there_are = Arc::new(AtomicUsize::new(0));
    let count = Arc::clone(&there_are);
    let init = move || {
        count.fetch_add(1, SeqCst);
        let there_are = Arc::clone(&count);
        Ok(Counted { there_are, panics: false })
    };
    (LazyPool::new(items, init, reset).expect("there is memory"), there_are)
}

#[test]
fn a_rejected_item_is_dropped_and_its_place_is_empty() {
    let (pool, there_are) = counted(2, |item| !item.panics);
    let (mut one, _other) = (pool.pull().expect("one is free"), pool.pull().expect("one is free"));
    one.panics = true;
    assert!(panics(|| drop(one)), "the item's drop");
    assert_eq!((there_are.load(SeqCst), counts(&pool)), (1, (1, 1)));
    let _one = pool.pull().expect("its place is free");
    assert_eq!((there_are.load(SeqCst), counts(&pool)), (2, (2, 2)));
}

#[test]
fn an_item_whose_reset_panics_is_dropped_and_its_place_is_empty() {
    let (pool, there_are) = counted(2, |_| panic!("on purpose"));
    for _ in 0..5 {
        let item = pool.pull().expect("one is free");
        assert!(panics(|| drop(item)));
        assert_eq!((there_are.load(SeqCst), counts(&pool)), (0, (0, 0)));
    }
}

#[test]
fn a_discarded_item_is_dropped_without_reset() {
    let (pool, there_are) = counted(40, |_| panic!("it isn't reset"));
    for panicked in [false, true] {
        for _ in 0..100 {
            let mut item = pool.pull().expect("one is free");
            item.panics = panicked;
            assert_eq!(panics(|| item.discard()), panicked);
            assert_eq!((there_are.load(SeqCst), counts(&pool)), (0, (0, 0)));
        }
    }
    let held: Vec<_> = iter::from_fn(|| pool.pull().ok()).collect();
    assert_eq!(held.len(), 40);
    held.into_iter().for_each(LazyReusable::discard);
}

#[test]
fn a_detached_item_lives_on_and_its_place_is_empty() {
    let (pool, there_are) = counted(1, |_| panic!("it isn't reset"));
    let detached: Vec<_> = (0..5).map(|_| pool.pull().expect("it is free").detach()).collect();
    assert_eq!((there_are.load(SeqCst), counts(&pool)), (5, (0, 0)));
    drop(pool);
    assert_eq!(detached.len(), 5);
    drop(detached);
    assert_eq!(there_are.load(SeqCst), 0);
}

#[test]
fn a_check_is_made_at_each_pull_of_a_made_item() {
    let checks = Arc::new(AtomicUsize::new(0));
    let count = Arc::clone(&checks);
    let pool = numbered(3).with_check(move |number| {
        count.fetch_add(1, SeqCst);
        *number != 0
    });
    assert_eq!(pool.pull().as_deref(), Ok(&0));
    assert_eq!((checks.load(SeqCst), counts(&pool)), (0, (1, 0)));
    // The item is rejected, and another one made in its place.
    assert_eq!(pool.pull().as_deref(), Ok(&1));
    assert_eq!((checks.load(SeqCst), counts(&pool)), (1, (1, 0)));
    assert_eq!(pool.pull_wait().as_deref(), Ok(&1));
    assert_eq!(pool.try_pull().as_deref(), Some(&1));
    assert_eq!((checks.load(SeqCst), counts(&pool)), (3, (1, 0)));
}

#[test]
fn a_try_goes_on_to_a_made_item_that_the_check_keeps() {
    let pool = numbered(3).with_check(|number| *number == 2);
    assert_eq!(pool.fill(3), Ok(()));
    assert_eq!(pool.try_pull().as_deref(), Some(&2));
    let two = pool.try_pull();
    assert!(pool.try_pull().is_none());
    drop(two);
    assert!(pool.status().made <= 3);
    all_can_be_had(&numbered(3), 3);
}

#[test]
fn a_check_that_panics_loses_no_place() {
    let (pool, there_are) = counted(1, |_| true);
    let pool = pool.with_check(|_| panic!("on purpose"));
    for _ in 0..5 {
        drop(pool.pull().expect("it is made"));
        assert!(panics(|| drop(pool.pull())));
        assert_eq!((there_are.load(SeqCst), counts(&pool)), (0, (0, 0)));
        drop(pool.pull().expect("it is made"));
        assert!(panics(|| drop(pool.try_pull())));
        assert_eq!((there_are.load(SeqCst), counts(&pool)), (0, (0, 0)));
    }
}

#[test]
fn fill_makes_so_many_and_no_more_than_there_may_be() {
    let pool = numbered(100);
    for (items, made) in [(0, 0), (40, 40), (30, 40), (usize::MAX, 100), (100, 100)] {
        assert_eq!(pool.fill(items), Ok(()));
        assert_eq!(counts(&pool), (made, 0));
    }
    let _held: Vec<_> = iter::from_fn(|| pool.try_pull()).take(1_000).collect();
    assert_eq!((pool.fill(100), counts(&pool)), (Ok(()), (100, 100)));
}

#[test]
fn clear_drops_what_is_free() {
    let (pool, there_are) = counted(100, |_| true);
    assert_eq!(pool.fill(90), Ok(()));
    let held: Vec<_> = (0..10).map(|_| pool.pull().expect("one is free")).collect();
    pool.clear();
    assert_eq!((there_are.load(SeqCst), counts(&pool)), (10, (10, 10)));
    drop(held);
    assert_eq!((there_are.load(SeqCst), counts(&pool)), (10, (10, 0)));
    pool.clear();
    assert_eq!((there_are.load(SeqCst), counts(&pool)), (0, (0, 0)));
    all_can_be_had(&pool, 100);
}

#[test]
fn clear_loses_no_place_though_a_drop_panics() {
    let (pool, there_are) = counted(40, |_| true);
    let held: Vec<_> = iter::from_fn(|| pool.pull().ok()).collect();
    for mut item in held {
        item.panics = true;
    }
    for left in (0..40).rev() {
        assert!(panics(|| pool.clear()));
        assert_eq!((there_are.load(SeqCst), counts(&pool)), (left, (left, 0)));
    }
    pool.clear();
    all_can_be_had(&pool, 40);
}

#[test]
fn a_closed_pool_gives_nothing_and_drops_what_comes_back() {
    let (pool, there_are) = counted(50, |_| panic!("it isn't reset"));
    let pool = Arc::new(pool);
    assert_eq!(pool.fill(30), Ok(()));
    let held: Vec<_> = (0..10).map(|_| pool.pull().expect("one is free")).collect();
    let owned: LazyOwnedReusable<_, _> = pool.pull_owned().expect("one is free");
    assert!(!pool.is_closed());
    pool.close();
    assert!(pool.is_closed());
    assert_eq!((there_are.load(SeqCst), counts(&pool)), (11, (11, 11)));
    let limit = Duration::from_secs(60);
    let refused = [
        pool.pull().err(),
        pool.pull_wait().err(),
        pool.pull_timeout(limit).err(),
        pool.pull_owned().err(),
        pool.pull_owned_wait().err(),
        pool.pull_owned_timeout(limit).err(),
        pool.fill(40).err(),
    ];
    assert!(refused.iter().all(|error| *error == Some(PullError::Closed)));
    assert!(pool.try_pull().is_none() && pool.try_pull_owned().is_none());
    drop(held);
    assert_eq!((there_are.load(SeqCst), counts(&pool)), (1, (1, 1)));
    pool.close();
    drop(owned);
    assert_eq!((there_are.load(SeqCst), counts(&pool)), (0, (0, 0)));
}

#[test]
fn items_are_dropped_once_with_their_pool() {
    let (pool, there_are) = counted(100, |_| true);
    assert_eq!(pool.fill(70), Ok(()));
    mem::forget(pool.pull());
    drop(pool);
    assert_eq!(there_are.load(SeqCst), 0);
}

#[test]
fn what_runs_within_a_call_may_use_the_pool() {
    static POOL: OnceLock<LazyPool<u32, ()>> = OnceLock::new();
    let use_it = || {
        let pool = POOL.get().expect("it is there");
        let others = [pool.try_pull(), pool.pull().ok()];
        others.into_iter().flatten().for_each(LazyReusable::discard);
        assert!(pool.status().in_use <= 8);
    };
    let depth = AtomicUsize::new(0);
    let nested = Arc::new(move || {
        if depth.fetch_add(1, SeqCst) < 3 {
            use_it();
        }
        depth.fetch_sub(1, SeqCst);
    });
    let [first, second, third] = [(); 3].map(|()| Arc::clone(&nested));
    let init = move || {
        first();
        Ok(0)
    };
    let reset = move |_: &mut u32| {
        second();
        true
    };
    let pool = LazyPool::new(8, init, reset).expect("there is memory");
    let pool = pool.with_check(move |_| {
        third();
        true
    });
    let pool = POOL.get_or_init(|| pool);
    for _ in 0..3 {
        drop((pool.pull(), pool.pull_wait(), pool.try_pull()));
    }
    all_can_be_had_of(pool);
}

fn all_can_be_had_of(pool: &LazyPool<u32, ()>) {
    pool.clear();
    assert_eq!(counts(pool), (0, 0));
}

#[test]
fn an_owned_item_keeps_its_pool_and_a_refused_pull_none() {
    let pool = Arc::new(numbered(3));
    let weak = Arc::downgrade(&pool);
    let items = [
        pool.pull_owned(),
        pool.pull_owned_wait(),
        pool.pull_owned_timeout(Duration::from_secs(60)),
    ];
    assert_eq!(Arc::strong_count(&pool), 4);
    assert_eq!(pool.pull_owned().err(), Some(PullError::AllInUse));
    assert!(pool.try_pull_owned().is_none());
    assert_eq!(pool.pull_owned_timeout(Duration::ZERO).err(), Some(PullError::TimedOut));
    assert_eq!(Arc::strong_count(&pool), 4);
    for item in items {
        *item.expect("it was free") = 7;
        assert_eq!(pool.try_pull_owned().as_deref(), Some(&7));
    }
    drop(pool);
    assert!(weak.upgrade().is_none());
}

#[test]
fn a_limit_of_time_is_over_all() {
    let pool = numbered(1);
    let begun = Instant::now();
    let _item = pool.pull();
    assert_eq!(pool.pull_timeout(Duration::from_millis(30)).err(), Some(PullError::TimedOut));
    assert_eq!(pool.pull_timeout(Duration::ZERO).err(), Some(PullError::TimedOut));
    let took = begun.elapsed();
    assert!(Duration::from_millis(30) <= took && took < Duration::from_secs(10));
    assert_eq!(pool.status().waiting, 0);
}

#[test]
fn no_init_begins_after_the_limit() {
    let pool = numbered(2).with_check(|_| {
        std::thread::sleep(Duration::from_millis(20));
        false
    });
    assert_eq!(pool.pull_timeout(Duration::ZERO).err(), Some(PullError::TimedOut));
    assert_eq!(counts(&pool), (0, 0));
    assert_eq!(pool.pull_timeout(Duration::from_secs(60)).as_deref(), Ok(&0));
    // The check takes longer than there is time.
    assert_eq!(pool.pull_timeout(Duration::from_millis(5)).err(), Some(PullError::TimedOut));
    assert_eq!(counts(&pool), (0, 0));
    assert_eq!(pool.pull_timeout(Duration::MAX).as_deref(), Ok(&1));
}
