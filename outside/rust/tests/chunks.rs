//! When a `LinearObjectPool` makes items: one at a time, where those that were made are held or
//! kept by other threads.
use kundratu_pool::{LinearObjectPool, LinearReusable};
use std::collections::{HashSet, VecDeque};
use std::iter;
use std::ops::Range;
use std::panic::{catch_unwind, AssertUnwindSafe};
use std::sync::atomic::{AtomicUsize, Ordering::SeqCst};
use std::sync::{mpsc, Arc, Barrier, Mutex};
use std::thread;
use std::time::Duration;

/// How many places a thread keeps.
const KEPT: usize = 8;

/// A pool whose items are owners of one value, that value, and how often `init` was called.
fn counting_pool() -> (LinearObjectPool<Arc<()>>, Arc<()>, Arc<AtomicUsize>) {
    let (one, calls) = (Arc::new(()), Arc::new(AtomicUsize::new(0)));
    let (owner, count) = (Arc::clone(&one), Arc::clone(&calls));
    let init = move || (Arc::clone(&owner), count.fetch_add(1, SeqCst)).0;
    (LinearObjectPool::new(init, |_| {}), one, calls)
}

#[test]
fn an_item_is_made_only_where_all_that_were_made_are_held() {
    let (pool, one, calls) = counting_pool();
    let all_made = || [Arc::strong_count(&one) - 2, calls.load(SeqCst)];
    let mut items = Vec::new();
    for held in 0..3_000 {
        assert_eq!(all_made(), [held; 2]);
        items.push(pool.pull());
        let other = items.swap_remove(held / 2);
        drop(other);
        items.push(pool.pull());
    }
    drop(items);
    for _ in 0..3 {
        let _items: Vec<_> = (0..3_000).map(|_| pool.pull()).collect();
        assert_eq!(all_made(), [3_000; 2]);
    }
}

/// A part is used up before the next one is made, which has twice as many places, or as many as one
/// of the three before it.
#[test]
fn each_place_of_a_part_is_used() {
    let pool = LinearObjectPool::<u32>::new(|| 0, |_| ());
    let mut items = Vec::new();
    for room in [8, 24, 56, 120, 248, 504, 1_016, 1_528, 2_040, 2_552, 3_576, 4_600] {
        items.resize_with(room - 1, || pool.pull());
        assert_eq!((pool.status().items, pool.status().made), (room, room - 1));
        items.push(pool.pull());
        assert_eq!((pool.status().items, pool.status().made), (room, room));
    }
}

#[test]
fn a_pool_grows_to_many_items() {
    let pool = LinearObjectPool::<u8>::new(|| 0, |_| ());
    let mut items: Vec<_> = (0..200_000).map(|_| pool.pull()).collect();
    items.iter_mut().for_each(|item| **item += 1);
    assert!(items.iter().all(|item| **item == 1), "two hold one");
    assert_eq!(pool.status().made, 200_000);
    drop(items);
    let _again: Vec<_> = (0..200_000).map(|_| pool.pull()).collect();
    assert_eq!(pool.status().made, 200_000);
}

#[test]
fn threads_make_no_more_items_than_they_hold_and_keep() {
    const THREADS: usize = 8;
    let (pool, _one, calls) = counting_pool();
    thread::scope(|scope| {
        for _ in 0..THREADS {
            scope.spawn(|| {
                for turn in 0..10_000 {
                    let _items: Vec<_> = (0..turn % 20).map(|_| pool.pull()).collect();
                }
            });
        }
    });
    let made = calls.load(SeqCst);
    let most = THREADS * (19 + KEPT);
    assert!(made <= most + most / 4, "{made} items");
}

/// A queue of at most five items between two threads.
#[test]
fn a_short_queue_needs_few_items() {
    let (pool, _one, calls) = counting_pool();
    let (sender, receiver) = mpsc::sync_channel(5);
    thread::scope(|scope| {
        scope.spawn(move || receiver.iter().for_each(drop));
        let pool = &pool;
        scope
            .spawn(move || (0..50_000).for_each(|_| sender.send(pool.pull()).expect("it is read")));
    });
    // One more is on its way at each end.
    let (made, most) = (calls.load(SeqCst), 5 + 2 + 2 * KEPT);
    assert!(made <= most + most / 4, "{made} items");
}

/// Each thread returns what others pulled. At most 20 items are held at a time.
#[test]
fn items_that_other_threads_return_all_come_back() {
    const THREADS: usize = 8;
    let (pool, _one, calls) = counting_pool();
    let slots = [(); 4].map(|()| Mutex::new(None));
    let run = |thread: usize| {
        for turn in thread..50_000 {
            let item = pool.pull();
            let others = slots[turn % 4].lock().expect("no panic").replace(item);
            drop(others);
        }
    };
    thread::scope(|scope| {
        let run = &run;
        let threads: Vec<_> = (0..THREADS).map(|thread| scope.spawn(move || run(thread))).collect();
        // From then on a thread keeps nothing.
        threads.into_iter().for_each(|thread| thread.join().expect("it ends"));
    });
    drop(slots);
    let (made, most) = (calls.load(SeqCst), 20 + THREADS * KEPT);
    assert!(made <= most + most / 4, "{made} items");
    let _items: Vec<_> = (0..made).map(|_| pool.pull()).collect();
    assert_eq!(calls.load(SeqCst), made, "some item didn't come back");
}

/// Runs it in a thread until that has ended.
fn in_a_thread(run: impl FnOnce() + Send) {
    thread::scope(|scope| scope.spawn(run).join()).expect("it ends");
}

/// The items lie in parts of 8, 16, 32 places and so on, all full but some of a first one.
#[test]
fn items_of_each_part_that_another_thread_returned_are_found() {
    for part in [0..8, 8..24, 24..56, 56..96] {
        let (pool, _one, calls) = counting_pool();
        let mut items: VecDeque<_> = (0..96).map(|_| pool.pull()).collect();
        let returned: Vec<_> = items.drain(part.clone()).collect();
        in_a_thread(move || drop(returned));
        let _again: Vec<_> = part.map(|_| pool.pull()).collect();
        assert_eq!(calls.load(SeqCst), 96, "one was made though others were free");
    }
}

#[test]
fn items_of_another_threads_part_are_found() {
    let (pool, _one, calls) = counting_pool();
    thread::scope(|scope| {
        let threads: Vec<_> = (0..4)
            .map(|_| scope.spawn(|| (0..100).map(|_| pool.pull()).collect::<Vec<_>>()))
            .collect();
        let items = threads.into_iter().map(|thread| thread.join().expect("it ends"));
        drop(items.collect::<Vec<_>>());
    });
    let made = calls.load(SeqCst);
    let _items: Vec<_> = (0..made).map(|_| pool.pull()).collect();
    assert_eq!(calls.load(SeqCst), made);
}

/// Threads that come one after the other have one number, and so the same slot.
#[test]
fn a_thread_returns_what_it_kept_at_its_end() {
    for count in 0..20 {
        let (pool, _one, calls) = counting_pool();
        for _ in 0..3 {
            in_a_thread(|| drop((0..count).map(|_| pool.pull()).collect::<Vec<_>>()));
            let items: Vec<_> = (0..count).map(|_| pool.pull()).collect();
            assert_eq!(calls.load(SeqCst), count);
            in_a_thread(move || drop(items));
        }
    }
}

/// Such a thread pulls some places before they are needed, or returns many at a time.
#[test]
fn a_thread_that_only_pulls_or_only_returns_leaves_nothing_at_its_end() {
    let (pool, _one, calls) = counting_pool();
    let mut items: Vec<_> = (0..5_000).map(|_| pool.pull()).collect();
    for more in 0..3 {
        in_a_thread(move || drop(items));
        let mut pulled = Vec::new();
        in_a_thread(|| pulled.extend((0..3_000 + more).map(|_| pool.pull())));
        pulled.extend((more..2_000).map(|_| pool.pull()));
        assert_eq!(calls.load(SeqCst), 5_000);
        items = pulled;
    }
}

#[test]
fn an_item_whose_making_panics_is_made_at_a_later_pull() {
    static CALLS: AtomicUsize = AtomicUsize::new(0);
    let init = || {
        let call = CALLS.fetch_add(1, SeqCst);
        assert_ne!(call % 10, 5, "on purpose");
        call
    };
    let resets = Arc::new(Mutex::new(Vec::new()));
    let reset = Arc::clone(&resets);
    let pool = LinearObjectPool::new(init, move |call: &mut usize| {
        reset.lock().expect("no panic").push(*call);
    });
    let mut items = Vec::new();
    for _ in 0..70 {
        items.extend(catch_unwind(AssertUnwindSafe(|| pool.pull())).ok());
    }
    assert_eq!((CALLS.load(SeqCst), items.len()), (70, 63));
    let made: Vec<usize> = items.iter().map(|item| **item).collect();
    let right: Vec<usize> = (0..70).filter(|call| call % 10 != 5).collect();
    assert_eq!(made, right);
    drop(items);
    assert_eq!(*resets.lock().expect("no panic"), right, "what was never made isn't reset");
}

/// What is free is pulled before an item is made at a place whose `init` panicked.
#[test]
fn a_place_whose_init_panicked_waits_for_a_pull_that_makes_an_item() {
    let calls = Arc::new(AtomicUsize::new(0));
    let count = Arc::clone(&calls);
    let init = move || assert_ne!(count.fetch_add(1, SeqCst) % 10, 3, "on purpose");
    let pool = LinearObjectPool::new(init, |()| {});
    let pull = || try_pull(&pool);
    let items: Vec<_> = (0..40).filter_map(|_| pull()).collect();
    assert_eq!((items.len(), calls.load(SeqCst)), (36, 40));
    in_a_thread(move || drop(items));
    let _items: Vec<_> = (0..36).map(|_| pull()).collect();
    assert_eq!(calls.load(SeqCst), 40, "one was made beside free ones");
    assert!(pull().is_some());
    assert_eq!(calls.load(SeqCst), 41);
}

/// Two threads leave a place each, and no item.
#[test]
fn items_whose_init_panics_at_once_are_not_made() {
    let both = Arc::new(Barrier::new(2));
    let init = move || {
        both.wait();
        panic!("on purpose");
    };
    let pool = LinearObjectPool::<()>::new(init, |()| {});
    thread::scope(|scope| (0..2).for_each(|_| drop(scope.spawn(|| try_pull(&pool)))));
    assert_eq!((pool.status().made, pool.status().in_use), (0, 0));
}

fn try_pull<T>(pool: &LinearObjectPool<T>) -> Option<LinearReusable<'_, T>> {
    catch_unwind(AssertUnwindSafe(|| pool.pull())).ok()
}

/// How many items are free for this thread: so many that a pull makes one.
fn count_free(pool: &LinearObjectPool<Arc<()>>, calls: &AtomicUsize) -> usize {
    let before = calls.load(SeqCst);
    let items = iter::repeat_with(|| pool.pull()).take_while(|_| calls.load(SeqCst) == before);
    items.collect::<Vec<_>>().len()
}

/// How many of so many items a thread keeps that has done this with them, and is still there.
fn kept<'p>(
    items: usize,
    act: impl FnOnce(&'p LinearObjectPool<Arc<()>>, Vec<Item<'p>>) -> Vec<Item<'p>> + Send,
    (pool, calls): (&'p LinearObjectPool<Arc<()>>, &AtomicUsize),
) -> usize {
    let all: Vec<_> = (0..items).map(|_| pool.pull()).collect();
    let [has_acted, may_end] = [(); 2].map(|()| Barrier::new(2));
    thread::scope(|scope| {
        let thread = scope.spawn(|| {
            let held = act(pool, all);
            has_acted.wait();
            may_end.wait();
            held.len()
        });
        has_acted.wait();
        let free = count_free(pool, calls);
        may_end.wait();
        items - free - thread.join().expect("it ends")
    })
}

type Item<'p> = LinearReusable<'p, Arc<()>>;

#[test]
fn a_thread_keeps_eight_of_what_it_returns() {
    for count in (0..30).chain([1_000]) {
        let (pool, _one, calls) = counting_pool();
        let kept = kept(count, |_, items| items.into_iter().take(0).collect(), (&pool, &calls));
        assert_eq!(kept, count.min(KEPT), "of {count}");
    }
}

/// After 1,024 returns a thread returns what it keeps but one with each return that finds no room.
#[test]
fn a_thread_that_only_returns_returns_eight_at_a_time() {
    let kept_of = |count| {
        let (pool, _one, calls) = counting_pool();
        kept(count, |_, items| items.into_iter().take(0).collect(), (&pool, &calls))
    };
    let all = |counts: Range<usize>| counts.map(kept_of).collect::<Vec<_>>();
    assert_eq!(all(1_025..1_031), [KEPT; 6]);
    assert_eq!(all(1_040..1_048).into_iter().collect::<HashSet<_>>(), (1..=KEPT).collect());
}

/// It counts anew once it has pulled one that it didn't keep.
#[test]
fn a_thread_that_pulls_between_its_returns_keeps_eight() {
    let kept_of = |count: usize| {
        let (pool, _one, calls) = counting_pool();
        let act = |pool, mut items: Vec<_>| {
            items.truncate(count);
            drop(pull_many(pool, KEPT + 1));
            items.clear();
            items
        };
        kept(900 + count, act, (&pool, &calls))
    };
    assert_eq!([900, 901, 902, 903].map(kept_of), [KEPT; 4]);
}

/// Of 512 items of one part, which another thread returned, it pulls eight at a page of 32.
#[test]
fn a_thread_goes_on_to_other_pages_of_what_others_returned() {
    let pool = LinearObjectPool::<u64>::new(|| 0, |_| {});
    let mut items: Vec<_> = (0..1_016).map(|_| pool.pull()).collect();
    let address = |item: &LinearReusable<'_, u64>| std::ptr::from_ref(&**item) as usize;
    let [first, next] = [504, 505].map(|at| address(&items[at]));
    let part = items.split_off(504);
    in_a_thread(|| drop(part));
    let again: Vec<_> = (0..64).map(|_| pool.pull()).collect();
    let page = |item| (address(item) - first) / (next - first) / 32;
    let pages: HashSet<_> = again.iter().map(page).collect();
    assert!((7..=10).contains(&pages.len()), "{pages:?}");
}

/// Pulls so many items one after the other.
fn pull_many<'p>(pool: &'p LinearObjectPool<Arc<()>>, count: usize) -> Vec<Item<'p>> {
    (0..count).map(|_| pool.pull()).collect()
}

/// What is returned by a thread that ends is all free.
fn return_all(items: Vec<Item<'_>>) {
    in_a_thread(|| drop(items));
}

/// After 1,024 pulls of what others returned a thread pulls seven ahead.
#[test]
fn a_thread_that_only_pulls_pulls_seven_ahead() {
    let kept_of = |count: usize| {
        let (pool, _one, calls) = counting_pool();
        let act = |pool, items| {
            return_all(items);
            pull_many(pool, count)
        };
        kept(1_500, act, (&pool, &calls))
    };
    assert_eq!([500, 1_000, 1_023].map(kept_of), [0; 3]);
    let later: HashSet<_> = (1_100..1_108).map(kept_of).collect();
    assert_eq!(later, (0..KEPT - 1).collect());
}

/// A thread that comes later has the slot of one that has ended, and counts anew.
#[test]
fn a_thread_does_not_count_what_another_one_pulled() {
    let (pool, _one, calls) = counting_pool();
    let act = |pool: &'static LinearObjectPool<Arc<()>>, items| {
        return_all(items);
        in_a_thread(|| return_all(pull_many(pool, 900)));
        pull_many(pool, 900)
    };
    let pool: &'static _ = Box::leak(Box::new(pool));
    assert_eq!(kept(1_500, act, (pool, &calls)), 0);
    // Neither does it count on after it returned some.
    let (pool, _one, calls) = counting_pool();
    let act = |pool, items| {
        return_all(items);
        let first = pull_many(pool, 900);
        let mut second = pull_many(pool, 20);
        drop(first);
        second.extend(pull_many(pool, 900));
        second
    };
    assert_eq!(kept(2_500, act, (&pool, &calls)), 0);
}

#[test]
fn a_pull_does_not_wait_for_another_threads_init() {
    let (begun, begins) = mpsc::channel();
    let (end, ends) = mpsc::channel::<()>();
    let first = Mutex::new(Some((begun, ends)));
    let first = Arc::new(first);
    let init = move || {
        let first = first.lock().expect("no panic").take();
        if let Some((begun, ends)) = first {
            begun.send(()).expect("somebody waits");
            ends.recv().expect("it ends");
        }
    };
    let pool = Arc::new(LinearObjectPool::<()>::new(init, |()| {}));
    let slow = Arc::clone(&pool);
    let slow = thread::spawn(move || drop(slow.pull()));
    begins.recv().expect("the first pull begins");
    let (sender, receiver) = mpsc::channel();
    thread::spawn(move || {
        drop(pool.pull());
        sender.send(()).expect("somebody waits");
    });
    let answer = receiver.recv_timeout(Duration::from_secs(10));
    end.send(()).expect("it waits");
    slow.join().expect("it ends");
    assert_eq!(answer, Ok(()), "it waited for the first pull's `init`");
}
