//! What threads see that share a pool, more of them than have numbers, and at their ends.
use kundratu_pool::*;
use std::cell::{Cell, RefCell};
use std::collections::HashSet;
use std::rc::Rc;
use std::sync::atomic::{AtomicUsize, Ordering::SeqCst};
use std::sync::{Arc, Barrier, Mutex, MutexGuard, PoisonError};
use std::thread;

/// It compiles only where the type isn't of the trait: else it couldn't be decided which of two
/// functions is meant.
macro_rules! is_not {
    ($type:ty: $trait:path) => {
        const _: fn() = || {
            trait Ambiguous<A> {
                fn here() {}
            }
            impl<T: ?Sized> Ambiguous<()> for T {}
            struct OfTheTrait;
            impl<T: ?Sized + $trait> Ambiguous<OfTheTrait> for T {}
            <$type as Ambiguous<_>>::here();
        };
    };
}

is_not!(Pool<Rc<u8>>: Sync);
is_not!(Pool<Rc<u8>>: Send);
is_not!(Pool<u32, Box<dyn Fn(&mut u32)>>: Sync);
is_not!(Pool<u32, Box<dyn Fn(&mut u32)>>: Send);
is_not!(LinearObjectPool<Rc<u8>>: Sync);
is_not!(LinearObjectPool<Rc<u8>>: Send);
is_not!(MutexObjectPool<Rc<u8>>: Sync);
is_not!(MutexObjectPool<Rc<u8>>: Send);
is_not!(SpinLockObjectPool<Rc<u8>>: Sync);
is_not!(SpinLockObjectPool<Rc<u8>>: Send);

/// A guard isn't sent if its item isn't, and isn't shared if its item isn't.
macro_rules! is_not_more_than_its_item {
    ($($guard:ident$(<$life:lifetime>)?),*) => { $(
        is_not!($guard<$($life,)? Rc<u8>>: Send);
        is_not!($guard<$($life,)? Rc<u8>>: Sync);
        is_not!($guard<$($life,)? Cell<u32>>: Sync);
        is_not!($guard<$($life,)? MutexGuard<'static, u32>>: Send);
        const _: fn() = || is_sent_and_shared::<$guard<$($life,)? u32>>();
    )* };
}

is_not_more_than_its_item!(Reusable<'static>, OwnedReusable, NoneReusable);
is_not_more_than_its_item!(LinearReusable<'static>, LinearOwnedReusable);
is_not_more_than_its_item!(MutexReusable<'static>, MutexOwnedReusable);
is_not_more_than_its_item!(SpinLockReusable<'static>, SpinLockOwnedReusable);

fn is_sent_and_shared<T: Send + Sync>() {}

const _: fn() = || {
    is_sent_and_shared::<Pool<Cell<u32>>>();
    is_sent_and_shared::<LinearObjectPool<Cell<u32>>>();
    is_sent_and_shared::<MutexObjectPool<Cell<u32>>>();
    is_sent_and_shared::<SpinLockObjectPool<Cell<u32>>>();
    is_sent_and_shared::<NoneObjectPool<Rc<u32>>>();
};

fn zeros(items: usize) -> Pool<u32> {
    Pool::new(items, || 0, |number| *number = 0).expect("there is memory")
}

#[test]
fn threads_read_by_one_guard() {
    let pool = zeros(1);
    let mut item = pool.pull().expect("it is free");
    *item = 7;
    thread::scope(|scope| {
        for _ in 0..4 {
            scope.spawn(|| assert_eq!(*item, 7));
        }
    });
}

/// One test at a time may use up the numbers of threads.
static NUMBERS: Mutex<()> = Mutex::new(());

#[test]
fn two_hundred_threads_hold_different_items_at_once() {
    let _alone = NUMBERS.lock().unwrap_or_else(PoisonError::into_inner);
    const THREADS: usize = 200;
    let pool = zeros(THREADS * 2);
    let all_hold = Barrier::new(THREADS);
    let hold = || {
        let items = [pool.pull(), pool.pull()];
        all_hold.wait();
        items.map(|item| item.expect("one is free").number())
    };
    let numbers: HashSet<usize> = thread::scope(|scope| {
        let threads: Vec<_> = (0..THREADS).map(|_| scope.spawn(hold)).collect();
        let numbers = threads.into_iter().map(|thread| thread.join().expect("it ends"));
        numbers.flatten().collect()
    });
    assert_eq!(numbers, (0..THREADS * 2).collect());
    assert_eq!(count_free(&pool), THREADS * 2);
}

/// Pulls all that is free, for good.
fn count_free(pool: &Pool<u32>) -> usize {
    std::iter::from_fn(|| pool.pull().map(std::mem::forget)).count()
}

thread_local! {
    static LATE: RefCell<Option<OwnedReusable<u32>>> = const { RefCell::new(None) };
}

/// Drops its item, and pulls and drops another one, where the thread's other values may have ended.
struct AtTheEnd(Arc<Pool<u32>>);

impl Drop for AtTheEnd {
    fn drop(&mut self) {
        drop(self.0.pull());
    }
}

thread_local! {
    static LAST: RefCell<Option<AtTheEnd>> = const { RefCell::new(None) };
}

#[test]
fn guards_end_and_are_pulled_at_a_threads_end() {
    let pool = Arc::new(zeros(2));
    for _ in 0..3 {
        let other = Arc::clone(&pool);
        let thread = thread::spawn(move || {
            LAST.set(Some(AtTheEnd(Arc::clone(&other))));
            LATE.set(other.pull_owned());
        });
        thread.join().expect("it ends");
    }
    assert_eq!(count_free(&pool), 2);
}

#[test]
fn no_pull_is_refused_where_there_are_as_many_items_as_threads_hold() {
    const THREADS: usize = 8;
    let pool = zeros(THREADS * 2);
    let refused = AtomicUsize::new(0);
    thread::scope(|scope| {
        for _ in 0..THREADS {
            scope.spawn(|| {
                for turn in 0..20_000 {
                    let items: Vec<_> = (0..turn % 3).map(|_| pool.pull()).collect();
                    let missing = items.iter().filter(|item| item.is_none()).count();
                    refused.fetch_add(missing, SeqCst);
                }
            });
        }
    });
    assert_eq!(refused.load(SeqCst), 0);
    assert_eq!(count_free(&pool), THREADS * 2);
}

/// The pages of three items that each of some threads pulls, one after the other, while all hold
/// theirs.
fn pages_of_threads(pool: &Pool<u32>) -> [HashSet<usize>; 3] {
    let all_hold = Barrier::new(THREADS_WITH_PAGES);
    let hold = || {
        let items = [(); 3].map(|()| pool.pull());
        all_hold.wait();
        items.map(|item| item.expect("one is free").number() / 32)
    };
    thread::scope(|scope| {
        let threads: Vec<_> = (0..THREADS_WITH_PAGES).map(|_| scope.spawn(hold)).collect();
        let pages = threads.into_iter().map(|thread| thread.join().expect("it ends"));
        let mut all: [HashSet<_>; 3] = Default::default();
        for pages in pages {
            for (all, page) in all.iter_mut().zip(pages) {
                all.insert(page);
            }
        }
        all
    })
}

const THREADS_WITH_PAGES: usize = 16;

#[test]
fn threads_keep_to_pages_of_their_own() {
    let _alone = NUMBERS.lock().unwrap_or_else(PoisonError::into_inner);
    let pages = pages_of_threads(&zeros(131_072));
    assert_eq!(pages.each_ref().map(HashSet::len), [THREADS_WITH_PAGES; 3]);
    let mut first: Vec<_> = pages[0].iter().collect();
    first.sort_unstable();
    let share = |two: &[&usize]| two[1] - two[0] < 16; // a page has a word of 8 bytes
    assert!(!first.windows(2).any(share), "cache lines of {first:?}");
}

/// If the first half of the items is out, all come to the hinted page, the last of the other half.
/// They go on from there to full pages, and then back to pages of their own.
#[test]
fn threads_whose_pages_are_full_come_to_pages_of_their_own() {
    let _alone = NUMBERS.lock().unwrap_or_else(PoisonError::into_inner);
    let pool = zeros(131_072);
    let mut held: Vec<_> = std::iter::from_fn(|| pool.pull()).collect();
    held.retain(|item| item.number() < pool.items() / 2);
    let pages = pages_of_threads(&pool);
    assert_eq!(pages[2].len(), THREADS_WITH_PAGES);
}

#[test]
fn a_thread_that_was_refused_keeps_to_its_page() {
    let pool = zeros(200);
    let held: Vec<_> = std::iter::from_fn(|| pool.pull()).collect();
    let (was_refused, are_free) = (Barrier::new(2), Barrier::new(2));
    thread::scope(|scope| {
        scope.spawn(|| {
            assert!((0..100).all(|_| pool.pull().is_none()));
            was_refused.wait();
            are_free.wait();
            let number = || pool.pull().expect("all are free").number();
            let first = number();
            assert!((0..10).all(|_| number() == first));
        });
        was_refused.wait();
        drop(held);
        are_free.wait();
    });
}

/// How many different items a thread pulls if it pulls 40 at a time, and this is their end.
fn count_different(end: fn(Vec<Reusable<'_, u32>>)) -> usize {
    let (pool, mut different) = (zeros(131_072), HashSet::new());
    for _ in 0..1_000 {
        let items: Vec<_> = (0..40).filter_map(|_| pool.pull()).collect();
        different.extend(items.iter().map(Reusable::number));
        end(items);
    }
    different.len()
}

/// A thread that returns its items itself pulls them again. If another one returns them, it goes
/// round some pages.
#[test]
fn a_thread_keeps_to_some_items() {
    let _alone = NUMBERS.lock().unwrap_or_else(PoisonError::into_inner);
    let own = count_different(|items| drop(items));
    assert!(own <= 200, "{own} items");
    let others = count_different(|items| {
        thread::scope(|scope| scope.spawn(|| drop(items)).join()).expect("it ends");
    });
    assert!((400..=600).contains(&others), "{others} items");
}
