//! The pools by the names of lockfree-object-pool 0.1.6: what its own tests show, in other words,
//! and what a program meets that changes to this crate. But for its first line and the tests of
//! `init_may_pull`, this file passes with that crate too.
use kundratu_pool as pools;

use pools::{
    LinearObjectPool, LinearOwnedReusable, LinearReusable, MutexObjectPool, MutexOwnedReusable,
    MutexReusable, NoneObjectPool, NoneReusable, SpinLockObjectPool, SpinLockOwnedReusable,
    SpinLockReusable,
};
use std::collections::HashSet;
use std::mem::ManuallyDrop;
use std::panic::{catch_unwind, AssertUnwindSafe};
use std::sync::atomic::{AtomicUsize, Ordering::SeqCst};
use std::sync::{mpsc, Arc, OnceLock};
use std::thread;
use std::time::Duration;

/// What holds of each pool that keeps its items.
macro_rules! keeping_pool {
    ($module:ident, $pool:ident, $borrowed:ident, $owned:ident) => {
        mod $module {
            use super::*;

            fn zeros() -> $pool<u32> {
                $pool::<u32>::new(Default::default, |number| *number = 0)
            }

            #[test]
            fn an_item_is_reset_before_it_comes_again() {
                let pool = zeros();
                for _ in 0..2 {
                    let mut item = pool.pull();
                    assert_eq!(*item, 0);
                    *item += 1;
                }
            }

            #[test]
            fn an_item_comes_as_its_reset_left_it() {
                let pool = $pool::<u32>::new(|| 0, |_| {});
                let mut item: $borrowed<'_, u32> = pool.pull();
                *item = 5;
                drop(item);
                assert_eq!(*pool.pull(), 5);
            }

            #[test]
            fn an_item_is_reset_once_at_each_return() {
                let pool = $pool::<u32>::new(|| 0, |number| *number += 1);
                for turns in 0..5 {
                    assert_eq!(*pool.pull(), turns);
                }
            }

            #[test]
            fn each_of_many_items_is_reset() {
                let pool = zeros();
                for _ in 0..2 {
                    let mut items: Vec<_> = (0..10_000).map(|_| pool.pull()).collect();
                    assert!(items.iter().all(|item| **item == 0));
                    items.iter_mut().for_each(|item| **item = 7);
                }
            }

            #[test]
            fn threads_make_no_more_items_than_they_hold() {
                let made = Arc::new(AtomicUsize::new(0));
                let count = Arc::clone(&made);
                let pool = $pool::<usize>::new(move || count.fetch_add(1, SeqCst), |_| {});
                thread::scope(|scope| {
                    for _ in 0..4 {
                        scope.spawn(|| (0..200_000).for_each(|_| drop(pool.pull())));
                    }
                });
                assert!(made.load(SeqCst) <= 32);
            }

            #[test]
            fn threads_hold_different_items() {
                let pool = Arc::new(zeros());
                let (sender, receiver) = mpsc::channel();
                let threads: Vec<_> = (0..5)
                    .map(|number| {
                        let (pool, sender) = (Arc::clone(&pool), sender.clone());
                        thread::spawn(move || {
                            let mut item = pool.pull();
                            *item = number;
                            sender.send(*item).unwrap();
                        })
                    })
                    .collect();
                let told: HashSet<u32> = (0..5).map(|_| receiver.recv().unwrap()).collect();
                assert_eq!(told, (0..5).collect());
                for thread in threads {
                    thread.join().unwrap();
                }
            }

            #[test]
            fn an_owned_item_keeps_its_pool_and_goes_to_another_thread() {
                let pool = Arc::new(zeros());
                let mut item: $owned<u32> = pool.pull_owned();
                assert_eq!(Arc::strong_count(&pool), 2);
                *item = 7;
                thread::spawn(move || assert_eq!(*item, 7)).join().unwrap();
                assert_eq!(Arc::strong_count(&pool), 1);
                assert_eq!(*pool.pull_owned(), 0);
                let items: Vec<_> = (0..100).map(|_| pool.pull_owned()).collect();
                assert_eq!(Arc::strong_count(&pool), 101);
                drop(items);
                assert_eq!(Arc::strong_count(&pool), 1);
            }

            #[test]
            fn an_item_that_a_panic_drops_is_reset() {
                let pool = zeros();
                let panicked = catch_unwind(AssertUnwindSafe(|| {
                    let mut item = pool.pull();
                    *item = 5;
                    panic!("on purpose")
                }));
                assert!(panicked.is_err());
                assert_eq!(*pool.pull(), 0);
            }

            #[test]
            fn an_item_whose_reset_panics_is_not_pulled_again() {
                let reset = |number: &mut u32| assert_eq!(*number, 0, "it was written to");
                let pool = $pool::<u32>::new(|| 0, reset);
                let mut item = pool.pull();
                *item = 1;
                assert!(catch_unwind(AssertUnwindSafe(|| drop(item))).is_err());
                let items: Vec<_> = (0..100).map(|_| pool.pull()).collect();
                assert!(items.iter().all(|item| **item == 0));
            }

            #[test]
            fn threads_that_hold_many_items_find_them_as_they_wrote_them() {
                let pool = zeros();
                thread::scope(|scope| {
                    for thread in 1..5 {
                        let pool = &pool;
                        scope.spawn(move || {
                            for turn in 0..200 {
                                let mut items: Vec<_> = (0..turn).map(|_| pool.pull()).collect();
                                assert!(items.iter().all(|item| **item == 0));
                                items.iter_mut().for_each(|item| **item = thread);
                                thread::yield_now();
                                assert!(items.iter().all(|item| **item == thread));
                            }
                        });
                    }
                });
            }
        }
    };
}

keeping_pool!(linear, LinearObjectPool, LinearReusable, LinearOwnedReusable);
keeping_pool!(mutex, MutexObjectPool, MutexReusable, MutexOwnedReusable);
keeping_pool!(spin_lock, SpinLockObjectPool, SpinLockReusable, SpinLockOwnedReusable);

fn zeros() -> LinearObjectPool<u32> {
    LinearObjectPool::<u32>::new(Default::default, |number| *number = 0)
}

fn address(item: &u32) -> usize {
    item as *const u32 as usize
}

#[test]
fn one_at_a_time_is_one_place() {
    let pool = zeros();
    let addresses: HashSet<usize> = (0..10)
        .map(|_| {
            let mut item = pool.pull();
            *item += 1;
            let borrowed = &mut *item;
            *borrowed += 1;
            assert_eq!(*item, 2);
            address(&item)
        })
        .collect();
    assert_eq!(addresses.len(), 1);
}

#[test]
fn two_at_a_time_are_two_places() {
    let pool = zeros();
    let addresses: HashSet<usize> = (0..10)
        .flat_map(|_| {
            let (first, second) = (pool.pull(), pool.pull());
            [address(&first), address(&second)]
        })
        .collect();
    assert_eq!(addresses.len(), 2);
}

#[test]
fn a_thousand_at_a_time_are_a_thousand_places_twice() {
    let pool = zeros();
    let hold = || {
        let items: Vec<_> = (0..1_000).map(|_| pool.pull()).collect();
        items.iter().map(|item| address(item)).collect::<HashSet<_>>()
    };
    let places = hold();
    assert_eq!(places.len(), 1_000);
    assert_eq!(hold().len(), 1_000);
}

#[test]
fn items_may_borrow_what_lives_on() {
    let pool = LinearObjectPool::<&'static str>::new(|| "new", |text| *text = "back");
    assert_eq!(*pool.pull(), "new");
    let pool = LinearObjectPool::<Vec<&str>>::new(Vec::new, Vec::clear);
    pool.pull().push("a");
    assert!(pool.pull().is_empty());
}

#[test]
fn a_value_from_elsewhere_goes_to_its_stack_pool() {
    let pool = Arc::new(MutexObjectPool::<u32>::new(|| 0, |number| *number += 1));
    drop(MutexReusable::new(&pool, ManuallyDrop::new(5)));
    assert_eq!(*pool.pull(), 6);
    drop(MutexOwnedReusable::new(Arc::clone(&pool), ManuallyDrop::new(8)));
    assert_eq!(*pool.pull(), 9);
    let pool = Arc::new(SpinLockObjectPool::<u32>::new(|| 0, |number| *number += 1));
    drop(SpinLockReusable::new(&pool, ManuallyDrop::new(5)));
    assert_eq!(*pool.pull(), 6);
    drop(SpinLockOwnedReusable::new(Arc::clone(&pool), ManuallyDrop::new(8)));
    assert_eq!(*pool.pull(), 9);
}

#[test]
fn the_item_that_came_back_last_is_pulled_first_from_a_stack_pool() {
    let pool = SpinLockObjectPool::<u32>::new(|| 0, |_| {});
    let (mut first, mut second) = (pool.pull(), pool.pull());
    (*first, *second) = (1, 2);
    drop(first);
    drop(second);
    let items = [pool.pull(), pool.pull(), pool.pull()];
    assert_eq!(items.iter().map(|item| **item).collect::<Vec<_>>(), [2, 1, 0]);
}

#[test]
fn a_pool_that_keeps_nothing_makes_each_item() {
    let pool = Arc::new(NoneObjectPool::<u32>::new(Default::default));
    for _ in 0..2 {
        let mut item: NoneReusable<u32> = pool.pull();
        assert_eq!(*item, 0);
        *item += 1;
    }
    *pool.pull_owned() += 1;
    assert_eq!(Arc::strong_count(&pool), 1);
    assert_eq!(*NoneReusable::new(5), 5);
}

/// Counts how many there are.
struct Counted(Arc<AtomicUsize>);

impl Drop for Counted {
    fn drop(&mut self) {
        self.0.fetch_sub(1, SeqCst);
    }
}

fn counted(count: &Arc<AtomicUsize>) -> impl Fn() -> Counted + Clone {
    let count = Arc::clone(count);
    move || {
        count.fetch_add(1, SeqCst);
        Counted(Arc::clone(&count))
    }
}

#[test]
fn as_many_items_are_made_as_are_needed_and_dropped_with_their_pool() {
    let count = Arc::new(AtomicUsize::new(0));
    let pool = LinearObjectPool::new(counted(&count), |_| {});
    let mut items: Vec<_> = (0..33).map(|_| pool.pull()).collect();
    let made = count.load(SeqCst);
    assert!((33..=64).contains(&made));
    for _ in 0..5 {
        items.pop();
        items.push(pool.pull());
        assert_eq!(count.load(SeqCst), made);
    }
    drop(items);
    assert_eq!(count.load(SeqCst), made);
    drop(pool);
    assert_eq!(count.load(SeqCst), 0);
}

#[test]
fn a_stack_pool_keeps_all_that_comes_back() {
    const MANY: usize = 200_000;
    fn made(pull_many: impl Fn()) -> usize {
        let before = MADE.get();
        pull_many();
        MADE.get() - before
    }
    thread_local! {
        static MADE: std::cell::Cell<usize> = const { std::cell::Cell::new(0) };
    }
    let init = || MADE.set(MADE.get() + 1);
    let mutex = MutexObjectPool::<()>::new(init, |()| {});
    let many = || drop((0..MANY).map(|_| mutex.pull()).collect::<Vec<_>>());
    assert_eq!([made(many), made(many)], [MANY, 0]);
    let spin_lock = SpinLockObjectPool::<()>::new(init, |()| {});
    let many = || drop((0..MANY).map(|_| spin_lock.pull()).collect::<Vec<_>>());
    assert_eq!([made(many), made(many)], [MANY, 0]);
}

/// An `init` that pulls from its own pool and returns there, once. Under the pool's lock it would
/// wait for itself.
macro_rules! init_may_pull {
    ($($name:ident: $pool:ident),*) => { $(
        #[test]
        fn $name() {
            static POOL: OnceLock<Arc<$pool<usize>>> = OnceLock::new();
            static CALLS: AtomicUsize = AtomicUsize::new(0);
            let init = || {
                let call = CALLS.fetch_add(1, SeqCst);
                if call == 0 {
                    assert_eq!(*POOL.get().unwrap().pull(), 1);
                }
                call
            };
            let pool = POOL.get_or_init(|| Arc::new($pool::new(init, |_| {})));
            let (sender, receiver) = mpsc::channel();
            thread::spawn(move || sender.send([*pool.pull(), *pool.pull()]));
            let pulled = receiver.recv_timeout(Duration::from_secs(10));
            assert_eq!(pulled, Ok([0, 1]), "`init` was called under the lock");
        }
    )* };
}

init_may_pull!(
    init_of_a_linear_pool_may_pull: LinearObjectPool,
    init_of_a_mutex_pool_may_pull: MutexObjectPool,
    init_of_a_spin_lock_pool_may_pull: SpinLockObjectPool
);

/// A guard of a longer borrow is one of a shorter borrow.
macro_rules! is_covariant {
    ($($name:ident: $guard:ident),*) => { $(
        fn $name<'l: 's, 's>(item: $guard<'l, u32>, _: &'s ()) -> $guard<'s, u32> {
            item
        }
    )* };
}

is_covariant!(
    linear_is_covariant: LinearReusable,
    mutex_is_covariant: MutexReusable,
    spin_lock_is_covariant: SpinLockReusable
);

/// Guards of a pool that lives on, beside a name that doesn't.
struct Batch<'a> {
    items: Vec<LinearReusable<'a, u32>>,
    name: &'a str,
}

#[test]
fn a_guard_of_a_longer_borrow_is_put_beside_others() {
    static POOLS: OnceLock<LinearObjectPool<u32>> = OnceLock::new();
    let (pool, name) = (POOLS.get_or_init(zeros), String::from("a name"));
    let pull = || -> LinearReusable<'static, u32> { pool.pull() };
    let items = vec![pull(), linear_is_covariant(pull(), &())];
    let batch = Batch { items, name: &name };
    assert_eq!((batch.items.len(), batch.name), (2, "a name"));
    let (mutex, spin_lock) =
        (MutexObjectPool::new(|| 0, |_| ()), SpinLockObjectPool::new(|| 0, |_| ()));
    assert_eq!(*mutex_is_covariant(mutex.pull(), &()), 0);
    assert_eq!(*spin_lock_is_covariant(spin_lock.pull(), &()), 0);
}

fn is_unpin<T: Unpin>() {}
fn is_sent<T: Send>() {}
fn is_shared<T: Sync>() {}

/// The traits that a compiler finds, where the original has them and is right.
#[test]
fn pools_and_guards_are_sent_shared_and_unpinned() {
    use std::marker::PhantomPinned;
    is_unpin::<LinearReusable<'static, PhantomPinned>>();
    is_unpin::<LinearOwnedReusable<PhantomPinned>>();
    is_unpin::<NoneObjectPool<PhantomPinned>>();
    is_unpin::<MutexObjectPool<u32>>();
    is_unpin::<SpinLockObjectPool<u32>>();
    is_unpin::<LinearObjectPool<u32>>();
    is_unpin::<MutexReusable<'static, u32>>();
    is_unpin::<SpinLockOwnedReusable<u32>>();
    is_sent::<NoneObjectPool<*const u8>>();
    is_shared::<NoneObjectPool<*const u8>>();
    is_sent::<MutexObjectPool<std::cell::Cell<u32>>>();
    is_shared::<MutexObjectPool<std::cell::Cell<u32>>>();
    macro_rules! all {
        ($($type:ty),*) => { $( is_sent::<$type>(); is_shared::<$type>(); )* };
    }
    all!(LinearObjectPool<u32>, MutexObjectPool<u32>, SpinLockObjectPool<u32>);
    all!(LinearReusable<'static, u32>, LinearOwnedReusable<u32>, NoneReusable<u32>);
    all!(MutexReusable<'static, u32>, MutexOwnedReusable<u32>);
    all!(SpinLockReusable<'static, u32>, SpinLockOwnedReusable<u32>);
}
