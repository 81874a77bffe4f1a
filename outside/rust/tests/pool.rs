//! What a user of the pool sees.
use kundratu_pool::{NewError, OwnedReusable, Pool, Reusable};
use std::collections::HashSet;
use std::panic::{catch_unwind, AssertUnwindSafe};
use std::sync::atomic::{AtomicUsize, Ordering};
use std::sync::{mpsc, Arc};
use std::thread;

fn zeros(items: usize) -> Pool<u32> {
    Pool::new(items, || 0, |number| *number = 0).expect("there is memory")
}

/// A pool whose items keep what was written to them.
fn kept(items: usize) -> Pool<u32> {
    Pool::new(items, || 0, |_| ()).expect("there is memory")
}

#[test]
fn an_item_is_reset_before_it_comes_again() {
    let pool = zeros(1);
    for _ in 0..2 {
        let mut item = pool.pull().expect("it is free");
        assert_eq!(*item, 0);
        *item += 1;
    }
}

#[test]
fn an_item_comes_as_its_reset_left_it() {
    let pool = kept(1);
    let mut item = pool.pull().expect("it is free");
    *item = 5;
    drop(item);
    assert_eq!(*pool.pull().expect("it came back"), 5);
}

#[test]
fn what_was_written_is_read_through_the_guard() {
    let pool = zeros(4);
    let mut item = pool.pull().expect("one is free");
    *item += 1;
    let borrowed = &mut *item;
    *borrowed += 1;
    assert_eq!(*item, 2);
    assert_eq!(format!("{item:?}"), "2");
}

#[test]
fn a_guard_is_a_pool_and_a_number() {
    let words = |bytes| bytes / size_of::<usize>();
    assert_eq!(words(size_of::<Option<Reusable<'_, u32>>>()), 2);
    assert_eq!(words(size_of::<Option<OwnedReusable<u32>>>()), 2);
}

#[test]
fn one_at_a_time_is_one_place() {
    let pool = zeros(64);
    let addresses: HashSet<_> = (0..10)
        .map(|_| {
            let item = pool.pull().expect("one is free");
            (item.number(), &*item as *const u32 as usize)
        })
        .collect();
    assert_eq!(addresses.len(), 1);
}

#[test]
fn two_at_a_time_are_two_places() {
    let pool = zeros(64);
    let mut addresses = HashSet::new();
    for _ in 0..10 {
        let first = pool.pull().expect("one is free");
        let second = pool.pull().expect("one is free");
        assert_ne!(first.number(), second.number());
        addresses.extend([&*first as *const u32 as usize, &*second as *const u32 as usize]);
    }
    assert_eq!(addresses.len(), 2);
}

#[test]
fn each_item_comes_once_and_then_none() {
    for items in [1, 31, 32, 33, 100, 300] {
        let pool = zeros(items);
        let held: Vec<Reusable<'_, u32>> = std::iter::from_fn(|| pool.pull()).collect();
        let numbers: HashSet<usize> = held.iter().map(Reusable::number).collect();
        assert_eq!(numbers, (0..items).collect());
        drop(held);
        assert!(pool.pull().is_some());
    }
}

#[test]
fn items_are_made_in_their_order() {
    let mut next = 0;
    let make = || {
        next += 1;
        next - 1
    };
    let pool = Pool::<usize>::new(300, make, |_| ()).expect("there is memory");
    let held: Vec<_> = std::iter::from_fn(|| pool.pull()).collect();
    assert!(held.iter().all(|item| **item == item.number()));
}

#[test]
fn a_pool_of_nothing_is_refused() {
    let refused = Pool::<u32>::new(0, || 0, |_| ()).err();
    assert_eq!(refused, Some(NewError::NoItems));
    assert_eq!(NewError::NoItems.to_string(), "a pool has one item at least");
}

#[test]
fn a_pool_past_all_memory_is_refused() {
    let refused = Pool::<u32>::new(usize::MAX, || 0, |_| ()).err();
    assert_eq!(refused, Some(NewError::Memory));
    assert_eq!(NewError::Memory.to_string(), "memory was refused");
}

#[test]
fn a_pool_is_shown_by_its_number_of_items() {
    assert_eq!(format!("{:?}", zeros(100)), "Pool { items: 100, .. }");
}

#[test]
fn each_of_many_items_is_reset() {
    let pool = zeros(300);
    let mut held: Vec<_> = std::iter::from_fn(|| pool.pull()).collect();
    held.iter_mut().for_each(|item| **item = 7);
    drop(held);
    let held: Vec<_> = std::iter::from_fn(|| pool.pull()).collect();
    assert_eq!(held.len(), 300);
    assert!(held.iter().all(|item| **item == 0));
}

#[test]
fn an_item_is_reset_once_at_each_return() {
    let pool = Pool::<u32>::new(1, || 0, |number| *number += 1).expect("there is memory");
    for turns in 0..5 {
        assert_eq!(*pool.pull().expect("it came back"), turns);
    }
}

#[test]
fn a_pool_may_have_millions_of_items() {
    let mut made = 0;
    let pool = Pool::<()>::new(5_000_000, || made += 1, |()| ()).expect("there is memory");
    assert_eq!((made, pool.items()), (5_000_000, 5_000_000));
}

#[test]
fn an_item_that_a_panic_drops_is_reset() {
    let pool = zeros(1);
    let panicked = catch_unwind(AssertUnwindSafe(|| {
        let mut item = pool.pull().expect("it is free");
        *item = 5;
        panic!("on purpose")
    }));
    assert!(panicked.is_err());
    assert_eq!(*pool.pull().expect("it came back"), 0);
}

#[test]
fn a_pools_type_may_name_its_reset() {
    let reset: fn(&mut String) = String::clear;
    let pool = Pool::with_reset(1, String::new, reset).expect("there is memory");
    let pool: Pool<String, fn(&mut String)> = pool;
    pool.pull().expect("it is free").push('a');
    assert!(pool.pull().expect("it came back").is_empty());
}

#[test]
fn a_refused_owned_pull_keeps_no_owner() {
    let pool = Arc::new(zeros(1));
    let _item = pool.pull();
    assert!(pool.pull_owned().is_none());
    assert_eq!(Arc::strong_count(&pool), 1);
}

#[test]
fn threads_hold_different_items() {
    let pool = Arc::new(zeros(8));
    let (sender, receiver) = mpsc::channel();
    let threads: Vec<_> = (0..5)
        .map(|number| {
            let (pool, sender) = (Arc::clone(&pool), sender.clone());
            thread::spawn(move || {
                let mut item = pool.pull().expect("one is free");
                *item = number;
                sender.send(*item).expect("it is read");
            })
        })
        .collect();
    let told: HashSet<u32> = (0..5).map(|_| receiver.recv().expect("one a thread")).collect();
    assert_eq!(told, (0..5).collect());
    for thread in threads {
        thread.join().expect("it ends");
    }
}

#[test]
fn an_owned_item_keeps_its_pool() {
    let pool = Arc::new(zeros(2));
    let weak = Arc::downgrade(&pool);
    let item: OwnedReusable<u32> = pool.pull_owned().expect("one is free");
    drop(pool);
    assert!(weak.upgrade().is_some());
    drop(item);
    assert!(weak.upgrade().is_none());
}

#[test]
fn items_go_from_thread_to_thread() {
    let pool = Arc::new(Pool::<Vec<u8>>::new(4, Vec::new, Vec::clear).expect("there is memory"));
    let (sender, receiver) = mpsc::channel::<OwnedReusable<Vec<u8>>>();
    let writer = thread::spawn(move || {
        for number in 0..200_u8 {
            let mut buffer = loop {
                match pool.pull_owned() {
                    Some(buffer) => break buffer,
                    None => thread::yield_now(),
                }
            };
            assert!(buffer.is_empty());
            buffer.push(number);
            sender.send(buffer).expect("it is read");
        }
    });
    let told: Vec<u8> = receiver.iter().map(|buffer| buffer[0]).collect();
    writer.join().expect("it ends");
    assert_eq!(told, (0..200).collect::<Vec<u8>>());
}

/// Says how often it was dropped.
struct Counted(Arc<AtomicUsize>);

impl Drop for Counted {
    fn drop(&mut self) {
        self.0.fetch_add(1, Ordering::SeqCst);
    }
}

#[test]
fn each_item_is_dropped_once_with_its_pool() {
    let dropped = Arc::new(AtomicUsize::new(0));
    let made = Arc::clone(&dropped);
    let pool = Pool::new(10, move || Counted(Arc::clone(&made)), |_| ()).expect("there is memory");
    drop(pool.pull());
    assert_eq!(dropped.load(Ordering::SeqCst), 0);
    drop(pool);
    assert_eq!(dropped.load(Ordering::SeqCst), 10);
}

#[test]
fn an_item_whose_reset_panics_never_comes_again() {
    let reset = |number: &mut u32| assert_eq!(*number, 0, "it was written to");
    let pool = Pool::<u32>::new(2, || 0, reset).expect("there is memory");
    let mut item = pool.pull().expect("one is free");
    let number = item.number();
    *item = 1;
    assert!(catch_unwind(AssertUnwindSafe(|| drop(item))).is_err());
    let others: Vec<usize> = std::iter::from_fn(|| pool.pull())
        .map(|item| {
            let number = item.number();
            std::mem::forget(item);
            number
        })
        .collect();
    assert_eq!(others, [1 - number]);
}

#[test]
fn a_forgotten_item_stays_out() {
    let pool = zeros(2);
    std::mem::forget(pool.pull());
    assert!(pool.pull().is_some());
    let one = pool.pull();
    assert!(one.is_some() && pool.pull().is_none());
}

/// Eight threads, one item fewer than they want: what each wrote is there as long as it holds the
/// item, and all come back.
#[test]
fn nobody_else_is_at_an_item_that_is_held() {
    const THREADS: u32 = 8;
    let pool = kept(THREADS as usize * 2 - 1);
    let faults = AtomicUsize::new(0);
    thread::scope(|scope| {
        for thread in 0..THREADS {
            let (pool, faults) = (&pool, &faults);
            scope.spawn(move || {
                for turn in 0..5_000 {
                    let mine = thread << 16 | turn;
                    let mut items = [pool.pull(), pool.pull()];
                    items.iter_mut().flatten().for_each(|item| **item = mine);
                    thread::yield_now();
                    let wrong = items.iter().flatten().filter(|item| ***item != mine).count();
                    faults.fetch_add(wrong, Ordering::SeqCst);
                }
            });
        }
    });
    assert_eq!(faults.load(Ordering::SeqCst), 0);
    assert_eq!(std::iter::from_fn(|| pool.pull().map(std::mem::forget)).count(), pool.items());
}

#[test]
fn a_value_in_place_of_an_item_is_not_reset() {
    let resets = Arc::new(AtomicUsize::new(0));
    let count = Arc::clone(&resets);
    let reset = move |_: &mut u32| {
        count.fetch_add(1, Ordering::SeqCst);
    };
    let pool = Pool::<u32>::new(1, || 1, reset);
    let pool = pool.expect("there is memory");
    let one = pool.pull_or_else(|| unreachable!("one is free"));
    let mut two = pool.pull_or_else(|| 2);
    *two += 5;
    assert_eq!((*one, one.is_pooled(), *two, two.is_pooled()), (1, true, 7, false));
    drop(two);
    assert_eq!(resets.load(Ordering::SeqCst), 0);
    drop(one);
    assert_eq!(resets.load(Ordering::SeqCst), 1);
    assert!(pool.pull().is_some());
}

#[test]
fn a_pool_ends_with_its_items() {
    let mut next = 0..;
    let pool = Pool::<u32>::new(70, || next.next().expect("there are more"), |_| ());
    let pool = pool.expect("there is memory");
    let mut item = pool.pull().expect("one is free");
    let number = item.number();
    *item += 100;
    drop(item);
    let mut items = pool.into_inner();
    items[number] -= 100;
    assert!(items.into_iter().eq(0..70), "by their numbers");
}
