//! What a pull of a pool that grows finds, if others return and pull within it.
use super::steps::{AFTER, MOVES};
use super::{counted, in_a_thread, one_move, TESTED};
use crate::{threads, LinearObjectPool};
use std::collections::VecDeque;
use std::sync::atomic::{AtomicUsize, Ordering::SeqCst};
use std::sync::{Arc, Barrier, PoisonError};
use std::{mem, thread};

/// One item is free. At some step of a pull another thread returns one and a third one pulls one,
/// both in parts of the pool. Then none is made, wherever these items lie.
#[test]
fn an_item_that_moves_is_found() {
    let _alone = TESTED.lock().unwrap_or_else(PoisonError::into_inner);
    // Some of each of three parts, of which the last one has room for more.
    let places = || (0..40).step_by(5);
    for (free, moved) in places().flat_map(|free| places().map(move |moved| (free, moved))) {
        for before in (0..12).filter(|_| free != moved) {
            let count = Arc::new(AtomicUsize::new(0));
            let made = Arc::clone(&count);
            let init = move || made.fetch_add(1, SeqCst);
            let pool = Arc::new(LinearObjectPool::<usize>::new(init, |_| ()));
            let mut items: Vec<_> = (0..40).map(|_| Some(pool.pull_owned())).collect();
            let (free, moved) = (items[free].take(), items[moved].take());
            thread::spawn(move || drop(free)).join().expect("it ends");
            // The next thread has this one's slot, and begins where this one pulled.
            let other = Arc::clone(&pool);
            thread::spawn(move || drop(other.pull())).join().expect("it ends");
            let other = Arc::clone(&pool);
            let call = move || {
                thread::spawn(move || drop(moved)).join().expect("it ends");
                let pull = move || {
                    threads::with(|_| ()); // it has its number
                    mem::forget(other.pull());
                };
                thread::spawn(pull).join().expect("it ends");
            };
            MOVES.set(VecDeque::from([(before, Box::new(call) as Box<dyn FnOnce()>)]));
            let _item = pool.pull();
            MOVES.take();
            assert_eq!(count.load(SeqCst), 40);
        }
    }
}

/// No item is free, but one was, so that a pull looks for it. At some step of the look another one
/// is returned. If the pull misses that, the next one doesn't.
#[test]
fn an_item_that_a_look_missed_is_found_by_the_next() {
    let _alone = TESTED.lock().unwrap_or_else(PoisonError::into_inner);
    for (at, before) in (0..40).step_by(5).flat_map(|at| (0..40).map(move |before| (at, before))) {
        let (pool, count) = counted();
        let mut items: Vec<_> = (0..40).map(|_| Some(pool.pull_owned())).collect();
        let (gone, moved) = (items[1].take(), items[at].take());
        in_a_thread(move || drop(gone));
        let other = Arc::clone(&pool);
        in_a_thread(move || mem::forget(other.pull_owned()));
        let returns = one_move(before, move || in_a_thread(move || drop(moved)));
        MOVES.set(VecDeque::from([returns]));
        let first = pool.pull();
        let is_over = MOVES.take().is_empty();
        let both = (first, pool.pull());
        assert!(!is_over || count.load(SeqCst) == 41, "{at} at step {before}");
        drop(both);
    }
}

/// A pull of a thread is held up at two steps. At the first one all items are returned, and at the
/// other one a third thread pulls most of them. It makes none, wherever the first one stands.
#[test]
fn a_pull_that_is_held_up_hides_no_items() {
    const ITEMS: usize = 60;
    let _alone = TESTED.lock().unwrap_or_else(PoisonError::into_inner);
    for (first, second) in (0..12).flat_map(|first| (0..8).map(move |second| (first, second))) {
        let (pool, count) = counted();
        let mut items: Vec<_> = (0..ITEMS).map(|_| pool.pull_owned()).collect();
        let one = items.swap_remove(50); // of a part of 32
        in_a_thread(move || drop(one)); // so its part says that one was returned
        drop(pool.pull()); // this thread keeps it
        let kept = pool.pull();
        let other = Arc::clone(&pool);
        let pull_most =
            move || mem::forget((0..ITEMS - 9).map(|_| other.pull_owned()).collect::<Vec<_>>());
        let returns = one_move(first, move || in_a_thread(move || drop(items)));
        let pulls = one_move(second, move || in_a_thread(pull_most));
        MOVES.set(VecDeque::from([returns, pulls]));
        let pulled = pool.pull();
        let is_over = MOVES.take().is_empty();
        let made = count.load(SeqCst);
        // Where the pull itself had passed by before the items came back, it makes one.
        assert!(!is_over || made <= ITEMS + 1, "{made} items at {first} and {second}");
        drop((kept, pulled));
    }
}

/// At each step at which a pull makes something, threads of all shards pull. Where they find a place
/// there is room for its item.
#[test]
fn a_part_that_is_being_made_gives_no_place_without_room() {
    let _alone = TESTED.lock().unwrap_or_else(PoisonError::into_inner);
    for after in 0..20 {
        let (pool, _) = counted();
        let other = Arc::clone(&pool);
        let call = move || {
            let all = Barrier::new(9);
            let pull = || {
                threads::with(|_| ()); // it has its number
                all.wait();
                mem::forget(other.pull_owned());
            };
            thread::scope(|scope| (0..9).for_each(|_| drop(scope.spawn(pull))));
        };
        AFTER.set(VecDeque::from([one_move(after, call)]));
        let _items: Vec<_> = (0..20).map(|_| pool.pull()).collect();
        AFTER.take();
    }
}
