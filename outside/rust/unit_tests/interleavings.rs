//! All interleavings of two threads: of the library's pulls and returns, each of which is one step,
//! and of what threads read and write of each other's kept places. What a thread does between has
//! no effect on others.
use crate::{atomics, threads, LinearObjectPool, OwnedReusable, Pool};
use std::cell::Cell;
use std::collections::VecDeque;
use std::rc::Rc;
use std::sync::atomic::{AtomicUsize, Ordering::SeqCst};
use std::sync::{mpsc, Arc, Mutex, PoisonError};
use std::{iter, mem, thread};

#[path = "growing.rs"]
mod growing;
#[path = "held_up.rs"]
mod held_up;
#[path = "threads.rs"]
mod numbers;
#[path = "scale.rs"]
mod scale;
#[path = "steps.rs"]
mod steps;
use steps::{explore, explore_after, explore_changes, Move, LOCKS, MOVES};
pub(crate) use steps::{locks, looked, meanwhile, returns, sets, step, TESTED};

type Item = OwnedReusable<Cell<u32>>;

/// A pool of two items, and a place for one on its way to the other thread.
struct Two(Arc<Pool<Cell<u32>>>, Mutex<Option<Item>>);

fn two() -> Two {
    let pool = Pool::new(2, || Cell::new(0), |_| ()).expect("there is memory");
    Two(Arc::new(pool), Mutex::new(None))
}

/// Pulls an item, which nobody else has.
fn pull(two: &Two) -> Item {
    let item = two.0.pull_owned().expect("each thread has one at most");
    assert_eq!(item.replace(1), 0, "two have it");
    item
}

fn bring_back(item: Item) {
    item.set(0);
}

fn all_are_free(two: Two) {
    two.1.lock().expect("no panic").take().into_iter().for_each(bring_back);
    let items: Vec<_> = iter::from_fn(|| two.0.pull()).collect();
    assert_eq!(items.len(), 2);
    assert!(items.iter().all(|item| item.get() == 0));
}

#[test]
fn two_threads_pull_and_return() {
    let work = |two: &Two| bring_back(pull(two));
    explore(20, two, [work, work], all_are_free);
}

#[test]
fn one_thread_returns_what_the_other_pulled() {
    let pulls = |two: &Two| *two.1.lock().expect("no panic") = Some(pull(two));
    let returns = |two: &Two| {
        let other = two.1.lock().expect("no panic").take();
        other.into_iter().for_each(bring_back);
        bring_back(pull(two));
    };
    explore(10, two, [pulls, returns], all_are_free);
}

/// A thread that has none keeps one of the two items.
fn two_of_which_one_is_kept() -> Two {
    let two = two();
    drop(two.0.pull());
    two
}

#[test]
fn an_item_that_a_third_thread_keeps_is_pulled_by_one() {
    let work = |two: &Two| bring_back(pull(two));
    explore(100, two_of_which_one_is_kept, [work, work], all_are_free);
}

#[test]
fn an_item_that_moves_between_thread_slots_is_found() {
    let twice = |two: &Two| (0..2).for_each(|_| bring_back(pull(two)));
    let once = |two: &Two| bring_back(pull(two));
    explore_changes(4, 1_000, two_of_which_one_is_kept, [twice, once], all_are_free);
}

/// A pool of one item, and the calls that began and ended: of each thread which, in their order.
struct One(Arc<Pool<Cell<u32>>>, Mutex<Vec<(usize, Call)>>);

#[derive(Clone, Copy, PartialEq)]
enum Call {
    /// A pull begins, and holds an item until the return has ended.
    Holds,
    Ended,
    /// A pull was refused.
    Refused,
}

impl One {
    fn note(&self, thread: usize, call: Call) {
        self.1.lock().expect("no panic").push((thread, call));
    }

    /// Pulls the item and returns it, or is refused.
    fn turn(&self, thread: usize) {
        self.note(thread, Call::Holds);
        if let Some(item) = self.0.pull_owned() {
            assert_eq!(item.replace(1), 0, "two have it");
            bring_back(item);
            self.note(thread, Call::Ended);
        } else {
            self.note(thread, Call::Refused);
        }
    }

    /// Checks that a thread was refused only while the other one was in a call or held the item.
    fn check(self) {
        let calls = self.1.into_inner().expect("no panic");
        for (end, &(thread, call)) in calls.iter().enumerate() {
            if call == Call::Refused {
                let before = &calls[..end];
                let begin = before.iter().rposition(|other| *other == (thread, Call::Holds));
                let begin = begin.expect("it began");
                let other = |(of, _): &&(usize, Call)| *of != thread;
                let between = calls[begin..end].iter().any(|call| other(&call));
                let last = calls[..begin].iter().rev().find(other);
                let is_held = last.is_some_and(|(_, call)| *call == Call::Holds);
                assert!(between || is_held, "the item was free all the time");
            }
        }
        let item = self.0.pull().expect("it is free");
        assert_eq!(item.get(), 0);
        assert!(self.0.pull().is_none());
    }
}

#[test]
fn a_pull_of_one_item_is_refused_only_while_it_is_held() {
    let free = || {
        let pool = Pool::new(1, || Cell::new(0), |_| ()).expect("there is memory");
        One(Arc::new(pool), Mutex::new(Vec::new()))
    };
    // A thread that has ended kept it, so one of the two has its slot.
    let kept = || {
        let one = free();
        thread::scope(|scope| scope.spawn(|| drop(one.0.pull())).join()).expect("it ends");
        one
    };
    let works = [|one: &One| one.turn(0), |one: &One| one.turn(1)];
    explore(150, free, works, One::check);
    explore(500, kept, works, One::check);
}

/// Two pools of one item. Each of two threads holds one, and delays its writes.
struct Each([Arc<Pool<u32>>; 2], [Mutex<Option<OwnedReusable<u32>>>; 2], AtomicUsize);

impl Each {
    /// Returns the item of one pool, and then pulls the other one's.
    fn turn(&self, thread: usize) {
        drop(self.1[thread].lock().expect("no panic").take());
        self.2.fetch_add(usize::from(self.0[1 - thread].pull().is_none()), SeqCst);
    }
}

/// Whatever comes first, one of two pulls comes after the return that it waits for. A return is a
/// plain write.
#[test]
fn one_of_two_pulls_finds_what_the_other_thread_returned_before() {
    let one = || Arc::new(Pool::new(1, || 0, |_| ()).expect("there is memory"));
    let each = || Each([one(), one()], Default::default(), AtomicUsize::new(0));
    let hold = |each: &Each, thread: usize| {
        drop(each.0[thread].pull()); // so it has its slot
        let item = each.0[thread].pull_owned();
        *each.1[thread].lock().expect("no panic") = item;
        atomics::delay(true);
    };
    let works = [|each: &Each| each.turn(0), |each: &Each| each.turn(1)];
    explore_after(hold, 3, 100, each, works, |each| {
        assert!(each.2.into_inner() < 2, "both were refused")
    });
}

/// A pool of one item, which the first thread holds. Before the other one pulls it, that one says
/// that it may wait.
struct Waited(Arc<Pool<u32>>, Mutex<Option<OwnedReusable<u32>>>, [atomics::AtomicUsize; 2]);

/// A program that waits in its own way has a fence between a return and its read of who waits.
#[test]
fn who_waits_in_its_own_way_is_seen_after_a_return_and_a_fence() {
    let waited = || {
        let one = Pool::new(1, || 0, |_| ()).expect("there is memory");
        Waited(Arc::new(one), Mutex::default(), Default::default())
    };
    let hold = |waited: &Waited, thread: usize| {
        if thread == 0 {
            drop(waited.0.pull()); // so it has its slot
            *waited.1.lock().expect("no panic") = waited.0.pull_owned();
        }
        atomics::delay(true);
    };
    let give_back = |Waited(_, item, [waits, is_seen]): &Waited| {
        drop(item.lock().expect("no panic").take());
        atomics::fence(SeqCst);
        is_seen.store(waits.load(SeqCst), SeqCst);
    };
    let wait = |Waited(pool, _, [waits, _]): &Waited| {
        waits.store(1, atomics::Ordering::Relaxed);
        waits.store(1 + usize::from(pool.pull().is_none()), SeqCst);
    };
    explore_after(hold, 3, 100, waited, [give_back, wait], |Waited(_, _, flags)| {
        let [waits, is_seen] = flags.map(|flag| flag.load(SeqCst));
        assert!(waits == 1 || is_seen > 0, "it waits, and nobody sees that");
    });
}

#[test]
fn an_item_that_a_third_thread_keeps_is_taken_by_one() {
    let kept = || {
        let pool = Pool::new(1, || Cell::new(0), |_| ()).expect("there is memory");
        drop(pool.pull()); // this thread keeps it
        (pool, AtomicUsize::new(0))
    };
    type Shared = (Pool<Cell<u32>>, AtomicUsize);
    let take = |(pool, taken): &Shared| {
        if let Some(item) = pool.pull() {
            taken.fetch_add(1, SeqCst);
            mem::forget(item);
        }
    };
    explore_changes(4, 20, kept, [take, take], |(_, taken)| assert_eq!(taken.into_inner(), 1));
}

/// A thread that pulls an item and returns it as it is told to. It has its number until its end.
struct Worker {
    orders: mpsc::Sender<bool>,
    done: mpsc::Receiver<()>,
}

impl Worker {
    fn new(pool: &Arc<Pool<Cell<u32>>>) -> Worker {
        let (orders, told) = mpsc::channel::<bool>();
        let (tell, done) = mpsc::channel();
        let pool = Arc::clone(pool);
        thread::spawn(move || {
            let mut item = None;
            for pulls in told {
                item = pulls.then(|| pool.pull_owned()).flatten();
                tell.send(()).expect("somebody waits");
            }
            drop(item);
        });
        Worker { orders, done }
    }

    /// Lets it pull an item, or return the one that it has, and waits for that.
    fn order(&self, pulls: bool) {
        self.orders.send(pulls).expect("it runs");
        self.done.recv().expect("it runs");
    }
}

/// Of two items one is held and the other one is kept, by two threads. At three steps of a pull one
/// of them returns its item, and then the other one pulls what it keeps. So one is free all the
/// time, and is found.
#[test]
fn an_item_that_two_threads_keep_in_turn_is_found() {
    let _alone = TESTED.lock().unwrap_or_else(PoisonError::into_inner);
    let steps = || 0..8;
    let all = steps().flat_map(|a| steps().flat_map(move |b| steps().map(move |c| [a, b, c])));
    let Two(pool, _) = two();
    let workers = Rc::new([(); 2].map(|()| Worker::new(&pool)));
    for steps in all {
        (0..2).for_each(|worker| workers[worker].order(true));
        workers[1].order(false); // it keeps its item
        let moves = steps.into_iter().enumerate().map(|(turn, before)| {
            let workers = Rc::clone(&workers);
            let call = move || {
                workers[turn % 2].order(false);
                workers[(turn + 1) % 2].order(true);
            };
            (before, Box::new(call) as Box<dyn FnOnce()>)
        });
        MOVES.set(moves.collect());
        let item = pool.pull();
        MOVES.take();
        assert!(item.is_some(), "refused at {steps:?}");
        drop(item);
        (0..2).for_each(|worker| workers[worker].order(false));
    }
}

/// Of two items a thread keeps one, and the other one is held. At a step of a pull that thread pulls
/// its own and keeps it again. At a later step the other item comes to the library, and then the first
/// one is pulled. So one is free all the time, and is found.
#[test]
fn an_item_that_is_kept_again_meanwhile_is_found() {
    let _alone = TESTED.lock().unwrap_or_else(PoisonError::into_inner);
    for (first, second) in (0..10).flat_map(|first| (0..10).map(move |second| (first, second))) {
        let Two(pool, _) = two();
        let worker = Rc::new(Worker::new(&pool));
        worker.order(true);
        let other = pool.pull_owned();
        worker.order(false); // it keeps its item
        let again = Rc::clone(&worker);
        let keep_again = move || [true, false].into_iter().for_each(|pulls| again.order(pulls));
        let last = Rc::clone(&worker);
        let return_other = move || {
            in_a_thread(|| threads::with(|_| drop(other)));
            last.order(true);
        };
        MOVES.set([one_move(first, keep_again), one_move(second, return_other)].into());
        let item = pool.pull();
        MOVES.take();
        assert!(item.is_some(), "refused at {first} and {second}");
    }
}

/// Two items are held by a thread, which keeps one when it returns it, so that the other one goes to
/// the library. Another thread looks for both meanwhile. What is free then is found: writes are
/// delayed.
#[test]
fn an_item_that_comes_back_beside_a_look_is_found() {
    type Held = Mutex<Vec<OwnedReusable<Cell<u32>>>>;
    type Shared = (Two, Held);
    let made = || (two(), Held::default());
    let hold = |(Two(pool, _), held): &Shared, thread: usize| {
        if thread == 0 {
            held.lock().expect("no panic").extend([pull_of(pool), pull_of(pool)]);
        }
        atomics::delay(true);
    };
    let returns = |(_, held): &Shared| drop(mem::take(&mut *held.lock().expect("no panic")));
    let pulls = |(Two(pool, _), _): &Shared| drop((pool.pull(), pool.pull()));
    explore_after(hold, 3, 100, made, [returns, pulls], |(Two(pool, _), _)| {
        assert_eq!([(); 3].map(|()| pool.pull().map(mem::forget).is_some()), [true, true, false]);
    });
}

fn pull_of(pool: &Arc<Pool<Cell<u32>>>) -> Item {
    pool.pull_owned().expect("one is free")
}

/// A thread without a number goes by what threads share, as in a call within a call.
#[test]
fn a_thread_without_a_number_pulls_and_returns() {
    let _alone = TESTED.lock().unwrap_or_else(PoisonError::into_inner);
    let pool = Pool::<u32>::new(5, || 0, |number| *number = 0).expect("there is memory");
    let count = Arc::new(AtomicUsize::new(0));
    let made = Arc::clone(&count);
    let grows = LinearObjectPool::new(move || made.fetch_add(1, SeqCst), |_| ());
    drop((pool.pull(), grows.pull())); // this thread keeps one of each
    let turn = || {
        let mut items: Vec<_> = iter::from_fn(|| pool.pull()).collect();
        assert_eq!(items.len(), 5);
        items.iter_mut().for_each(|item| assert_eq!(mem::replace(&mut **item, 1), 0));
        let mut others: Vec<_> = (0..50).map(|_| grows.pull()).collect();
        others.iter_mut().for_each(|item| assert_ne!(mem::replace(&mut **item, 99), 99));
        assert_eq!([pool.status().in_use, grows.status().in_use], [5, 50]);
        others.iter_mut().for_each(|item| **item = 0);
    };
    for _ in 0..3 {
        threads::with(|_| turn());
        assert_eq!(count.load(SeqCst), 51, "one is kept by this thread");
        assert_eq!([pool.status().in_use, grows.status().in_use], [0, 0]);
    }
    turn();
    assert!(count.load(SeqCst) <= 51);
}

/// A pool whose items are counted as they are made.
fn counted() -> (Arc<LinearObjectPool<usize>>, Arc<AtomicUsize>) {
    let count = Arc::new(AtomicUsize::new(0));
    let made = Arc::clone(&count);
    let init = move || made.fetch_add(1, SeqCst);
    (Arc::new(LinearObjectPool::new(init, |_| ())), count)
}

fn in_a_thread(call: impl FnOnce() + Send + 'static) {
    thread::spawn(call).join().expect("it ends");
}

fn one_move(before: usize, call: impl FnOnce() + 'static) -> Move {
    (before, Box::new(call))
}

/// Of two items one is in use, and the other one isn't made. At a step of a pull the first one comes
/// back and the second one is made. So one is free all the time, and is pulled.
#[test]
fn a_lazy_item_that_is_made_within_a_pull_is_found() {
    let _alone = TESTED.lock().unwrap_or_else(PoisonError::into_inner);
    for before in 0..30 {
        let pool = crate::LazyPool::<u32, ()>::new(2, || Ok(0), |_| true);
        let pool = Arc::new(pool.expect("there is memory"));
        let (held, other) = (pool.pull_owned().expect("it is made"), Arc::clone(&pool));
        let call = move || {
            drop(held);
            other.fill(2).expect("it is made");
        };
        let moved = one_move(before, move || in_a_thread(call));
        MOVES.set(VecDeque::from([moved]));
        let pulled = pool.pull();
        MOVES.take();
        assert!(pulled.is_ok(), "refused at step {before}");
    }
}

/// Who sets a box that is set drops its value.
#[test]
fn a_box_that_is_set_twice_drops_the_later_value() {
    let (first, later) = (Rc::new(1), Rc::new(2));
    let once = crate::once::OnceBox::new();
    for value in [&first, &later] {
        assert_eq!(once.set(Rc::clone(value)).map(|set| **set), Some(1));
    }
    assert_eq!((Rc::strong_count(&first), Rc::strong_count(&later)), (2, 1));
}

/// A thread that has its slots takes no lock, whether it keeps what it returns or not.
#[test]
fn later_pulls_and_returns_take_no_lock() {
    let _alone = TESTED.lock().unwrap_or_else(PoisonError::into_inner);
    in_a_thread(|| {
        let pool = Pool::<u32>::new(40, || 0, |_| ()).expect("there is memory");
        let (grows, _) = counted();
        let turn = || {
            let items: Vec<_> = (0..40).map(|_| (pool.pull(), grows.pull())).collect();
            assert!(items.iter().all(|(item, _)| item.is_some()));
            assert!(pool.pull().is_none());
        };
        turn();
        turn();
        let before = LOCKS.get();
        turn();
        assert_eq!(LOCKS.get(), before);
    });
}

/// Behind the last slot there is room on its cache lines that no other memory has.
#[test]
fn slots_share_no_cache_line_with_other_memory() {
    let slots = |count| crate::places::slots::Slots::new(count, || 0_u32);
    for count in [1_usize, 8, 31, 32, 1_000] {
        let room = slots(count).expect("there is memory").room();
        assert!(room >= 128, "{room} bytes after {count} slots");
    }
}
