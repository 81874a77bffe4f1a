//! What programs do that mean no good: guards in thread locals and channels, resets that drop
//! guards, items of odd sizes, panics, and more threads than there are processors.
use kundratu_pool::{LinearObjectPool, LinearOwnedReusable, MutexObjectPool, MutexOwnedReusable};
use kundratu_pool::{NoneObjectPool, OwnedReusable, Pool};
use std::cell::RefCell;
use std::collections::HashSet;
use std::panic::{catch_unwind, AssertUnwindSafe};
use std::sync::atomic::{AtomicBool, AtomicUsize, Ordering::SeqCst};
use std::sync::{mpsc, Arc, Barrier, LazyLock, Mutex, OnceLock};
use std::time::Duration;
use std::{iter, mem, thread};

/// An item that tells whether two hold it.
#[derive(Default)]
struct Item(AtomicUsize);

impl Item {
    fn hold(&self) {
        assert_eq!(self.0.swap(1, SeqCst), 0, "two have it");
    }

    fn reset(&mut self) {
        *self.0.get_mut() = 0;
    }
}

static FIXED: LazyLock<Arc<Pool<Item>>> = LazyLock::new(|| {
    Arc::new(Pool::new(300, Item::default, Item::reset).expect("there is memory"))
});
static GROWS: LazyLock<Arc<LinearObjectPool<Item>>> =
    LazyLock::new(|| Arc::new(LinearObjectPool::new(Item::default, Item::reset)));

type Both = (Option<OwnedReusable<Item>>, LinearOwnedReusable<Item>);

fn pull_both() -> Both {
    let both = (FIXED.pull_owned(), GROWS.pull_owned());
    both.0.iter().for_each(|item| item.hold());
    both.1.hold();
    both
}

/// At a thread's end it holds two items, and pulls and drops two more.
struct AtTheEnd(Option<Both>);

impl Drop for AtTheEnd {
    fn drop(&mut self) {
        drop(pull_both());
        if let Some((_, item)) = &self.0 {
            assert_eq!(item.0.load(SeqCst), 1);
        }
    }
}

thread_local! {
    static EARLY: RefCell<Option<AtTheEnd>> = const { RefCell::new(None) };
    static LATE: RefCell<Option<AtTheEnd>> = const { RefCell::new(None) };
}

/// A thread sends some items, returns some of others, and leaves some in its locals.
fn churn(thread: usize, sender: &mpsc::Sender<Both>, receiver: &Mutex<mpsc::Receiver<Both>>) {
    if thread % 3 == 0 {
        EARLY.set(Some(AtTheEnd(None)));
    }
    for turn in 0..50 {
        let both = pull_both();
        match (turn + thread) % 7 {
            0 | 1 => sender.send(both).expect("it is read"),
            2 => drop(receiver.lock().expect("no panic").try_recv()),
            _ if turn == 49 && thread % 2 == 0 => LATE.set(Some(AtTheEnd(Some(both)))),
            _ if turn == 49 => EARLY.set(Some(AtTheEnd(Some(both)))),
            _ => {}
        }
    }
}

#[test]
fn threads_come_and_end_with_items_in_channels_and_locals() {
    const THREADS: usize = 100;
    let (sender, receiver) = mpsc::channel();
    let receiver = Mutex::new(receiver);
    for _ in 0..10 {
        thread::scope(|scope| {
            let threads: Vec<_> = (0..THREADS)
                .map(|thread| {
                    let (sender, receiver) = (sender.clone(), &receiver);
                    scope.spawn(move || churn(thread, &sender, receiver))
                })
                .collect();
            threads.into_iter().for_each(|thread| thread.join().expect("it ends"));
        });
    }
    drop((sender, receiver));
    let all: Vec<_> = iter::from_fn(|| FIXED.pull()).collect();
    assert_eq!(all.len(), FIXED.items());
    all.iter().for_each(|item| item.hold());
}

/// An item that may hold another one.
#[derive(Default)]
struct Node(Option<OwnedReusable<Node>>, Option<LinearOwnedReusable<Node>>);

impl Node {
    fn reset(&mut self) {
        *self = Node::default();
    }
}

#[test]
fn a_reset_drops_items_of_its_own_pool() {
    let fixed = Pool::new(1_000, Node::default, Node::reset).expect("there is memory");
    let (fixed, grows) =
        (Arc::new(fixed), Arc::new(LinearObjectPool::new(Node::default, Node::reset)));
    for _ in 0..20 {
        let mut last = Node::default();
        for _ in 0..300 {
            let mut one = fixed.pull_owned().expect("one is free");
            let mut other = grows.pull_owned();
            *one = mem::take(&mut last);
            other.0 = Some(one);
            last.1 = Some(other);
        }
        thread::spawn(move || drop(last)).join().expect("it ends");
    }
    assert_eq!(iter::from_fn(|| fixed.pull().map(mem::forget)).count(), 1_000);
}

/// A reset of a stack pool runs without its lock, so it may drop an item of that pool.
#[test]
fn a_reset_drops_an_item_of_its_own_stack_pool() {
    struct Stacked(Option<Box<MutexOwnedReusable<Stacked>>>);
    let (tell, done) = mpsc::channel();
    thread::spawn(move || {
        let pool = MutexObjectPool::new(|| Stacked(None), |item| item.0 = None);
        let pool = Arc::new(pool);
        let mut item = pool.pull_owned();
        item.0 = Some(Box::new(pool.pull_owned()));
        drop(item);
        tell.send(()).expect("somebody waits");
    });
    let ended = done.recv_timeout(Duration::from_secs(60));
    assert_eq!(ended, Ok(()), "it hangs");
}

#[test]
fn a_pool_that_keeps_nothing_calls_init_once_a_pull() {
    let made = Arc::new(AtomicUsize::new(0));
    let count = Arc::clone(&made);
    let pool = Arc::new(NoneObjectPool::new(move || count.fetch_add(1, SeqCst)));
    assert_eq!([*pool.pull(), *pool.pull_owned()], [0, 1]);
    assert_eq!(made.load(SeqCst), 2);
}

/// The last owners of two pools.
#[allow(dead_code)]
struct Last(Option<OwnedReusable<Vec<u8>>>, Option<LinearOwnedReusable<Vec<u8>>>);

thread_local! {
    static LASTS: RefCell<Vec<Last>> = const { RefCell::new(Vec::new()) };
}

#[test]
fn the_last_owner_of_a_pool_is_in_a_thread_local() {
    let run = |thread: usize| {
        if thread % 2 == 0 {
            LASTS.with_borrow_mut(Vec::clear); // it is there before the thread's number
        }
        let fixed = Pool::<Vec<u8>>::new(70, Vec::new, Vec::clear).expect("there is memory");
        let grows = Arc::new(LinearObjectPool::<Vec<u8>>::new(Vec::new, Vec::clear));
        let (mut one, mut other) = (Arc::new(fixed).pull_owned(), grows.pull_owned());
        drop(grows.pull());
        one.as_mut().expect("it is free").push(1);
        other.extend([1, 2, 3]);
        LASTS.with_borrow_mut(|lasts| lasts.push(Last(one, Some(other))));
    };
    for _ in 0..10 {
        let threads: Vec<_> = (0..80).map(|thread| thread::spawn(move || run(thread))).collect();
        threads.into_iter().for_each(|thread| thread.join().expect("it ends"));
    }
}

#[derive(Clone)]
#[repr(align(4096))]
struct Page([u8; 4096]);

#[test]
fn items_are_aligned_as_they_ask_and_may_have_no_size() {
    let fill = |page: &mut Page, byte: u8| {
        assert_eq!(&raw const *page as usize % 4096, 0);
        assert!(page.0.iter().all(|byte| *byte == 0));
        page.0.fill(byte);
    };
    let clear = |page: &mut Page| page.0.fill(0);
    let fixed = Pool::new(40, || Page([0; 4096]), clear).expect("there is memory");
    let grows = LinearObjectPool::new(|| Page([0; 4096]), clear);
    thread::scope(|scope| {
        for thread in 1..9 {
            let (fixed, grows) = (&fixed, &grows);
            scope.spawn(move || {
                for turn in 0..200 {
                    fill(&mut fixed.pull().expect("one is free"), thread);
                    let mut pages: Vec<_> = (0..turn % 12).map(|_| grows.pull()).collect();
                    pages.iter_mut().for_each(|page| fill(page, thread));
                }
            });
        }
    });
}

#[test]
fn items_of_no_size_are_reset_and_counted() {
    static RESETS: AtomicUsize = AtomicUsize::new(0);
    let reset = |(): &mut ()| {
        RESETS.fetch_add(1, SeqCst);
    };
    let fixed = Pool::new(100, || (), reset).expect("there is memory");
    let grows = LinearObjectPool::new(|| (), reset);
    for round in 1..4 {
        let all: Vec<_> = iter::from_fn(|| fixed.pull()).collect();
        let numbers: HashSet<usize> = all.iter().map(|item| item.number()).collect();
        assert_eq!(numbers.len(), 100);
        drop(all);
        drop((0..100).map(|_| grows.pull()).collect::<Vec<_>>());
        assert_eq!(RESETS.load(SeqCst), round * 200);
    }
}

/// Counts how many there are.
struct Counted<'c>(&'c AtomicUsize);

impl<'c> Counted<'c> {
    fn new(count: &'c AtomicUsize) -> Counted<'c> {
        count.fetch_add(1, SeqCst);
        Counted(count)
    }
}

impl Drop for Counted<'_> {
    fn drop(&mut self) {
        self.0.fetch_sub(1, SeqCst);
    }
}

#[test]
fn an_init_that_panics_leaves_nothing_behind() {
    static COUNT: AtomicUsize = AtomicUsize::new(0);
    for panics in 0..70 {
        let calls = AtomicUsize::new(0);
        let init = || {
            assert_ne!(calls.fetch_add(1, SeqCst), panics, "on purpose");
            Counted::new(&COUNT)
        };
        let make = || Pool::new(70, init, |_| ()).map(drop);
        assert!(catch_unwind(AssertUnwindSafe(make)).is_err());
        assert_eq!(COUNT.load(SeqCst), 0);
    }
    let grows = LinearObjectPool::new(|| Counted::new(&COUNT), |_| ());
    (0..100).for_each(|_| mem::forget(grows.pull()));
    drop(grows);
    assert_eq!(COUNT.load(SeqCst), 0, "forgotten items are dropped with their pool");
}

/// A thread that only pulls takes places ahead. Some items are made at places whose `init` panicked
/// before, by calls that pull and return items themselves.
#[test]
fn an_init_may_return_items_while_places_are_pulled_ahead() {
    const DEEP: usize = 600;
    static POOL: OnceLock<LinearObjectPool<usize>> = OnceLock::new();
    static CALLS: AtomicUsize = AtomicUsize::new(0);
    // How many calls pull once more and then panic, and whether a call pulls and returns some.
    static PANICS: AtomicUsize = AtomicUsize::new(0);
    static RETURNS: AtomicBool = AtomicBool::new(false);
    let pull = || POOL.get().expect("the pool is there").pull();
    let init = move || {
        if let Some(left) = PANICS.load(SeqCst).checked_sub(1) {
            PANICS.store(left, SeqCst);
            drop(pull());
            panic!("on purpose");
        }
        if RETURNS.swap(false, SeqCst) {
            drop((0..9).map(|_| pull()).collect::<Vec<_>>());
            RETURNS.store(true, SeqCst);
        }
        CALLS.fetch_add(1, SeqCst)
    };
    let _ = POOL.set(LinearObjectPool::new(init, |_| ()));
    let many = || (0..3 * DEEP).map(|_| pull()).collect::<Vec<_>>();
    let held = many();
    PANICS.store(DEEP, SeqCst);
    assert!(catch_unwind(AssertUnwindSafe(|| drop(pull()))).is_err());
    drop(held);
    RETURNS.store(true, SeqCst);
    let held = many();
    let rest: Vec<_> = (0..DEEP).map(|_| pull()).collect();
    let items: HashSet<usize> = held.iter().chain(&rest).map(|item| **item).collect();
    assert_eq!(items.len(), 4 * DEEP, "two have one");
}

#[test]
fn threads_share_a_guard_and_another_one_drops_it() {
    let fixed = Pool::new(4, || vec![0; 8], |list: &mut Vec<usize>| list.fill(0));
    let fixed = Arc::new(fixed.expect("there is memory"));
    let grows =
        Arc::new(LinearObjectPool::new(|| vec![0; 8], |list: &mut Vec<usize>| list.fill(0)));
    for round in 0..100 {
        let (mut one, mut other) = (fixed.pull_owned().expect("one is free"), grows.pull_owned());
        one.fill(round);
        other.fill(round);
        let (both, all_read) = (Arc::new((one, other)), Arc::new(Barrier::new(4)));
        let read = || {
            let (both, all_read) = (Arc::clone(&both), Arc::clone(&all_read));
            thread::spawn(move || {
                all_read.wait();
                assert!(both.0.iter().chain(both.1.iter()).all(|number| *number == round));
            })
        };
        let threads = [(); 4].map(|()| read());
        drop(both);
        threads.into_iter().for_each(|thread| thread.join().expect("it ends"));
    }
}

/// More threads than processors, each with one item at a time.
#[test]
fn three_hundred_threads_hold_few_items() {
    const THREADS: usize = 300;
    let made = AtomicUsize::new(0);
    let made = &*Box::leak(Box::new(made));
    let grows = LinearObjectPool::new(|| made.fetch_add(1, SeqCst), |_| ());
    let fixed = Pool::new(THREADS, Item::default, Item::reset).expect("there is memory");
    let all_run = Barrier::new(THREADS);
    thread::scope(|scope| {
        for _ in 0..THREADS {
            scope.spawn(|| {
                drop(grows.pull());
                all_run.wait();
                for _ in 0..300 {
                    let _item = grows.pull();
                    fixed.pull().expect("as many items as threads").hold();
                    thread::yield_now();
                }
            });
        }
    });
    let made = made.load(SeqCst);
    assert!(made <= 2 * THREADS, "{made} items");
    assert_eq!(iter::from_fn(|| fixed.pull().map(mem::forget)).count(), THREADS);
}
