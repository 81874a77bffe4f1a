//! Tasks that wait for items of a lazy pool, by a small executor of this file: they are served in
//! their order, may be dropped at any await, and none is lost.
use kundratu_pool::{LazyPool, PullError};
use std::collections::VecDeque;
use std::future::{poll_fn, Future};
use std::pin::{pin, Pin};
use std::sync::atomic::{AtomicBool, AtomicUsize, Ordering::SeqCst};
use std::sync::{mpsc, Arc, Condvar, Mutex};
use std::task::{Context, Poll, Wake, Waker};
use std::time::Duration;
use std::{mem, thread};

/// A wait that is longer isn't one for a place, but for a wake that was lost.
const LOST: Duration = Duration::from_secs(60);

type Numbers = LazyPool<u32, &'static str>;
type Task<'t> = Pin<Box<dyn Future<Output = ()> + Send + 't>>;

fn numbers(items: usize) -> Numbers {
    LazyPool::new(items, || Ok(0), |_| true).expect("there is memory")
}

fn fair(items: usize) -> Numbers {
    let fair = LazyPool::builder(items).init(|| Ok(0)).fair();
    fair.build().expect("there is memory")
}

/// Numbers by chance, the same at each run.
struct Chance(u64);

impl Chance {
    fn below(&mut self, bound: u64) -> u64 {
        self.0 = self.0.wrapping_mul(6_364_136_223_846_793_005).wrapping_add(1);
        (self.0 >> 33) % bound
    }
}

/// Whether a task was woken since it was polled last.
#[derive(Default)]
struct Woken(AtomicBool);

impl Wake for Woken {
    fn wake(self: Arc<Self>) {
        self.0.store(true, SeqCst);
    }
}

/// A future that is polled by hand.
struct ByHand<F> {
    future: Pin<Box<F>>,
    woken: Arc<Woken>,
}

impl<F: Future> ByHand<F> {
    fn new(future: F) -> Self {
        let (future, woken) = (Box::pin(future), Arc::default());
        ByHand { future, woken }
    }

    fn poll(&mut self) -> Poll<F::Output> {
        self.woken.0.store(false, SeqCst);
        let waker = Waker::from(Arc::clone(&self.woken));
        self.future.as_mut().poll(&mut Context::from_waker(&waker))
    }

    fn is_woken(&self) -> bool {
        self.woken.0.load(SeqCst)
    }

    fn ready(&mut self) -> F::Output {
        match self.poll() {
            Poll::Ready(output) => output,
            Poll::Pending => panic!("it isn't ready"),
        }
    }
}

fn is_free(pool: &Numbers) {
    let status = pool.status();
    assert_eq!((status.in_use, status.waiting), (0, 0));
}

#[test]
fn a_task_gets_a_free_item_at_once() {
    for pool in [numbers(2), fair(2)] {
        for _ in 0..3 {
            let item = ByHand::new(pool.pull_async()).ready().expect("one is free");
            assert_eq!((*item, pool.status().made), (0, 1));
        }
        is_free(&pool);
    }
}

#[test]
fn tasks_are_served_in_their_order() {
    for pool in [numbers(1), fair(1)] {
        let mut item = pool.pull().ok();
        let mut tasks: Vec<_> = (0..50).map(|_| ByHand::new(pool.pull_async())).collect();
        assert!(tasks.iter_mut().all(|task| task.poll().is_pending()));
        assert_eq!(pool.status().waiting, 50);
        for next in 0..tasks.len() {
            assert!(tasks[next..].iter().all(|task| !task.is_woken()));
            drop(item.take());
            assert!(tasks[next].is_woken() && pool.status().waiting == 49 - next);
            assert!(tasks[next + 1..].iter().all(|task| !task.is_woken()));
            item = Some(tasks[next].ready().expect("it was handed over"));
        }
        drop(item);
        is_free(&pool);
    }
}

/// One that is polled for no reason keeps its turn, and is woken by its last waker.
#[test]
fn a_task_that_is_polled_again_keeps_its_turn() {
    let pool = numbers(1);
    let item = pool.pull();
    let (mut first, mut second) = (ByHand::new(pool.pull_async()), ByHand::new(pool.pull_async()));
    let before = Arc::clone(&first.woken);
    assert!(first.poll().is_pending() && second.poll().is_pending());
    first.woken = Arc::default();
    assert!(second.poll().is_pending() && first.poll().is_pending());
    drop(item);
    assert!(first.is_woken() && !before.0.load(SeqCst) && !second.is_woken());
    assert!(second.poll().is_pending() && first.ready().is_ok());
    assert!(second.is_woken() && second.ready().is_ok());
}

#[test]
fn a_task_that_is_dropped_leaves_the_queue() {
    for pool in [numbers(1), fair(1)] {
        let item = pool.pull();
        let mut tasks: Vec<_> = (0..3).map(|_| ByHand::new(pool.pull_async())).collect();
        assert!(tasks.iter_mut().all(|task| task.poll().is_pending()));
        drop(tasks.remove(0));
        assert_eq!(pool.status().waiting, 2);
        drop(item);
        assert!(tasks[0].is_woken() && !tasks[1].is_woken());
        drop(tasks.remove(0)); // the item was handed to it
        assert!(tasks[0].is_woken());
        drop(tasks);
        is_free(&pool);
        assert!(pool.pull().is_ok());
    }
}

#[test]
fn a_future_that_is_never_polled_does_nothing() {
    let pool = Arc::new(numbers(1));
    drop(pool.pull_async());
    drop(pool.pull_owned_async());
    assert_eq!((pool.status().made, pool.status().waiting), (0, 0));
    assert_eq!(Arc::strong_count(&pool), 1);
}

#[test]
fn a_closed_pool_wakes_tasks_and_threads() {
    for pool in [numbers(1), fair(1)] {
        let item = pool.pull();
        let mut tasks: Vec<_> = (0..5).map(|_| ByHand::new(pool.pull_async())).collect();
        assert!(tasks.iter_mut().all(|task| task.poll().is_pending()));
        thread::scope(|scope| {
            let waits = [(); 3].map(|()| scope.spawn(|| pool.pull_timeout(LOST).map(drop)));
            while pool.status().waiting != 8 {
                thread::yield_now();
            }
            pool.close();
            for wait in waits {
                assert_eq!(wait.join().expect("it ends"), Err(PullError::Closed));
            }
        });
        assert!(tasks.iter().all(ByHand::is_woken));
        let mut ends = tasks.iter_mut().map(|task| task.ready().err());
        assert!(ends.all(|error| error == Some(PullError::Closed)));
        assert_eq!(ByHand::new(pool.pull_async()).ready().err(), Some(PullError::Closed));
        drop(item);
        is_free(&pool);
    }
}

#[test]
fn an_owned_pull_keeps_its_pool() {
    let pool = Arc::new(numbers(1));
    let item = ByHand::new(pool.pull_owned_async()).ready().expect("it is free");
    let made = async { Ok(7) };
    let mut waits = ByHand::new(pool.pull_owned_async_with(made));
    assert!(waits.poll().is_pending());
    assert_eq!(Arc::strong_count(&pool), 3);
    drop(pool);
    item.discard();
    assert_eq!(*waits.ready().expect("it was handed over"), 7);
}

/// A future that is ready at its second poll.
async fn second<A>(answer: A) -> A {
    let mut is_first = true;
    poll_fn(|_| match mem::take(&mut is_first) {
        true => Poll::Pending,
        false => Poll::Ready(()),
    })
    .await;
    answer
}

#[test]
fn an_async_initializer_makes_the_item_if_there_is_none() {
    for pool in [numbers(1), fair(1)] {
        let mut one = ByHand::new(pool.pull_async_with(second(Ok(5))));
        assert!(one.poll().is_pending() && pool.status().in_use == 1);
        assert_eq!(pool.pull().err(), Some(PullError::AllInUse));
        let item = one.ready().expect("it is made");
        assert_eq!(*item, 5);
        drop(item);
        // There is one now.
        let other = ByHand::new(pool.pull_async_with(second(Ok(6)))).ready();
        assert_eq!(other.as_deref(), Ok(&5));
        drop(other);
        is_free(&pool);
    }
}

#[test]
fn an_async_initializer_that_fails_or_is_dropped_leaves_its_place_to_the_next() {
    for pool in [numbers(1), fair(1)] {
        for fails in [false, true] {
            let mut one = ByHand::new(pool.pull_async_with(second(Err("on purpose"))));
            let mut next = ByHand::new(pool.pull_async());
            assert!(one.poll().is_pending() && next.poll().is_pending());
            if fails {
                assert_eq!(one.ready().err(), Some(PullError::Init("on purpose")));
            }
            drop(one);
            assert!(next.is_woken());
            next.ready().expect("its own initializer doesn't fail").discard();
            is_free(&pool);
        }
    }
}

#[test]
fn futures_and_guards_go_to_other_threads() {
    fn is_sent<S: Send>(_: &S) {}
    let pool = Arc::new(numbers(1));
    is_sent(&pool.pull_async());
    is_sent(&pool.pull_owned_async());
    is_sent(&pool.pull_async_with(second(Ok(1))));
    is_sent(&pool.pull_owned_async_with(second(Ok(1))));
    is_sent(&ByHand::new(pool.pull_async()).ready());
}

/// The tasks that are to be polled.
#[derive(Default)]
struct Ready {
    tasks: Mutex<VecDeque<usize>>,
    comes: Condvar,
}

impl Ready {
    fn push(&self, task: usize) {
        self.tasks.lock().expect("no panic").push_back(task);
        self.comes.notify_one();
    }

    /// Waits for a task while some are left. `None` if none is, or if one was lost.
    fn pop(&self, left: &AtomicUsize) -> Option<usize> {
        let tasks = self.tasks.lock().expect("no panic");
        let waits = |tasks: &mut VecDeque<usize>| tasks.is_empty() && left.load(SeqCst) > 0;
        let waited = self.comes.wait_timeout_while(tasks, LOST, waits);
        waited.expect("no panic").0.pop_front()
    }
}

struct WakesOne(Arc<Ready>, usize);

impl Wake for WakesOne {
    fn wake(self: Arc<Self>) {
        self.0.push(self.1);
    }
}

/// Polls these tasks by some threads, each as it is woken. Returns how many are lost.
fn run(tasks: Vec<Task<'_>>, threads: usize) -> usize {
    let (ready, left) = (Arc::<Ready>::default(), AtomicUsize::new(tasks.len()));
    (0..tasks.len()).for_each(|task| ready.push(task));
    let tasks: Vec<_> = tasks.into_iter().map(|task| Mutex::new(Some(task))).collect();
    let polls = || {
        while let Some(task) = ready.pop(&left) {
            let mut slot = tasks[task].lock().expect("no panic");
            let waker = Waker::from(Arc::new(WakesOne(Arc::clone(&ready), task)));
            let mut context = Context::from_waker(&waker);
            let poll = slot.as_mut().map(|task| task.as_mut().poll(&mut context));
            if poll.is_some_and(|poll| poll.is_ready()) {
                *slot = None;
                left.fetch_sub(1, SeqCst);
            }
        }
        ready.comes.notify_all();
    };
    thread::scope(|scope| (0..threads).for_each(|_| drop(scope.spawn(polls))));
    left.into_inner()
}

/// Polls this future so often, if it isn't ready before, and drops it then.
async fn cancelled<F: Future>(future: F, mut polls: u64) -> Option<F::Output> {
    let mut future = pin!(future);
    let poll = |context: &mut Context<'_>| match future.as_mut().poll(context) {
        Poll::Ready(output) => Poll::Ready(Some(output)),
        Poll::Pending if polls == 0 => Poll::Ready(None),
        Poll::Pending => {
            polls -= 1;
            context.waker().wake_by_ref();
            Poll::Pending
        }
    };
    poll_fn(poll).await
}

/// Gives way to others once.
async fn gives_way() {
    let mut is_first = true;
    let poll = |context: &mut Context<'_>| {
        context.waker().wake_by_ref();
        match mem::take(&mut is_first) {
            true => Poll::Pending,
            false => Poll::Ready(()),
        }
    };
    poll_fn(poll).await;
}

/// Pulls some items, of which some are thrown away, and gives some pulls up.
async fn turns(pool: &Numbers, mine: u32, in_use: &AtomicUsize) {
    let mut chance = Chance(mine.into());
    for _ in 0..5 {
        let pulled = match chance.below(4) {
            0 => cancelled(pool.pull_async(), chance.below(4)).await,
            1 => cancelled(pool.pull_async_with(second_of(mine)), chance.below(4)).await,
            2 => Some(pool.pull_async_with(second_of(mine)).await),
            _ => Some(pool.pull_async().await),
        };
        let Some(Ok(mut item)) = pulled else {
            assert!(pulled.is_none_or(|pulled| pulled.is_ok()));
            continue;
        };
        assert!(in_use.fetch_add(1, SeqCst) < CONNECTIONS, "too many are in use");
        *item = mine;
        gives_way().await;
        assert_eq!(*item, mine, "another task has it too");
        in_use.fetch_sub(1, SeqCst);
        match chance.below(4) {
            0 => item.discard(),
            1 => assert_eq!(item.detach(), mine),
            _ => drop(item),
        }
    }
}

const CONNECTIONS: usize = 4;

/// An initializer that gives way to others before it is ready.
async fn second_of(number: u32) -> Result<u32, &'static str> {
    gives_way().await;
    Ok(number)
}

#[test]
fn a_thousand_tasks_on_four_connections_lose_none() {
    for pool in [numbers(CONNECTIONS), fair(CONNECTIONS)] {
        for threads in [1, 3] {
            let in_use = AtomicUsize::new(0);
            let task = |mine| -> Task<'_> { Box::pin(turns(&pool, mine, &in_use)) };
            assert_eq!(run((0..1_000).map(task).collect(), threads), 0);
            assert_eq!(in_use.into_inner(), 0);
            is_free(&pool);
        }
    }
}

/// Threads and tasks wait for the same items.
#[test]
fn threads_and_tasks_that_wait_for_the_same_items_lose_none() {
    for pool in [numbers(CONNECTIONS), fair(CONNECTIONS)] {
        let in_use = AtomicUsize::new(0);
        let task = |mine| -> Task<'_> { Box::pin(turns(&pool, mine, &in_use)) };
        let tasks = (0..300).map(task).collect();
        let pulls = || {
            for turn in 0..300 {
                let item = pool.pull_timeout(LOST).expect("it was lost");
                assert!(in_use.fetch_add(1, SeqCst) < CONNECTIONS, "too many are in use");
                thread::yield_now();
                in_use.fetch_sub(1, SeqCst);
                match turn % 5 {
                    0 => item.discard(),
                    _ => drop(item),
                }
                drop(pool.pull_timeout(Duration::from_micros(10)));
            }
        };
        thread::scope(|scope| {
            (0..3).for_each(|_| drop(scope.spawn(pulls)));
            assert_eq!(run(tasks, 2), 0);
        });
        is_free(&pool);
    }
}

/// What a waker does is done under no lock of the pool: this one looks at it, pulls, and drops
/// another pull that waits.
struct Uses {
    pool: Arc<Numbers>,
    other: Mutex<Option<Task<'static>>>,
    times: AtomicUsize,
}

impl Wake for Uses {
    fn wake(self: Arc<Self>) {
        self.times.fetch_add(1, SeqCst);
        drop((self.pool.try_pull(), self.pool.pull(), self.pool.status()));
        let other = self.other.lock().expect("no panic").take();
        drop(other);
    }
}

fn wakes_one_that_uses_its_pool(pool: Numbers) {
    let (pool, times) = (Arc::new(pool), AtomicUsize::new(0));
    let item = pool.pull_owned();
    let uses = Arc::new(Uses { pool: Arc::clone(&pool), other: Mutex::new(None), times });
    let waker = Waker::from(Arc::clone(&uses));
    let mut context = Context::from_waker(&waker);
    let mut waits = Box::pin(pool.pull_owned_async());
    assert!(waits.as_mut().poll(&mut context).is_pending());
    let owned = Arc::clone(&pool);
    let mut other: Task<'static> = Box::pin(async move { drop(owned.pull_async().await) });
    let nobody = Waker::from(Arc::<Woken>::default());
    let mut context = Context::from_waker(&nobody);
    assert!(other.as_mut().poll(&mut context).is_pending());
    *uses.other.lock().expect("no panic") = Some(other);
    drop(item);
    assert_eq!((uses.times.load(SeqCst), pool.status().waiting), (1, 0));
    drop(waits);
    is_free(&pool);
}

#[test]
fn a_waker_may_use_the_pool() {
    for pool in [numbers(1), fair(1)] {
        let (ends, ended) = mpsc::channel();
        thread::spawn(move || {
            wakes_one_that_uses_its_pool(pool);
            ends.send(()).expect("somebody waits");
        });
        assert_eq!(ended.recv_timeout(LOST), Ok(()));
    }
}
