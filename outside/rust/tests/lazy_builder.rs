//! What a builder says of a lazy pool: a manager, times, the least number, events; and the calls
//! that give it an item of one's own, or a value in place of one.
use kundratu_pool::{Event, LazyPool, LazyReusable, Manager, NewError, OrElse, PullError};
use std::error::Error;
use std::fmt::{self, Display, Formatter};
use std::future::Future;
use std::num::ParseIntError;
use std::panic::{catch_unwind, AssertUnwindSafe};
use std::pin::pin;
use std::sync::atomic::{AtomicUsize, Ordering::SeqCst};
use std::sync::{Arc, Mutex};
use std::task::{Context, Waker};
use std::time::{Duration, Instant};
use std::{iter, thread};

type Numbers = LazyPool<u32, &'static str>;

const HOUR: Duration = Duration::from_secs(3_600);
const SOON: Duration = Duration::from_millis(30);

/// Numbers its items as they are made, from 0 on.
fn counter() -> impl Fn() -> Result<u32, &'static str> {
    let next = AtomicUsize::new(0);
    move || Ok(next.fetch_add(1, SeqCst) as u32)
}

fn numbered(items: usize) -> Numbers {
    let pool = LazyPool::builder(items).init(counter()).build();
    pool.expect("there is memory")
}

fn counts<T, E>(pool: &LazyPool<T, E>) -> (usize, usize) {
    (pool.status().made, pool.status().in_use)
}

/// Pulls an item, and returns it at once.
fn turn(pool: &Numbers) -> u32 {
    *pool.pull().expect("one is free")
}

fn panics(call: impl FnOnce()) -> bool {
    catch_unwind(AssertUnwindSafe(call)).is_err()
}

#[test]
fn a_pool_of_nothing_or_past_all_memory_is_refused() {
    let refused = |items| LazyPool::builder(items).init(|| Ok::<_, ()>(0)).build().err();
    assert_eq!(refused(0), Some(NewError::NoItems));
    assert_eq!(refused(usize::MAX), Some(NewError::Memory));
}

struct Counting {
    made: AtomicUsize,
    calls: Arc<AtomicUsize>,
}

impl Manager for Counting {
    type Item = usize;
    type Error = &'static str;

    fn create(&self) -> Result<usize, &'static str> {
        match self.made.fetch_add(1, SeqCst) {
            2 => Err("on purpose"),
            made => Ok(made),
        }
    }

    fn recycle(&self, item: &mut usize) -> bool {
        self.calls.fetch_add(1, SeqCst);
        *item < 10
    }

    fn is_valid(&self, item: &mut usize) -> bool {
        self.calls.fetch_add(100, SeqCst);
        *item != 5
    }
}

#[test]
fn a_manager_makes_resets_and_checks() {
    let (made, calls) = (AtomicUsize::new(0), Arc::new(AtomicUsize::new(0)));
    let manager = Counting { made, calls: Arc::clone(&calls) };
    let pool = LazyPool::builder(3).manager(manager).build();
    let pool = pool.expect("there is memory");
    let mut item = pool.pull().expect("it is made");
    *item = 5;
    drop(item);
    assert_eq!((calls.load(SeqCst), counts(&pool)), (1, (1, 0)));
    let mut item = pool.pull().expect("another one is made");
    assert_eq!((*item, calls.load(SeqCst)), (1, 101));
    *item = 10;
    drop(item); // it is rejected
    assert_eq!((calls.load(SeqCst), counts(&pool)), (102, (0, 0)));
    assert_eq!(pool.pull().err(), Some(PullError::Init("on purpose")));
    assert_eq!(pool.pull().as_deref(), Ok(&3));
}

struct Plain;

impl Manager for Plain {
    type Item = String;
    type Error = ();

    fn create(&self) -> Result<String, ()> {
        Ok(String::from("made"))
    }
}

#[test]
fn a_manager_keeps_all_if_it_says_nothing_else() {
    let pool = LazyPool::builder(1).manager(Plain).build().expect("there is memory");
    pool.pull().expect("it is made").push('!');
    assert_eq!(pool.pull().as_deref().map(String::as_str), Ok("made!"));
}

#[test]
fn an_item_that_was_free_for_too_long_is_dropped_when_it_is_pulled() {
    let build = |idle| LazyPool::builder(3).init(counter()).idle_time(idle).build();
    let pool = build(SOON).expect("there is memory");
    assert_eq!(pool.fill(1), Ok(()));
    thread::sleep(SOON);
    assert_eq!((turn(&pool), counts(&pool)), (1, (1, 0)));
    let item = pool.pull().expect("it is made");
    thread::sleep(SOON);
    drop(item); // it wasn't free
    thread::sleep(SOON);
    assert!(pool.try_pull().is_none());
    assert_eq!(counts(&pool), (0, 0));
    let begun = Instant::now();
    assert_eq!(pool.fill(1), Ok(())); // it is new, though the pool and the place aren't
    assert!(pool.try_pull().is_some() || begun.elapsed() >= SOON);

    let pool = build(HOUR).expect("there is memory");
    assert!((0..100).all(|_| turn(&pool) == 0));
    assert_eq!(pool.try_pull().as_deref(), Some(&0));
}

#[test]
fn an_item_that_is_too_old_is_dropped_when_it_is_pulled_or_comes_back() {
    let build = |life| LazyPool::builder(3).init(counter()).life_time(life).build();
    let pool = build(SOON).expect("there is memory");
    let item = pool.pull().expect("it is made");
    thread::sleep(SOON);
    drop(item);
    assert_eq!(counts(&pool), (0, 0));
    let begun = Instant::now();
    assert_eq!(pool.fill(1), Ok(()));
    assert_eq!(counts(&pool), (1, 0));
    let is_young = turn(&pool) == 1 && counts(&pool) == (1, 0);
    assert!(is_young || begun.elapsed() >= SOON, "it is as old as one before");
    thread::sleep(SOON);
    assert_eq!(counts(&pool).1, 0);
    assert!(turn(&pool) >= 2);

    let pool = build(HOUR).expect("there is memory");
    assert!((0..100).all(|_| turn(&pool) == 0));
}

#[test]
fn an_attached_item_is_not_as_old_as_its_pool() {
    let pool = LazyPool::builder(1).init(counter()).life_time(SOON).build();
    let pool = pool.expect("there is memory");
    thread::sleep(SOON);
    let begun = Instant::now();
    assert!(pool.attach(70).is_ok());
    assert!(pool.try_pull().as_deref() == Some(&70) || begun.elapsed() >= SOON);
}

/// It is noted when an item comes back. That makes it no younger.
#[test]
fn an_item_in_use_is_too_old_in_the_end() {
    let pool = LazyPool::builder(1).init(counter()).life_time(SOON).idle_time(HOUR).build();
    let pool = pool.expect("there is memory");
    let turns = (0..4).map(|_| {
        thread::sleep(SOON / 2);
        turn(&pool)
    });
    assert_ne!(turns.last(), Some(0));
}

/// An item that is too old is dropped without a reset.
#[test]
fn an_item_that_is_too_old_is_not_reset() {
    let pool = LazyPool::builder(1).init(counter()).reset(|_| panic!("it isn't reset"));
    let pool = pool.life_time(Duration::ZERO).build().expect("there is memory");
    assert_eq!((turn(&pool), counts(&pool)), (0, (0, 0)));
}

#[test]
fn retain_drops_what_it_is_told_to() {
    let pool = numbered(200);
    assert_eq!(pool.fill(150), Ok(()));
    let held: Vec<_> = (0..10).map(|_| pool.pull().expect("one is free")).collect();
    let mut seen = vec![];
    let dropped = pool.retain(|number, idle| {
        seen.push(*number);
        assert!(idle < HOUR);
        *number += 1_000;
        *number % 2 == 0
    });
    seen.extend(held.iter().map(|item| **item));
    seen.sort_unstable();
    assert!(seen.into_iter().eq(0..150), "each free one is seen once");
    assert_eq!(counts(&pool), (150 - dropped, 10));
    drop(held);
    let even = iter::from_fn(|| pool.try_pull().map(LazyReusable::detach));
    let even: Vec<_> = even.filter(|number| *number >= 1_000).collect();
    assert_eq!(even.len() + dropped, 140);
    assert!(even.iter().all(|number| number % 2 == 0));
}

#[test]
fn retain_loses_no_place_though_it_panics() {
    let pool = numbered(40);
    assert_eq!(pool.fill(40), Ok(()));
    let mut seen = 0;
    assert!(panics(|| {
        pool.retain(|_, _| {
            seen += 1;
            assert!(seen < 7, "on purpose");
            true
        });
    }));
    assert_eq!(counts(&pool), (39, 0));
    assert_eq!(pool.retain(|_, _| false), 39);
    assert_eq!(counts(&pool), (0, 0));
}

#[test]
fn clear_idle_drops_what_was_free_for_so_long_and_leaves_the_least() {
    let pool = LazyPool::builder(50).init(counter()).least(5).build();
    let pool = pool.expect("there is memory");
    assert_eq!((pool.fill_least(), counts(&pool)), (Ok(()), (5, 0)));
    assert_eq!(pool.fill(20), Ok(()));
    thread::sleep(SOON);
    assert_eq!(pool.clear_idle(SOON), 0); // from now on it is noted
    thread::sleep(SOON * 2);
    let item = pool.pull().expect("one is free");
    drop(item);
    assert_eq!(pool.clear_idle(HOUR), 0);
    assert_eq!((pool.clear_idle(SOON), counts(&pool)), (15, (5, 0)));
    assert_eq!((pool.clear_idle(Duration::ZERO), counts(&pool)), (0, (5, 0)));
    pool.clear();
    assert_eq!((pool.fill_least(), counts(&pool)), (Ok(()), (5, 0)));
}

/// Of two free items one came back just now.
#[test]
fn it_is_noted_when_each_item_came_back() {
    let pool = numbered(2);
    let [one, other] = [(); 2].map(|()| pool.pull().expect("one is free"));
    assert_eq!(pool.retain(|_, _| unreachable!("none is free")), 0);
    let late = *other;
    drop(one);
    thread::sleep(SOON);
    let begun = Instant::now();
    drop(other);
    let dropped = pool.retain(|number, idle| {
        let is_late = *number == late;
        assert!(if is_late { idle <= begun.elapsed() } else { idle >= SOON });
        is_late
    });
    assert_eq!((dropped, counts(&pool)), (1, (1, 0)));
    assert_eq!(pool.try_pull().as_deref(), Some(&late));
}

#[test]
fn each_event_is_told() {
    let told = Arc::new(Mutex::new(vec![]));
    let tells = Arc::clone(&told);
    let made = AtomicUsize::new(0);
    let init = move || match made.fetch_add(1, SeqCst) {
        1 => Err("on purpose"),
        made => Ok(made),
    };
    let pool = LazyPool::builder(2).init(init);
    let pool = pool.on_event(move |event| tells.lock().expect("no panic").push(event));
    let pool = pool.build().expect("there is memory");
    let take = || std::mem::take(&mut *told.lock().expect("no panic"));
    let one = pool.pull().expect("it is made");
    assert_eq!(take(), [Event::Made, Event::Pulled]);
    assert!(pool.pull_wait().is_err());
    assert_eq!(take(), [Event::Failed]);
    let two = pool.pull_wait().expect("it is made");
    assert_eq!(take(), [Event::Made, Event::Pulled]);
    assert!(pool.pull().is_err() && take().is_empty());
    assert!(pool.pull_timeout(Duration::ZERO).is_err());
    assert_eq!(take(), [Event::Waits]);
    drop((one, two));
    assert!(pool.try_pull().is_some());
    assert_eq!(take(), [Event::Pulled]);
    assert!(pool.pull().is_ok() && pool.pull_wait().is_ok());
    assert_eq!(take(), [Event::Pulled; 2]);
    pool.clear();
    assert_eq!((pool.fill(1), take()), (Ok(()), vec![Event::Made]));
    let by_task = |made| {
        let mut context = Context::from_waker(Waker::noop());
        let pulled = pin!(pool.pull_async_with(async move { made })).poll(&mut context);
        pulled.is_ready().then(take)
    };
    assert_eq!(by_task(Err("on purpose")), Some(vec![Event::Pulled]));
    pool.clear();
    assert_eq!(by_task(Err("on purpose")), Some(vec![Event::Failed]));
    assert_eq!(by_task(Ok(9)), Some(vec![Event::Made, Event::Pulled]));
}

/// It is told once, however often the task is polled.
#[test]
fn a_task_tells_that_it_waits() {
    let waits = Arc::new(AtomicUsize::new(0));
    let count = Arc::clone(&waits);
    let pool = LazyPool::builder(1).init(counter()).on_event(move |event| {
        count.fetch_add(usize::from(event == Event::Waits), SeqCst);
    });
    let pool = pool.build().expect("there is memory");
    let item = pool.pull().expect("it is made");
    let (mut task, mut context) = (pin!(pool.pull_async()), Context::from_waker(Waker::noop()));
    assert!((0..3).all(|_| task.as_mut().poll(&mut context).is_pending()));
    assert_eq!(waits.load(SeqCst), 1);
    drop(item);
    assert!(task.poll(&mut context).is_ready());
    assert_eq!(waits.load(SeqCst), 1);
}

/// What is called at an event is called under no lock, and may panic.
#[test]
fn what_is_called_at_an_event_may_use_the_pool_and_panic() {
    for fails in [Event::Pulled, Event::Made, Event::Waits] {
        let pool = LazyPool::builder(1).init(counter()).fair();
        let pool = pool.on_event(move |event| assert_ne!(event, fails, "on purpose"));
        let pool = pool.build().expect("there is memory");
        if fails == Event::Waits {
            let _item = pool.pull();
            assert!(panics(|| drop(pool.pull_timeout(SOON))));
        } else {
            assert!(panics(|| drop(pool.pull())));
        }
        assert_eq!((counts(&pool), pool.status().waiting), ((1, 0), 0));
    }
}

#[test]
fn an_own_item_is_given_to_the_pool() {
    let pool = numbered(2);
    let one = pool.attach(70).expect("a place is empty");
    assert_eq!((*one, counts(&pool)), (70, (1, 1)));
    let two = pool.attach(80).expect("a place is empty");
    assert_eq!(pool.attach(90).err(), Some(90));
    drop((one, two));
    assert_eq!((pool.attach(90).err(), counts(&pool)), (Some(90), (2, 0)));
    let all: Vec<u32> = iter::from_fn(|| pool.try_pull().map(LazyReusable::detach)).collect();
    assert_eq!(all.iter().sum::<u32>(), 150);
    pool.close();
    assert_eq!(pool.attach(90).err(), Some(90));
}

#[test]
fn a_value_in_place_of_an_item_belongs_to_no_pool() {
    let there_are = Arc::new(());
    let make = Arc::clone(&there_are);
    let pool = LazyPool::<Arc<()>, ()>::new(1, move || Ok(Arc::clone(&make)), |_| true);
    let pool = pool.expect("there is memory");
    let count = || Arc::strong_count(&there_are);
    let one = pool.pull_or_else(|| unreachable!("one is free"));
    assert!(one.is_pooled() && matches!(one, OrElse::Pooled(_)));
    let two = pool.pull_or_else(|| Arc::clone(&there_are));
    assert!(!two.is_pooled() && matches!(two, OrElse::Own(_)));
    assert_eq!((count(), counts(&pool)), (4, (1, 1)));
    drop(two);
    assert_eq!((count(), counts(&pool)), (3, (1, 1)));
    drop(one);
    assert_eq!((count(), counts(&pool)), (3, (1, 0)));
    pool.close();
    let mut three = pool.pull_or_else(|| Arc::clone(&there_are));
    assert!(!three.is_pooled() && Arc::get_mut(&mut three).is_none());
}

#[test]
fn a_pool_ends_with_its_items() {
    let pool = numbered(100);
    assert_eq!(pool.fill(60), Ok(()));
    let held: Vec<_> = (0..5).map(|_| pool.pull().expect("one is free")).collect();
    held.into_iter().for_each(LazyReusable::discard);
    let mut items = pool.into_inner();
    items.sort_unstable();
    assert_eq!(items.len(), 55);
    items.dedup();
    assert_eq!(items.len(), 55);
}

/// A boxed error goes on by `?`, with the initializer's words.
#[test]
fn a_boxed_error_goes_on() {
    type Boxed = Box<dyn Error + Send + Sync>;
    fn pull(pool: &LazyPool<u32, Boxed>) -> Result<u32, Box<dyn Error>> {
        Ok(*pool.pull()?)
    }
    let pool = LazyPool::new(1, || Err(Boxed::from("no route")), |_| true);
    let error = pull(&pool.expect("there is memory")).expect_err("it fails");
    assert_eq!(error.to_string(), "the initializer failed: no route");
    assert!(error.source().is_none());
}

/// An error of an initializer that has another one as its source.
#[derive(Debug)]
struct Refused(ParseIntError);

impl Display for Refused {
    fn fmt(&self, f: &mut Formatter<'_>) -> fmt::Result {
        f.write_str("refused")
    }
}

impl Error for Refused {
    fn source(&self) -> Option<&(dyn Error + 'static)> {
        Some(&self.0)
    }
}

/// A pull's error has the source of a boxed error, which its own words don't have.
#[test]
fn a_boxed_errors_source_goes_on() {
    let refused = || Refused("x".parse::<u32>().expect_err("it is no number"));
    let shared: Box<dyn Error + Send + Sync> = refused().into();
    let own: Box<dyn Error> = refused().into();
    let errors: [Box<dyn Error>; 2] = [PullError::from(shared).into(), PullError::from(own).into()];
    for error in errors {
        assert_eq!(error.to_string(), "the initializer failed: refused");
        let source = error.source().expect("it has one");
        assert_eq!(source.to_string(), "invalid digit found in string");
    }
}
