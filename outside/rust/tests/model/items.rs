//! Items that note what becomes of them, and all pools of such items by one name.
use super::plain::{Kind, Model};
use kundratu_pool::{LazyOwnedReusable, LazyPool, LazyReusable, LinearObjectPool};
use kundratu_pool::{MutexObjectPool, NoneObjectPool, Pool, PullError, SpinLockObjectPool};
use std::future::Future;
use std::ops::DerefMut;
use std::panic::resume_unwind;
use std::pin::pin;
use std::sync::atomic::{AtomicUsize, Ordering::SeqCst};
use std::sync::{Arc, Mutex, OnceLock};
use std::task::{Context, Poll, Waker};
use std::time::Duration;
use std::{mem, thread};

#[derive(Clone, Copy, Debug, PartialEq)]
pub enum Event {
    Init(usize),
    Reset(usize),
    Check(usize),
    Dropped(usize),
    /// A closure pulls an item of its own pool, gets this, and returns it.
    Pulls,
    Got(Out),
}

/// What a pull or another call comes to.
#[derive(Clone, Copy, Debug, PartialEq)]
pub enum Out {
    Item(usize),
    Refused,
    TimedOut,
    Closed,
    Failed(usize),
    Unwound,
    Done,
}

/// What the next call of a closure or of an item's drop does.
#[derive(Clone, Copy, Default, PartialEq)]
pub enum Act {
    #[default]
    Keeps,
    Rejects,
    Panics,
    /// It calls its own pool.
    Calls,
}

pub const INIT: usize = 0;
pub const RESET: usize = 1;
pub const CHECK: usize = 2;
pub const DROP: usize = 3;

#[derive(Clone, Copy)]
pub enum How {
    Any,
    Try,
    /// With a time that is over, with a long one, and without.
    Over,
    Long,
    Ever,
    /// As a task that is ready at once. With a future, that makes the item.
    Task,
    With,
}

/// Polls a task to which a place is free.
fn ready<F: Future>(task: F) -> F::Output {
    match pin!(task).poll(&mut Context::from_waker(Waker::noop())) {
        Poll::Ready(output) => output,
        Poll::Pending => panic!("a place is free"),
    }
}

/// What the closures and items of a pool share.
#[derive(Default)]
pub struct World {
    events: Mutex<Vec<Event>>,
    acts: Mutex<[Act; 4]>,
    next: AtomicUsize,
    again: OnceLock<Box<dyn Fn() + Send + Sync>>,
}

impl World {
    pub fn set_acts(&self, acts: [Act; 4]) {
        *self.acts.lock().expect("no panic") = acts;
    }

    pub fn take_events(&self) -> Vec<Event> {
        mem::take(&mut self.events.lock().expect("no panic"))
    }

    fn log(&self, event: Event) {
        self.events.lock().expect("no panic").push(event);
    }

    /// Returns whether the item is kept.
    fn act(&self, of: usize, event: Event) -> bool {
        self.log(event);
        let act = mem::take(&mut self.acts.lock().expect("no panic")[of]);
        match act {
            Act::Panics if !thread::panicking() => resume_unwind(Box::new(())),
            Act::Calls => self.again.get().into_iter().for_each(|again| again()),
            _ => {}
        }
        act != Act::Rejects
    }
}

pub struct Item<const N: usize> {
    pub id: usize,
    pub value: usize,
    pub room: [usize; N],
    world: Arc<World>,
}

impl<const N: usize> Item<N> {
    fn make(world: &Arc<World>) -> Result<Self, usize> {
        let id = world.next.fetch_add(1, SeqCst);
        let is_kept = world.act(INIT, Event::Init(id));
        let (value, room, world) = (0, [id; N], Arc::clone(world));
        let item = || Item { id, value, room, world };
        is_kept.then(item).ok_or(id)
    }

    fn reset(&mut self) -> bool {
        self.value += 1;
        self.world.act(RESET, Event::Reset(self.id))
    }
}

impl<const N: usize> Drop for Item<N> {
    fn drop(&mut self) {
        self.world.act(DROP, Event::Dropped(self.id));
    }
}

/// A guard.
pub enum Held<'p, const N: usize> {
    Any(Box<dyn DerefMut<Target = Item<N>> + Send + 'p>),
    Lazy(LazyReusable<'p, Item<N>, usize>),
    LazyOwned(LazyOwnedReusable<Item<N>, usize>),
}

impl<'p, const N: usize> Held<'p, N> {
    fn any(guard: impl DerefMut<Target = Item<N>> + Send + 'p) -> Self {
        Held::Any(Box::new(guard))
    }

    pub fn item(&mut self) -> &mut Item<N> {
        match self {
            Held::Any(held) => held,
            Held::Lazy(held) => held,
            Held::LazyOwned(held) => held,
        }
    }

    /// Takes the item out of a lazy pool, or throws it away.
    pub fn part(self, detaches: bool) -> Option<Item<N>> {
        match self {
            Held::Lazy(held) if detaches => Some(held.detach()),
            Held::LazyOwned(held) if detaches => Some(held.detach()),
            Held::Lazy(held) => Some(held.discard()).and(None),
            Held::LazyOwned(held) => Some(held.discard()).and(None),
            Held::Any(_) => unreachable!("of another pool"),
        }
    }
}

pub fn out(error: PullError<usize>) -> Out {
    match error {
        PullError::TimedOut => Out::TimedOut,
        PullError::Closed => Out::Closed,
        PullError::Init(id) => Out::Failed(id),
        _ => Out::Refused,
    }
}

pub enum AnyPool<const N: usize> {
    Fixed(Arc<Pool<Item<N>>>),
    Linear(Arc<LinearObjectPool<Item<N>>>),
    Lazy(Arc<LazyPool<Item<N>, usize>>),
    Mutex(Arc<MutexObjectPool<Item<N>>>),
    Spin(Arc<SpinLockObjectPool<Item<N>>>),
    None(Arc<NoneObjectPool<Item<N>>>),
}

impl<const N: usize> AnyPool<N> {
    pub fn new(model: &Model, of: &Arc<World>) -> Self {
        let world = Arc::clone(of);
        let make = move || Item::make(&world);
        let init = {
            let make = make.clone();
            move || make().unwrap_or_else(|_| resume_unwind(Box::new(())))
        };
        let reset = |item: &mut Item<N>| _ = item.reset();
        let pool = match model.kind {
            Kind::Fixed => {
                let pool = Pool::new(model.limit, init, reset);
                AnyPool::Fixed(Arc::new(pool.expect("there is memory")))
            }
            Kind::Linear => AnyPool::Linear(Arc::new(LinearObjectPool::new(init, reset))),
            Kind::Lazy => {
                let pool = LazyPool::builder(model.limit).init(make).reset(Item::reset);
                let pool = if model.is_fair { pool.fair() } else { pool };
                let pool = pool.build().expect("there is memory");
                let check = |item: &mut Item<N>| item.world.act(CHECK, Event::Check(item.id));
                AnyPool::Lazy(Arc::new(match model.checks {
                    true => pool.with_check(check),
                    false => pool,
                }))
            }
            Kind::Mutex => AnyPool::Mutex(Arc::new(MutexObjectPool::new(init, reset))),
            Kind::Spin => AnyPool::Spin(Arc::new(SpinLockObjectPool::new(init, reset))),
            Kind::None => AnyPool::None(Arc::new(NoneObjectPool::new(init))),
        };
        of.take_events();
        pool.set_again(of);
        pool
    }

    /// Lets closures of the pool pull from it.
    fn set_again(&self, of: &Arc<World>) {
        macro_rules! again {
            ($($kind:ident),*) => { match self {
                $(AnyPool::$kind(pool) => {
                    let (pool, world) = (Arc::downgrade(pool), Arc::downgrade(of));
                    Box::new(move || {
                        let (Some(pool), Some(world)) = (pool.upgrade(), world.upgrade()) else {
                            return;
                        };
                        world.log(Event::Pulls);
                        let pool = AnyPool::$kind(pool);
                        let pulled = pool.pull(How::Any, false, &world);
                        let (out, _held) = match pulled {
                            Ok(mut held) => (Out::Item(held.item().id), Some(held)),
                            Err(out) => (out, None),
                        };
                        world.log(Event::Got(out));
                    }) as Box<dyn Fn() + Send + Sync>
                })*
            } };
        }
        let again = again!(Fixed, Linear, Lazy, Mutex, Spin, None);
        assert!(of.again.set(again).is_ok());
    }

    pub fn pull(&self, how: How, owned: bool, world: &Arc<World>) -> Result<Held<'_, N>, Out> {
        let made = async { Item::make(world) };
        Ok(match (self, owned) {
            (AnyPool::Fixed(pool), false) => {
                let held = pool.pull().ok_or(Out::Refused)?;
                assert_eq!(held.number(), held.id, "made in their order");
                Held::any(held)
            }
            (AnyPool::Fixed(pool), _) => Held::any(pool.pull_owned().ok_or(Out::Refused)?),
            (AnyPool::Linear(pool), false) => Held::any(pool.pull()),
            (AnyPool::Linear(pool), _) => Held::any(pool.pull_owned()),
            (AnyPool::Mutex(pool), false) => Held::any(pool.pull()),
            (AnyPool::Mutex(pool), _) => Held::any(pool.pull_owned()),
            (AnyPool::Spin(pool), false) => Held::any(pool.pull()),
            (AnyPool::Spin(pool), _) => Held::any(pool.pull_owned()),
            (AnyPool::None(pool), false) => Held::any(pool.pull()),
            (AnyPool::None(pool), _) => Held::any(pool.pull_owned()),
            (AnyPool::Lazy(pool), false) => Held::Lazy(
                match how {
                    How::Any => pool.pull(),
                    How::Try => pool.try_pull().ok_or(PullError::AllInUse),
                    How::Over => pool.pull_timeout(Duration::ZERO),
                    How::Long => pool.pull_timeout(Duration::from_secs(3_600)),
                    How::Ever => pool.pull_wait(),
                    How::Task => ready(pool.pull_async()),
                    How::With => ready(pool.pull_async_with(made)),
                }
                .map_err(out)?,
            ),
            (AnyPool::Lazy(pool), _) => Held::LazyOwned(
                match how {
                    How::Any => pool.pull_owned(),
                    How::Try => pool.try_pull_owned().ok_or(PullError::AllInUse),
                    How::Over => pool.pull_owned_timeout(Duration::ZERO),
                    How::Long => pool.pull_owned_timeout(Duration::MAX),
                    How::Ever => pool.pull_owned_wait(),
                    How::Task => ready(pool.pull_owned_async()),
                    How::With => ready(pool.pull_owned_async_with(made)),
                }
                .map_err(out)?,
            ),
        })
    }
}
