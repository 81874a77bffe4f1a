//! The original's pools.
use crate::call::{Call, Kind, Plan};
use lockfree_object_pool::{
    LinearObjectPool, MutexObjectPool, MutexOwnedReusable, MutexReusable, NoneObjectPool,
    NoneReusable, SpinLockObjectPool, SpinLockOwnedReusable, SpinLockReusable,
};
use std::fmt;
use std::mem::{self, ManuallyDrop};
use std::ops::DerefMut;
use std::sync::atomic::AtomicU64;
use std::sync::atomic::Ordering::SeqCst;
use std::sync::Arc;

/// How many items a page of a linear pool has.
const PAGE: u64 = 32;

/// How many items `init` made, how many were reset, and how many were dropped.
#[derive(Default)]
pub struct Tally {
    made: AtomicU64,
    reset: AtomicU64,
    dropped: AtomicU64,
}

impl Tally {
    pub fn now(&self) -> Counts {
        Counts {
            made: self.made.load(SeqCst),
            reset: self.reset.load(SeqCst),
            dropped: self.dropped.load(SeqCst),
        }
    }
}

#[derive(Clone, Copy)]
pub struct Counts {
    pub made: u64,
    pub reset: u64,
    pub dropped: u64,
}

impl fmt::Display for Counts {
    fn fmt(&self, f: &mut fmt::Formatter) -> fmt::Result {
        let Counts {
            made,
            reset,
            dropped,
        } = self;
        write!(f, "{made} made, {reset} reset, {dropped} dropped")
    }
}

/// An item, which counts its drop.
pub struct Item {
    tally: Arc<Tally>,
    /// Which item it is; of those that `init` makes, its place in the order of making.
    number: u64,
    /// What was written to it.
    content: u64,
}

impl Item {
    fn new(tally: &Arc<Tally>, number: u64) -> Item {
        let (tally, content) = (tally.clone(), 0);
        Item {
            tally,
            number,
            content,
        }
    }
}

impl Drop for Item {
    fn drop(&mut self) {
        self.tally.dropped.fetch_add(1, SeqCst);
    }
}

/// An item that is held.
type Held<'p> = Box<dyn DerefMut<Target = Item> + 'p>;

pub enum Pool {
    Linear(Arc<LinearObjectPool<Item>>),
    Mutex(Arc<MutexObjectPool<Item>>),
    SpinLock(Arc<SpinLockObjectPool<Item>>),
    None(Arc<NoneObjectPool<Item>>),
}

impl Pool {
    pub fn new(plan: Plan, tally: &Arc<Tally>) -> Pool {
        let (maker, resetter, clears) = (tally.clone(), tally.clone(), plan.clears);
        let init = move || Item::new(&maker, maker.made.fetch_add(1, SeqCst));
        let reset = move |item: &mut Item| {
            resetter.reset.fetch_add(1, SeqCst);
            if clears {
                item.content = 0;
            }
        };
        match plan.kind {
            Kind::Linear => Pool::Linear(Arc::new(LinearObjectPool::new(init, reset))),
            Kind::Mutex => Pool::Mutex(Arc::new(MutexObjectPool::new(init, reset))),
            Kind::SpinLock => Pool::SpinLock(Arc::new(SpinLockObjectPool::new(init, reset))),
            Kind::None => Pool::None(Arc::new(NoneObjectPool::new(init))),
        }
    }

    fn pull(&self) -> Held<'_> {
        match self {
            Pool::Linear(pool) => Box::new(pool.pull()),
            Pool::Mutex(pool) => Box::new(pool.pull()),
            Pool::SpinLock(pool) => Box::new(pool.pull()),
            Pool::None(pool) => Box::new(pool.pull()),
        }
    }

    fn pull_owned(&self) -> Held<'_> {
        match self {
            Pool::Linear(pool) => Box::new(pool.pull_owned()),
            Pool::Mutex(pool) => Box::new(pool.pull_owned()),
            Pool::SpinLock(pool) => Box::new(pool.pull_owned()),
            Pool::None(pool) => Box::new(pool.pull_owned()),
        }
    }

    /// A linear pool attaches no item.
    fn attach(&self, item: Item) -> Held<'_> {
        let data = ManuallyDrop::new(item);
        match self {
            Pool::Linear(_) => unreachable!("a linear pool attaches no item"),
            Pool::Mutex(pool) => Box::new(MutexReusable::new(pool, data)),
            Pool::SpinLock(pool) => Box::new(SpinLockReusable::new(pool, data)),
            Pool::None(_) => Box::new(NoneReusable::new(ManuallyDrop::into_inner(data))),
        }
    }

    fn attach_owned(&self, item: Item) -> Held<'_> {
        let data = ManuallyDrop::new(item);
        match self {
            Pool::Linear(_) => unreachable!("a linear pool attaches no item"),
            Pool::Mutex(pool) => Box::new(MutexOwnedReusable::new(pool.clone(), data)),
            Pool::SpinLock(pool) => Box::new(SpinLockOwnedReusable::new(pool.clone(), data)),
            Pool::None(_) => Box::new(NoneReusable::new(ManuallyDrop::into_inner(data))),
        }
    }

    /// What is told of an item that came. An item of a linear pool lies where the order of making put it.
    fn told(&self, item: &Item) -> String {
        let Item {
            number, content, ..
        } = item;
        match self {
            Pool::Linear(_) => {
                let (page, id) = (number / PAGE, number % PAGE);
                format!("item {number} at {page} {id} has {content}")
            }
            _ => format!("item {number} has {content}"),
        }
    }
}

/// A pool with the items that are held.
pub struct Replay<'p> {
    pool: &'p Pool,
    tally: &'p Arc<Tally>,
    held: Vec<Held<'p>>,
}

impl<'p> Replay<'p> {
    pub fn new(pool: &'p Pool, tally: &'p Arc<Tally>) -> Replay<'p> {
        let held = Vec::new();
        Replay { pool, tally, held }
    }

    /// Does a call. The answer with the counts.
    pub fn answer(&mut self, call: Call) -> String {
        let answer = match call {
            Call::Pull => self.hold(self.pool.pull()),
            Call::PullOwned => self.hold(self.pool.pull_owned()),
            Call::Attach(number) => self.hold(self.pool.attach(Item::new(self.tally, number))),
            Call::AttachOwned(number) => {
                self.hold(self.pool.attach_owned(Item::new(self.tally, number)))
            }
            Call::Write { place, content } => {
                let before = mem::replace(&mut self.held[place].content, content);
                format!("had {before}")
            }
            Call::Drop(place) => {
                drop(self.held.swap_remove(place));
                "went".to_string()
            }
            Call::Forget(place) => {
                mem::forget(self.held.swap_remove(place));
                "went".to_string()
            }
        };
        format!("{answer}: {}", self.tally.now())
    }

    fn hold(&mut self, item: Held<'p>) -> String {
        let told = self.pool.told(&item);
        self.held.push(item);
        told
    }
}
