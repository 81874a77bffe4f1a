//! How a lazy pool is made.
use super::{idle::Entry, idle::Times, places::Places, signs::Order, Judge, LazyPool};
use crate::{places::slots::Slots, pools::pool::NewError};
use std::fmt::{self, Debug, Formatter};
use std::{marker::PhantomData, sync::Arc, time::Duration};

/// What makes, resets and checks the items of a [`LazyPool`], in place of closures.
///
/// # Examples
///
/// ```
/// use kundratu_pool::{LazyPool, Manager};
/// use std::{fs::File, io, path::PathBuf};
///
/// struct Files(PathBuf);
///
/// impl Manager for Files {
///     type Item = File;
///     type Error = io::Error;
///
///     fn create(&self) -> io::Result<File> {
///         File::open(&self.0)
///     }
///
///     fn is_valid(&self, file: &mut File) -> bool {
///         file.metadata().is_ok()
///     }
/// }
///
/// let pool = LazyPool::builder(4).manager(Files("/dev/null".into())).build()?;
/// let file = pool.pull()?;
/// # Ok::<(), Box<dyn std::error::Error>>(())
/// ```
pub trait Manager: Send + Sync + 'static {
    /// What is pooled.
    type Item;
    /// Why an item isn't made.
    type Error;

    /// Makes an item.
    ///
    /// # Errors
    ///
    /// Whatever the pull is to say.
    fn create(&self) -> Result<Self::Item, Self::Error>;

    /// Resets an item as it comes back, and returns whether it is kept.
    fn recycle(&self, _item: &mut Self::Item) -> bool {
        true
    }

    /// Checks a free item before it is pulled, and returns whether it is kept.
    fn is_valid(&self, _item: &mut Self::Item) -> bool {
        true
    }
}

/// A builder of a [`LazyPool`] that doesn't know yet how items are made.
#[derive(Debug)]
#[must_use]
pub struct BuilderOf<T, E> {
    items: usize,
    made: PhantomData<fn() -> Result<T, E>>,
}

/// A builder of a [`LazyPool`].
#[must_use]
pub struct Builder<T, E> {
    items: usize,
    order: Order,
    pub(super) init: Box<dyn Fn() -> Result<T, E> + Send + Sync>,
    pub(super) reset: Judge<T>,
    pub(super) check: Option<Judge<T>>,
    pub(super) on_event: Option<Box<dyn Fn(Event) + Send + Sync>>,
    pub(super) times: Times,
    pub(super) least: usize,
}

/// What happened in a [`LazyPool`], as [`on_event`](Builder::on_event) tells it.
#[derive(Clone, Copy, Debug, PartialEq, Eq, Hash)]
#[non_exhaustive]
pub enum Event {
    /// An item was pulled.
    Pulled,
    /// An item was made.
    Made,
    /// An item wasn't made, since its initializer failed.
    Failed,
    /// A pull found no item, and waits for one.
    Waits,
}

impl<T, E> BuilderOf<T, E> {
    pub(super) fn new(items: usize) -> Self {
        BuilderOf { items, made: PhantomData }
    }

    /// Makes each item by this closure.
    pub fn init(self, init: impl Fn() -> Result<T, E> + Send + Sync + 'static) -> Builder<T, E> {
        Builder {
            items: self.items,
            order: Order::ANY,
            init: Box::new(init),
            reset: Box::new(|_| true),
            check: None,
            on_event: None,
            times: Times::default(),
            least: 0,
        }
    }

    /// Makes, resets and checks items by this manager.
    pub fn manager(self, manager: impl Manager<Item = T, Error = E>) -> Builder<T, E> {
        let creates = Arc::new(manager);
        let [recycles, checks] = [(); 2].map(|()| Arc::clone(&creates));
        self.init(move || creates.create())
            .reset(move |item| recycles.recycle(item))
            .check(move |item| checks.is_valid(item))
    }
}

impl<T, E> Builder<T, E> {
    /// Calls this on each item as it comes back. It returns whether the item is kept.
    pub fn reset(mut self, reset: impl Fn(&mut T) -> bool + Send + Sync + 'static) -> Self {
        self.reset = Box::new(reset);
        self
    }

    /// Checks each free item before it is pulled. If the check returns `false`, the item is
    /// dropped, and the pull makes another one in its place.
    pub fn check(mut self, check: impl Fn(&mut T) -> bool + Send + Sync + 'static) -> Self {
        self.check = Some(Box::new(check));
        self
    }

    /// Serves those that wait in the order in which they came: a place that is free goes to the
    /// first one. A pull that doesn't wait is refused while others do.
    ///
    /// By default any may come first, and a thread that runs is the quickest. In a fair pool each
    /// turn goes to another thread, which is often woken for it: that takes longer.
    pub fn fair(mut self) -> Self {
        self.order = Order::FAIR;
        self
    }

    /// Names the least number of items: [`fill_least`](LazyPool::fill_least) makes so many, and
    /// [`clear_idle`](LazyPool::clear_idle) leaves so many.
    pub fn least(mut self, items: usize) -> Self {
        self.least = items;
        self
    }

    /// Drops an item in place of giving it if it was free for so long. It is looked at when it is
    /// pulled: no thread of the pool does it before.
    pub fn idle_time(mut self, time: Duration) -> Self {
        self.times.idle = Some(time);
        self
    }

    /// Drops an item that was made so long ago, when it is pulled or comes back.
    pub fn life_time(mut self, time: Duration) -> Self {
        self.times.life = Some(time);
        self
    }

    /// Calls this at each [`Event`], under no lock of the pool.
    pub fn on_event(mut self, call: impl Fn(Event) + Send + Sync + 'static) -> Self {
        self.on_event = Some(Box::new(call));
        self
    }

    /// Creates the pool, and makes no item.
    ///
    /// # Errors
    ///
    /// `NoItems` if there are none, or `Memory`, also if they are 2^32 or more.
    pub fn build(self) -> Result<LazyPool<T, E>, NewError> {
        let places = Places::new(self.items, self.order)?;
        let items = Slots::new(self.items, || Entry::EMPTY);
        if self.check.is_some() || self.on_event.is_some() || self.times.minds() {
            places.signs().mind();
        }
        Ok(LazyPool { items: items.ok_or(NewError::Memory)?, places, settings: self })
    }
}

impl<T, E> Debug for Builder<T, E> {
    fn fmt(&self, f: &mut Formatter<'_>) -> fmt::Result {
        let mut shown = f.debug_struct("Builder");
        shown.field("items", &self.items).finish_non_exhaustive()
    }
}
