//! An item of a pool, or a value of none.
use std::ops::{Deref, DerefMut};

/// An item that was pulled, or a value that belongs to no pool and is dropped at its end.
#[derive(Debug)]
#[must_use = "the item is returned at once"]
pub enum OrElse<G, T> {
    /// An item, by its guard.
    Pooled(G),
    /// A value that belongs to no pool.
    Own(T),
}

impl<G, T> OrElse<G, T> {
    /// Returns whether it is an item of a pool.
    pub fn is_pooled(&self) -> bool {
        matches!(self, OrElse::Pooled(_))
    }
}

impl<G: Deref<Target = T>, T> Deref for OrElse<G, T> {
    type Target = T;

    fn deref(&self) -> &T {
        match self {
            OrElse::Pooled(guard) => guard,
            OrElse::Own(value) => value,
        }
    }
}

impl<G: DerefMut<Target = T>, T> DerefMut for OrElse<G, T> {
    fn deref_mut(&mut self) -> &mut T {
        match self {
            OrElse::Pooled(guard) => guard,
            OrElse::Own(value) => value,
        }
    }
}
