//! Why a pull of a lazy pool gave no item.
use std::fmt::{self, Debug, Display, Formatter};
use std::{any::Any, error::Error};

/// Why a pull of a [`LazyPool`](crate::LazyPool) gave no item.
///
/// ```
/// # use kundratu_pool::{LazyPool, PullError};
/// let pool = LazyPool::new(1, || "x".parse::<u32>(), |_| true)?;
/// match pool.pull() {
///     Err(PullError::Init(error)) => assert_eq!(error.to_string(), "invalid digit found in string"),
///     _ => unreachable!("it isn't a number"),
/// }
/// # Ok::<(), kundratu_pool::NewError>(())
/// ```
#[derive(Clone, Copy, Debug, PartialEq, Eq)]
#[non_exhaustive]
pub enum PullError<E> {
    /// All items were in use.
    AllInUse,
    /// The limit of time is over.
    TimedOut,
    /// The pool is closed.
    Closed,
    /// The initializer failed, with this error.
    Init(E),
}

/// Its words have the initializer's own, and its [`source`](Error::source) is what the initializer's
/// error has as its source. That is known only of a boxed error, which is no [`Error`] itself: so `E`
/// is any error that is shown, and `?` turns each into a `Box<dyn Error>`.
impl<E: Debug + Display + 'static> Error for PullError<E> {
    fn source(&self) -> Option<&(dyn Error + 'static)> {
        let PullError::Init(error) = self else { return None };
        let error: &dyn Any = error;
        match error.downcast_ref::<Box<dyn Error + Send + Sync>>() {
            Some(error) => error.source(),
            None => error.downcast_ref::<Box<dyn Error>>()?.source(),
        }
    }
}

impl<E: Display> Display for PullError<E> {
    fn fmt(&self, f: &mut Formatter<'_>) -> fmt::Result {
        match self {
            PullError::AllInUse => f.write_str("all items are in use"),
            PullError::TimedOut => f.write_str("no item was free in time"),
            PullError::Closed => f.write_str("the pool is closed"),
            PullError::Init(error) => write!(f, "the initializer failed: {error}"),
        }
    }
}

impl<E> From<E> for PullError<E> {
    fn from(error: E) -> Self {
        PullError::Init(error)
    }
}
