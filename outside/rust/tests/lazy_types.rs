//! The types of the lazy pool: what is refused, how all are shown, and what goes to threads.
use kundratu_pool::{LazyOwnedReusable, LazyPool, LazyReusable, NewError, PullError};
use std::cell::Cell;
use std::error::Error;
use std::rc::Rc;

type Numbers = LazyPool<u32, &'static str>;

#[test]
fn a_pool_of_nothing_or_past_all_memory_is_refused() {
    let refused = |items| Numbers::new(items, || Ok(0), |_| true).err();
    assert_eq!(refused(0), Some(NewError::NoItems));
    assert_eq!(refused(usize::MAX), Some(NewError::Memory));
}

#[test]
fn each_error_has_its_words_and_its_source() {
    let source = "x".parse::<u32>().expect_err("it is no number");
    let words = [
        (PullError::AllInUse, "all items are in use"),
        (PullError::TimedOut, "no item was free in time"),
        (PullError::Closed, "the pool is closed"),
        (PullError::from(source.clone()), "the initializer failed: invalid digit found in string"),
    ];
    for (error, words) in words {
        assert_eq!(error.to_string(), words);
        let boxed: Box<dyn Error> = error.into();
        assert_eq!((boxed.to_string().as_str(), boxed.source().is_some()), (words, false));
    }
}

#[test]
fn pools_and_guards_are_shown() {
    let pool = Numbers::new(5, || Ok(0), |_| true).expect("there is memory");
    let item = pool.pull().expect("one is free");
    assert_eq!(format!("{item:?}"), "0");
    let status = "Status { items: 5, made: 1, in_use: 1, waiting: 0 }";
    assert_eq!(format!("{:?}", pool.status()), status);
    assert_eq!(format!("{pool:?}"), format!("LazyPool({status})"));
}

/// It compiles only where the type isn't of the trait: else it couldn't be decided which of two
/// functions is meant.
macro_rules! is_not {
    ($type:ty: $trait:path) => {
        const _: fn() = || {
            trait Ambiguous<A> {
                fn here() {}
            }
            impl<T: ?Sized> Ambiguous<()> for T {}
            struct OfTheTrait;
            impl<T: ?Sized + $trait> Ambiguous<OfTheTrait> for T {}
            <$type as Ambiguous<_>>::here();
        };
    };
}

is_not!(LazyPool<Rc<u8>, ()>: Sync);
is_not!(LazyPool<Rc<u8>, ()>: Send);
is_not!(LazyReusable<'static, Rc<u8>, ()>: Send);
is_not!(LazyReusable<'static, Rc<u8>, ()>: Sync);
is_not!(LazyReusable<'static, Cell<u8>, ()>: Sync);
is_not!(LazyOwnedReusable<Rc<u8>, ()>: Send);
is_not!(LazyOwnedReusable<Cell<u8>, ()>: Sync);

/// What is sent and shared, whatever the error is.
#[test]
fn pools_and_guards_go_to_threads_as_their_items_may() {
    fn is_sent<S: Send>() {}
    fn is_shared<S: Sync>() {}
    is_sent::<LazyPool<Cell<u8>, Rc<u8>>>();
    is_shared::<LazyPool<Cell<u8>, Rc<u8>>>();
    is_sent::<LazyReusable<'static, Cell<u8>, Rc<u8>>>();
    is_sent::<LazyOwnedReusable<Cell<u8>, Rc<u8>>>();
    is_shared::<LazyReusable<'static, u8, Rc<u8>>>();
    is_shared::<LazyOwnedReusable<u8, Rc<u8>>>();
}
