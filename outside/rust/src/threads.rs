//! Numbers of threads, and what a thread has by its number. A number is a place of a pool of the
//! proved library, which its thread holds from its first call to its end.
#[cfg(all(target_os = "linux", target_env = "gnu"))]
mod late;
pub(crate) mod slots;

use crate::{library::calls::Handle, lock, places::growing::Growing, pools::guard::AtEnd};
use std::cell::{Cell, RefCell};
use std::marker::PhantomData;
use std::sync::{Mutex, Weak};

/// How many numbers come first. Those after them come in groups, each of as many as all before.
pub(crate) const FIRST: usize = 32;
/// How many such groups there are.
pub(crate) const GROUPS: usize = 7;
/// How many threads have a number at a time.
pub(crate) const NUMBERS: usize = FIRST << GROUPS;

/// What a thread has in place of a number: before its first call, where all numbers were out,
/// within a call, and at its end.
const UNKNOWN: usize = NUMBERS;
const NONE: usize = NUMBERS + 1;
const WITHIN: usize = NUMBERS + 2;
const ENDED: usize = NUMBERS + 3;

/// A thread that came when all numbers were out asks again at each such call.
pub(crate) const CALLS: u32 = 64;

thread_local! {
    /// The thread's number, or one of the four above.
    static KNOWN: Cell<usize> = const { Cell::new(UNKNOWN) };
    /// How many calls a thread without a number makes before it asks again.
    static LEFT: Cell<u32> = const { Cell::new(0) };
    static HOLDER: Holder = const { Holder(RefCell::new(Vec::new())) };
}

/// The number of this thread, or what it has in place of one. It doesn't go to another thread.
pub(crate) struct Number(usize, PhantomData<*const ()>);

impl Number {
    /// Returns the number, of which there are `NUMBERS`, or one that is none of them.
    pub(crate) fn get(&self) -> usize {
        self.0
    }
}

/// Makes this call with the thread's number, if that is known. A call within it has that number too.
#[inline(always)]
pub(crate) fn with_known<A>(call: impl FnOnce(&Number) -> A) -> A {
    call(&Number(KNOWN.get(), PhantomData))
}

/// Makes this call with the thread's number. There is none if all are out, at the thread's end, and
/// in a call within a call.
#[inline(always)]
pub(crate) fn with<A>(call: impl FnOnce(Option<&Number>) -> A) -> A {
    let known = Some(KNOWN.get()).filter(|known| *known < NUMBERS).unwrap_or_else(find);
    if known >= NUMBERS {
        return call(None);
    }
    KNOWN.set(WITHIN);
    let lent = AtEnd(Number(known, PhantomData), |number| KNOWN.set(number.0));
    call(Some(&lent.0))
}

/// Asks for a number, if the thread has none. Returns what it has then.
#[inline(never)]
fn find() -> usize {
    let left = LEFT.get();
    match KNOWN.get() {
        NONE if left > 0 => LEFT.set(left - 1),
        UNKNOWN | NONE => {
            LEFT.set(CALLS - 1);
            KNOWN.set(WITHIN);
            // Of a holder that has ended there is no number any more.
            KNOWN.set(HOLDER.try_with(Holder::pull).unwrap_or(ENDED));
        }
        _ => {}
    }
    KNOWN.get()
}

/// The pools where a thread may keep places. Its end returns them, and the thread's number.
struct Holder(RefCell<Vec<Weak<Growing>>>);

/// The pools of numbers: a first one, and one for each group.
static POOLS: [Mutex<Option<Handle>>; GROUPS + 1] = [const { Mutex::new(None) }; GROUPS + 1];

/// Returns how many numbers come before those of a pool.
fn before(pool: usize) -> usize {
    pool.checked_sub(1).map_or(0, |group| FIRST << group)
}

/// Pulls a number of the first pool that has one.
pub(crate) fn pull_number() -> Option<usize> {
    (0..POOLS.len()).find_map(|pool| {
        let mut numbers = lock(&POOLS[pool]);
        if numbers.is_none() {
            *numbers = Handle::new(before(pool).max(FIRST));
        }
        Some(before(pool) + numbers.as_mut()?.pull(0)?)
    })
}

/// Returns a number.
///
/// # Safety
///
/// It was pulled here, and is returned once.
pub(crate) unsafe fn return_number(number: usize) {
    let pool = (number / FIRST).checked_ilog2().map_or(0, |group| group as usize + 1);
    if let Some(numbers) = &mut *lock(&POOLS[pool]) {
        #[allow(unused_unsafe)] // the call in Rust is safe
        // SAFETY: the caller says that it was pulled, and is returned once.
        unsafe {
            numbers.give_back(number - before(pool))
        };
    }
}

impl Holder {
    /// Pulls a number for the thread, whose end returns it.
    fn pull(&self) -> usize {
        #[cfg(all(target_os = "linux", target_env = "gnu"))]
        late::watch(true);
        pull_number().unwrap_or(NONE)
    }

    /// Returns what the thread keeps, and then its number.
    fn end(&self) {
        let number = Number(KNOWN.replace(ENDED), PhantomData);
        let pools = self.0.take().into_iter();
        for pool in pools.filter_map(|pool| pool.upgrade()) {
            pool.return_kept(&number);
        }
        if number.get() < NUMBERS {
            // SAFETY: the thread pulled it, and has it no more.
            unsafe { return_number(number.get()) };
        }
    }
}

impl Drop for Holder {
    fn drop(&mut self) {
        #[cfg(all(target_os = "linux", target_env = "gnu"))]
        late::watch(false);
        self.end();
    }
}

/// Notes a pool where this thread keeps places, until its end. `None` if memory is refused.
pub(crate) fn note(pool: Weak<Growing>) -> Option<()> {
    let note = |holder: &Holder| {
        let pools = &mut *holder.0.borrow_mut();
        if pools.len() == pools.capacity() {
            pools.retain(|pool| pool.strong_count() > 0);
            pools.try_reserve(pools.len() + 1).ok()?;
        }
        pools.push(pool);
        Some(())
    };
    HOLDER.try_with(note).ok()?
}
