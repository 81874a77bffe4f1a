//! The end of a thread that first calls a pool after the ends of its thread locals: in a destructor
//! of a key of C's. glibc calls those later, and a thread local that is made then never ends. A
//! destructor of this crate's own, which is called still later, ends what the thread has.
use std::ffi::c_void;
use std::ptr::{self, NonNull};
use std::sync::OnceLock;

unsafe extern "C" {
    fn pthread_key_create(key: &mut u32, end: extern "C" fn(*mut c_void)) -> i32;
    safe fn pthread_setspecific(key: u32, value: *const c_void) -> i32;
}

/// The key, if there was one left.
static KEY: OnceLock<Option<u32>> = OnceLock::new();

extern "C" fn end(_: *mut c_void) {
    let _ = super::HOLDER.try_with(super::Holder::end);
}

/// Watches this thread's end, also where its thread locals have ended, or watches it no more.
pub(super) fn watch(is_watched: bool) {
    let key = KEY.get_or_init(|| {
        let mut key = 0;
        // SAFETY: the destructor needs no value. While a thread has one, this crate's code stays
        // where it is, since the thread has a thread local of it that hasn't ended.
        let answer = unsafe { pthread_key_create(&mut key, end) };
        (answer == 0).then_some(key)
    });
    if let Some(key) = key {
        let value =
            if is_watched { NonNull::<c_void>::dangling().as_ptr() } else { ptr::null_mut() };
        pthread_setspecific(*key, value);
    }
}
