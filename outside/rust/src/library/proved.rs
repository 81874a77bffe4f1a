//! The calls of the proved library, as `kundratu_pool.h` describes them. What is an empty handle to C
//! is `None` here.
mod memory;

use std::{ffi::c_void, ptr::NonNull};

/// An open handle of a pool. At its end it is closed.
#[repr(transparent)]
pub struct Handle(NonNull<c_void>);

// SAFETY: it is proved of the library: its handle, in `crates/fixed_pool_c`, is `Send`.
unsafe impl Send for Handle {}

/// A place as the calls have it: one more than its number, or 0 if it is empty, and the tag of its
/// pool. This crate knows whose a place is, so all its pools have the tag 0.
#[repr(C)]
struct Place {
    after: usize,
    tag: usize,
}

/// The calls by their convention, which is one on x86-64, whatever the system's own is.
macro_rules! calls {
    ($convention:literal) => {
        unsafe extern $convention {
            #[link_name = "kdr_0_1_0_handle_new"]
            safe fn handle_new(items: usize, tag: usize, out: &mut Option<Handle>) -> u32;
            #[link_name = "kdr_0_1_0_handle_share"]
            safe fn handle_share(handle: &mut Handle, out: &mut Option<Handle>) -> u32;
            #[link_name = "kdr_0_1_0_pool_drop"]
            safe fn pool_drop(handle: &mut Option<Handle>) -> u32;
            #[link_name = "kdr_0_1_0_place_pull"]
            safe fn place_pull(handle: &mut Handle, page: usize, out: &mut Place) -> u32;
            #[link_name = "kdr_0_1_0_place_return"]
            fn place_return(handle: &mut Handle, place: &mut Place) -> u32;
        }
    };
}

// SAFETY: the calls are proved for each pointer that is valid, and for each handle that is empty or
// was left by a call: only the calls make a handle, and it can't be copied. A mutable borrow is the
// only one of its handle, and a call that isn't its end leaves it as it is. The last call isn't safe:
// the place has to be out of the handle's pool.
#[cfg(target_arch = "x86_64")]
calls!("sysv64");
#[cfg(target_arch = "aarch64")]
calls!("C");

// These functions aren't inlined. Where a `dylib` lies between this crate and a program, it has them
// for the program's generic code, but not the names above.
impl Handle {
    /// Creates a pool of so many free places. `None` if memory is refused.
    #[inline(never)]
    pub fn new(places: usize) -> Option<Handle> {
        let mut handle = None;
        handle_new(places, 0, &mut handle);
        handle
    }

    /// Opens a further handle of its pool. `None` if memory is refused.
    #[inline(never)]
    pub fn share(&mut self) -> Option<Handle> {
        let mut handle = None;
        handle_share(self, &mut handle);
        handle
    }

    /// Pulls a place, at this page first. `None` if all were out at one moment.
    #[inline(never)]
    pub fn pull(&mut self, page: usize) -> Option<usize> {
        let mut place = Place { after: 0, tag: 0 };
        place_pull(self, page, &mut place);
        place.after.checked_sub(1)
    }

    /// Returns a place.
    ///
    /// # Safety
    ///
    /// The place is out of the handle's pool.
    #[inline(never)]
    pub unsafe fn give_back(&mut self, place: usize) {
        // SAFETY: the caller says that it is out of the handle's pool.
        unsafe { place_return(self, &mut Place { after: place.wrapping_add(1), tag: 0 }) };
    }
}

impl Drop for Handle {
    fn drop(&mut self) {
        // The call closes it, and leaves `None`.
        pool_drop(&mut Some(Handle(self.0)));
    }
}
