//! The allocator of a test, which counts what is asked of it and refuses what it is told to.
use kundratu_pool::Pool;
use std::cell::Cell;
use std::ffi::c_void;
use std::ptr::null_mut;
use std::sync::{Mutex, MutexGuard, PoisonError};

thread_local! {
    /// How often this thread asked for memory, for the crate or for the library under it.
    pub static ASKED: Cell<usize> = const { Cell::new(0) };
    /// How many blocks it has.
    pub static HELD: Cell<isize> = const { Cell::new(0) };
    /// Which of its requests is refused.
    pub static REFUSED: Cell<usize> = const { Cell::new(usize::MAX) };
}

unsafe extern "C" {
    fn __libc_malloc(bytes: usize) -> *mut c_void;
    fn __libc_calloc(count: usize, bytes: usize) -> *mut c_void;
    fn __libc_realloc(block: *mut c_void, bytes: usize) -> *mut c_void;
    fn __libc_memalign(align: usize, bytes: usize) -> *mut c_void;
    fn __libc_free(block: *mut c_void);
}

/// Counts a request, or refuses it.
fn ask(give: impl FnOnce() -> *mut c_void) -> *mut c_void {
    let asked = ASKED.replace(ASKED.get() + 1);
    if asked == REFUSED.get() {
        return null_mut();
    }
    give()
}

#[unsafe(no_mangle)]
extern "C" fn malloc(bytes: usize) -> *mut c_void {
    HELD.set(HELD.get() + 1);
    let block = ask(|| unsafe { __libc_malloc(bytes) });
    HELD.set(HELD.get() - isize::from(block.is_null()));
    block
}

/// Rust asks for zeros byte by byte. What else asks is the C library itself, which is refused none.
#[unsafe(no_mangle)]
extern "C" fn calloc(count: usize, bytes: usize) -> *mut c_void {
    let give = || unsafe { __libc_calloc(count, bytes) };
    let block = if bytes == 1 { ask(give) } else { give() };
    HELD.set(HELD.get() + isize::from(!block.is_null()));
    block
}

#[unsafe(no_mangle)]
extern "C" fn realloc(block: *mut c_void, bytes: usize) -> *mut c_void {
    let moved = ask(|| unsafe { __libc_realloc(block, bytes) });
    HELD.set(HELD.get() + isize::from(block.is_null() && !moved.is_null()));
    moved
}

#[unsafe(no_mangle)]
extern "C" fn posix_memalign(out: *mut *mut c_void, align: usize, bytes: usize) -> i32 {
    const NO_MEMORY: i32 = 12;
    let block = ask(|| unsafe { __libc_memalign(align, bytes) });
    HELD.set(HELD.get() + isize::from(!block.is_null()));
    unsafe { *out = block };
    NO_MEMORY * i32::from(block.is_null())
}

#[unsafe(no_mangle)]
extern "C" fn free(block: *mut c_void) {
    HELD.set(HELD.get() - isize::from(!block.is_null()));
    unsafe { __libc_free(block) }
}

/// Waits for all other tests: one at a time has the memory.
pub fn alone() -> MutexGuard<'static, ()> {
    static MEASURED: Mutex<()> = Mutex::new(());
    MEASURED.lock().unwrap_or_else(PoisonError::into_inner)
}

/// Creates a pool of numbers, which are 0 at each pull.
pub fn zeros(items: usize) -> Pool<u32> {
    Pool::new(items, || 0, |number| *number = 0).expect("there is memory")
}
