//! The calls of the library that this crate makes.

/// Takes the proved calls for these targets, and calls in Rust for others or by the feature.
macro_rules! proved_for {
    ($($target:meta),*) => {
        #[cfg_attr(all(not(feature = "portable"), any($($target),*)), path = "proved.rs")]
        #[cfg_attr(not(all(not(feature = "portable"), any($($target),*))), path = "portable.rs")]
        mod handle;
    };
}

proved_for!(
    all(target_os = "linux", target_arch = "x86_64", target_pointer_width = "64"),
    all(
        target_os = "linux",
        target_arch = "aarch64",
        target_pointer_width = "64",
        target_endian = "little"
    ),
    all(target_os = "windows", target_arch = "x86_64"),
    all(target_os = "macos", target_arch = "x86_64"),
    all(target_os = "macos", target_arch = "aarch64")
);

pub(crate) use handle::Handle;

/// How many places a page has.
pub(crate) const PAGE: usize = 32;

/// Creates a pool of the library, of so many places, and opens a handle of it. `None` if memory is
/// refused.
pub(crate) fn open(places: usize) -> Option<Handle> {
    // The pool's own small blocks lie in a row, and its handle behind them, so that they share no
    // cache line with another pool's. Blocks that were freed before may, so some are taken first.
    let mut freed: [Vec<usize>; 16] = Default::default();
    let mut blocks = freed.iter_mut();
    blocks.try_for_each(|block| block.try_reserve_exact(2).ok())?;
    let first = Handle::new(places);
    drop(std::hint::black_box(freed));
    first?.share()
}
