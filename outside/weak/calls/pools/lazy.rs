
/// As `places::fixed::weak`.
pub mod weak {
    use super::*;

    type Numbers = LazyPool<u64, ()>;

    #[no_mangle]
    pub fn weak_lazy_new(items: usize) -> *const Numbers {
        let pool = Numbers::new(items, || Ok(0), |_| true);
        pool.map_or(std::ptr::null(), |pool| Box::into_raw(Box::new(pool)))
    }

    /// Returns the number's address, or 1 if the pool is closed, or 0.
    #[no_mangle]
    pub fn weak_lazy_pull_wait(pool: &'static Numbers) -> usize {
        match pool.pull_wait() {
            Ok(guard) => &raw mut *Box::leak(Box::new(guard)) as usize,
            Err(PullError::Closed) => 1,
            Err(_) => 0,
        }
    }

    /// # Safety
    ///
    /// It is what `weak_lazy_pull_wait` answered, once.
    #[no_mangle]
    pub unsafe fn weak_lazy_give_back(guard: *mut LazyReusable<'static, u64, ()>) {
        drop(unsafe { guard.read() });
    }

    #[no_mangle]
    pub fn weak_lazy_close(pool: &Numbers) {
        pool.close();
    }
}
