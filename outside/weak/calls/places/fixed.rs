
/// Calls of this file, by names of their own: tests of order run the code that the compiler makes of them.
pub mod weak {
    use super::*;

    #[no_mangle]
    pub fn weak_fixed_new(places: usize) -> *const Fixed {
        Fixed::new(places).map_or(std::ptr::null(), |fixed| Box::into_raw(Box::new(fixed)))
    }

    #[no_mangle]
    pub fn weak_fixed_pull(fixed: &Fixed) -> usize {
        fixed.pull().map_or(usize::MAX, |place| place.number())
    }

    /// # Safety
    ///
    /// As `Fixed::give_back`.
    #[no_mangle]
    pub unsafe fn weak_fixed_give_back(fixed: &Fixed, place: usize) {
        unsafe { fixed.give_back(Place::held(place)) }
    }
}
