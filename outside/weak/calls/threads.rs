
/// As `places::fixed::weak`.
pub mod weak {
    /// Returns what a thread knows in place of a number if all numbers are out.
    #[no_mangle]
    pub fn weak_no_number() -> usize {
        super::NONE
    }
}
