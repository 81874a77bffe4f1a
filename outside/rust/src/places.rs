#![doc = include_str!("places/places.md")]
pub(crate) mod fixed;
pub(crate) mod growing;
mod kept;
pub(crate) mod slots;
