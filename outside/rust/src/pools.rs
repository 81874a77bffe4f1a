//! The pools, and what they share.
#[allow(unsafe_code)]
pub(crate) mod guard;
pub(crate) mod lazy;
#[allow(unsafe_code)]
pub(crate) mod linear;
pub(crate) mod none;
pub(crate) mod or_else;
#[allow(unsafe_code)]
pub(crate) mod pool;
pub(crate) mod stack;
