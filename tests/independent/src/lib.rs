//! Document 01, programmed from the documents alone, to be compared with the
//! proved library. See README.md.

#![deny(unsafe_code)]
// The operations take what `sfn.h` gives them, argument by argument.
#![allow(clippy::too_many_arguments)]

pub mod compare;
#[cfg(feature = "link")]
pub mod ffi;
pub mod lent;
pub mod model;
pub mod prng;
pub mod vectors;
