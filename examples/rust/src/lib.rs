//! The proved library for Rust programs: take the folder `sfn` and `build.rs` along.

#![deny(unsafe_code)]

pub mod sfn;
