//! Document 01 in plain Rust, one file per format, for a reader with 01 beside him.
//!
//! Every operation answers in a struct of `answers` (those of `sfn.h`). Where it
//! is lent an output it takes the old contents and gives the new ones, so that
//! each lent byte is part of the answer.

pub mod addressing;
pub mod answers;
pub mod carry;
pub mod crc;
pub mod gather;
#[cfg(test)]
mod journey;
pub mod listing;
pub mod mip;
pub mod packet;
#[cfg(test)]
mod pins;
pub mod refusals;
#[cfg(test)]
mod round_trips;
pub mod stamp;

/// The contents of a lent output after a result was written at its start: what
/// lies beyond the result stays as it was (01, "Refusal numbers").
pub fn write_at_start(out: &[u8], result: &[u8]) -> Vec<u8> {
    let mut contents = out.to_vec();
    contents[..result.len()].copy_from_slice(result);
    contents
}
