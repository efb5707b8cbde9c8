//! The library of `include/sfn.h`, safe: slices in, `Result` out, and nothing to check before a call.
//!
//! One file for each part of the header. `raw` has the declarations and the only `unsafe`; what each call takes, gives
//! and refuses is written in `include/sfn.h`.
//!
//! A field has the least type that holds its bits. So Rust cannot say some of what C is refused for with 38: over 16
//! bits of payload_len, time offset, power or cell; a flag over 1; a kind over 7, or a tag or bytes that a kind does
//! not have; a place that a walk does not come to; a reader's state that no call gave. Fields that fill no Rust type
//! (frame, stream, seconds, subseconds, utco, frequency, reserved, bandwidth, count, future, the times of a MIP), data
//! that is too long and a tag from 0 to 6 that is to be passed through are refused as in C.

mod addressing;
mod carriage;
mod mip;
mod packet;
#[allow(unsafe_code)]
mod raw;
mod refusal;
mod stamp;

pub use addressing::{
    addressing_read, addressing_write, function_read, function_write, functions, Function,
    Functions,
};
pub use carriage::{carry, carry_room, Carried, Gathered, Reader};
pub use mip::{emission, extra_delay, mip_read, mip_write, Mip};
pub use packet::{packet_length, packet_read, packet_write, packets, Header, Packet, Packets};
pub use raw::{BATCH_MOST, PACKET_MOST, TRANSPORT};
pub use refusal::Refusal;
pub use stamp::{stamp_read, stamp_write, Stamp, StampKind};

/// An answer's first field as Rust has it.
fn accepted(refusal: u32) -> Result<(), Refusal> {
    match refusal {
        0 => Ok(()),
        number => Err(Refusal(number)),
    }
}

/// How many bytes a writing call wrote.
fn written(answer: raw::Written) -> Result<usize, Refusal> {
    accepted(answer.refusal)?;
    Ok(answer.bytes as usize)
}

/// The CRC of the bytes; 0 for bytes that end with their own.
pub fn crc(bytes: &[u8]) -> u32 {
    raw::crc(bytes)
}
