//! Inputs for the comparisons: good T2-MI packets, and ways to damage bytes.

use crate::model::crc::with_crc;
use crate::model::packet::{self, payload_bytes};
use crate::prng::Prng;

/// Payload lengths in bits where something changes: bytes, pads, both ends.
pub const BITS: [u32; 26] = [
    0, 1, 2, 3, 4, 5, 6, 7, 8, 9, 15, 16, 17, 39, 40, 88, 255, 256, 257, 2_040, 65_527, 65_528,
    65_529, 65_533, 65_534, 65_535,
];

/// A payload of so many bits, its pad bits zero.
pub fn payload(prng: &mut Prng, bits: u32) -> Vec<u8> {
    let mut bytes = prng.bytes(payload_bytes(bits as usize));
    let used_in_last = bits % 8;
    if used_in_last != 0 {
        let last = bytes.len() - 1;
        bytes[last] &= !(0xFF >> used_in_last);
    }
    bytes
}

/// A good packet of so many payload bits, its other fields any.
pub fn packet(prng: &mut Prng, bits: u32) -> Vec<u8> {
    let payload = payload(prng, bits);
    let packet_type = prng.pick(&packet::TYPES);
    let frame = prng.byte() & 0xF0;
    let stream = prng.byte() & 0x07;
    packet::compose(
        packet_type,
        prng.byte(),
        frame,
        stream,
        bits as u16,
        &payload,
    )
}

/// A good packet of so many bytes, 10 to 8,202.
pub fn packet_of_length(prng: &mut Prng, length: usize) -> Vec<u8> {
    let most = ((length - packet::SHORTEST) * 8).min(65_535);
    // Any of the bit counts that round up to these bytes.
    let fewer = if most == 0 {
        0
    } else {
        prng.below(8 - (8 - most % 8) % 8)
    };
    packet(prng, (most - fewer) as u32)
}

/// Mostly short, now and then of any length.
pub fn any_bits(prng: &mut Prng) -> u32 {
    match prng.below(8) {
        0 => prng.pick(&BITS),
        1 => prng.below(65_536) as u32,
        _ => prng.below(200) as u32,
    }
}

/// A length for an output that needs `exact` bytes: one short, exact, longer,
/// or far off.
pub fn room(prng: &mut Prng, exact: usize) -> usize {
    match prng.below(6) {
        0 => exact.saturating_sub(1),
        1 | 2 => exact,
        3 => exact + 1,
        4 => exact + prng.below(40),
        _ => prng.below(exact + 1),
    }
}

pub fn flip_bit(bytes: &mut [u8], bit: usize) {
    bytes[bit / 8] ^= 0x80 >> (bit % 8);
}

pub fn flip_any_bit(prng: &mut Prng, bytes: &mut [u8]) {
    if !bytes.is_empty() {
        let bit = prng.below(bytes.len() * 8);
        flip_bit(bytes, bit);
    }
}

/// The bytes with their last four made the CRC of those before.
pub fn repaired(bytes: &[u8]) -> Vec<u8> {
    if bytes.len() < 4 {
        return bytes.to_vec();
    }
    with_crc(&bytes[..bytes.len() - 4])
}

/// Takes off some bytes at the end, or puts some on.
pub fn change_length(prng: &mut Prng, bytes: &mut Vec<u8>) {
    if prng.one_in(2) {
        let gone = 1 + prng.below(12);
        bytes.truncate(bytes.len().saturating_sub(gone));
    } else {
        let more = 1 + prng.below(12);
        bytes.extend(prng.bytes(more));
    }
}

#[cfg(test)]
mod tests {
    use super::*;
    use crate::model::packet::read;

    #[test]
    fn good_packets_are_good() {
        let mut prng = Prng::new(3);
        for bits in BITS {
            let bytes = packet(&mut prng, bits);
            assert_eq!((read(&bytes).refusal, read(&bytes).bits), (0, bits));
        }
    }

    #[test]
    fn packets_of_each_length() {
        let mut prng = Prng::new(4);
        for length in (10..300).chain(8_190..=8_202) {
            let bytes = packet_of_length(&mut prng, length);
            assert_eq!((read(&bytes).refusal, bytes.len()), (0, length));
        }
    }
}
