//! The T2-MI packet: 01, "T2-MI packet"; 002, clause 5.1.

use super::answers::{Packet, Written};
use super::crc::{crc, with_crc};
use super::write_at_start;

/// The twelve types of 01 (002, table 1).
pub const TYPES: [u8; 12] = [
    0x00, 0x01, 0x02, 0x10, 0x11, 0x12, 0x20, 0x21, 0x30, 0x31, 0x32, 0x33,
];

/// Header 6 bytes, CRC 4 bytes.
pub const HEADER: usize = 6;
pub const SHORTEST: usize = 10;
/// 10 and 65,535 bits rounded up.
pub const LONGEST: usize = 8202;

/// The bytes of a payload of so many bits, its pad included.
pub fn payload_bytes(bits: usize) -> usize {
    bits.div_ceil(8)
}

/// The bytes of a whole packet with so many payload bits.
pub fn total(bits: usize) -> usize {
    SHORTEST + payload_bytes(bits)
}

/// The own length of the packet that begins with these bytes, which must hold
/// its six header bytes.
pub fn own_length(bytes: &[u8]) -> usize {
    total(payload_len(bytes))
}

/// The own length of the packet at the front of these bytes, of which nothing
/// else is judged; 0 where they do not hold all of it (`sfn_packet_length`).
pub fn length(bytes: &[u8]) -> u32 {
    if bytes.len() < HEADER || bytes.len() < own_length(bytes) {
        return 0;
    }
    own_length(bytes) as u32
}

/// packet_count: from 255 on to 0.
pub fn next_count(count: u8) -> u8 {
    count.wrapping_add(1)
}

fn payload_len(bytes: &[u8]) -> usize {
    usize::from(bytes[4]) * 256 + usize::from(bytes[5])
}

/// Reads a packet that fills the slice. Its payload is
/// `slice[6 .. 6 + (bits + 7) / 8]`.
pub fn read(slice: &[u8]) -> Packet {
    let refusal = refusal_of_reading(slice);
    if refusal != 0 {
        return Packet {
            refusal,
            ..Packet::default()
        };
    }
    Packet {
        refusal: 0,
        bits: payload_len(slice) as u32,
        packet_type: slice[0],
        count: slice[1],
        frame: slice[2] >> 4,
        stream: slice[3] & 0x07,
    }
}

/// Order of 01: 18, 19, 14, 20, 21, 22.
fn refusal_of_reading(slice: &[u8]) -> u32 {
    if slice.len() < SHORTEST {
        return 18;
    }
    if slice.len() != own_length(slice) {
        return 19;
    }
    if crc(slice) != 0 {
        return 14;
    }
    if has_reserved_bit(slice) {
        return 20;
    }
    if !TYPES.contains(&slice[0]) {
        return 21;
    }
    let bits = payload_len(slice);
    let payload = &slice[HEADER..HEADER + payload_bytes(bits)];
    if has_pad_bit(payload, bits) {
        return 22;
    }
    0
}

/// The nine bits between superframe_idx and t2mi_stream_id: four in the third
/// byte, five in the fourth.
fn has_reserved_bit(header: &[u8]) -> bool {
    header[2] & 0x0F != 0 || header[3] & 0xF8 != 0
}

/// A one among the bits of the last byte that lie behind the payload's own.
fn has_pad_bit(payload: &[u8], bits: usize) -> bool {
    let used_in_last = bits % 8;
    if used_in_last == 0 {
        return false;
    }
    let pad_mask = 0xFF >> used_in_last;
    payload[payload.len() - 1] & pad_mask != 0
}

/// Writes a packet into a buffer with the contents `out`; gives the answer and
/// the buffer's contents afterwards.
pub fn write(
    packet_type: u8,
    count: u8,
    frame: u8,
    stream: u8,
    bits: u32,
    payload: &[u8],
    out: &[u8],
) -> (Written, Vec<u8>) {
    let refusal = refusal_of_writing(packet_type, frame, stream, bits, payload, out.len());
    if refusal != 0 {
        return (Written { refusal, bytes: 0 }, out.to_vec());
    }
    let whole = compose(packet_type, count, frame << 4, stream, bits as u16, payload);
    let bytes = whole.len() as u32;
    (Written { refusal: 0, bytes }, write_at_start(out, &whole))
}

/// Order of 01: 21, 38, 19, 22, 16.
fn refusal_of_writing(
    packet_type: u8,
    frame: u8,
    stream: u8,
    bits: u32,
    payload: &[u8],
    out_len: usize,
) -> u32 {
    if !TYPES.contains(&packet_type) {
        return 21;
    }
    if frame > 15 || stream > 7 || bits > 65_535 {
        return 38;
    }
    let bits = bits as usize;
    if payload.len() != payload_bytes(bits) {
        return 19;
    }
    if has_pad_bit(payload, bits) {
        return 22;
    }
    if out_len < total(bits) {
        return 16;
    }
    0
}

/// The bytes of a packet from its header bytes as they stand on the wire. It
/// judges nothing: the comparison uses it for damaged packets too.
pub fn compose(
    packet_type: u8,
    count: u8,
    third: u8,
    fourth: u8,
    payload_len: u16,
    payload: &[u8],
) -> Vec<u8> {
    let mut bytes = vec![packet_type, count, third, fourth];
    bytes.extend_from_slice(&payload_len.to_be_bytes());
    bytes.extend_from_slice(payload);
    with_crc(&bytes)
}

#[cfg(test)]
mod tests {
    use super::*;

    /// 01, bench examples.
    #[test]
    fn bench_totals() {
        let totals: Vec<usize> = [0, 1, 8, 9, 65_535].iter().map(|b| total(*b)).collect();
        assert_eq!(totals, [10, 11, 11, 12, LONGEST]);
    }

    #[test]
    fn count_goes_from_255_on_to_0() {
        assert_eq!(next_count(0), 1);
        assert_eq!(next_count(254), 255);
        assert_eq!(next_count(255), 0);
    }

    /// Laid out by hand from 002, clause 5.1: type 30 (a FEF part),
    /// count 255, superframe 15, stream 7, nine bits of ones. The CRC comes from
    /// a library of another language (see `vectors`).
    const NINE_ONES: [u8; 12] = [
        0x30, 0xFF, 0xF0, 0x07, 0x00, 0x09, 0xFF, 0x80, 0xEF, 0xFE, 0x6F, 0xF9,
    ];

    /// Whole, cut at each place, with a byte behind it, and with everything but
    /// payload_len (the fifth and sixth byte) turned over.
    #[test]
    fn length_of_the_hand_made_packet() {
        assert_eq!(length(&NINE_ONES), 12);
        for len in 0..12 {
            assert_eq!(length(&NINE_ONES[..len]), 0, "{len}");
        }
        assert_eq!(length(&[&NINE_ONES[..], &[0]].concat()), 12);
        let mut turned = NINE_ONES.map(|byte| !byte);
        turned[4..6].copy_from_slice(&NINE_ONES[4..6]);
        assert_eq!(length(&turned), 12);
    }

    /// The longest: all ones in payload_len.
    #[test]
    fn length_of_the_longest() {
        assert_eq!(length(&[0xFF; LONGEST]), 8_202);
        assert_eq!(length(&[0xFF; LONGEST - 1]), 0);
    }

    #[test]
    fn hand_made_packet_is_read() {
        let expected = Packet {
            refusal: 0,
            bits: 9,
            packet_type: 0x30,
            count: 255,
            frame: 15,
            stream: 7,
        };
        assert_eq!(read(&NINE_ONES), expected);
    }

    #[test]
    fn hand_made_packet_is_written_and_the_rest_left() {
        let (written, out) = write(0x30, 255, 15, 7, 9, &[0xFF, 0x80], &[0xAA; 14]);
        assert_eq!(
            written,
            Written {
                refusal: 0,
                bytes: 12
            }
        );
        assert_eq!(out[..12], NINE_ONES);
        assert_eq!(out[12..], [0xAA; 2]);
    }

    #[test]
    fn reading_refusals_one_by_one() {
        let with = |third, fourth, packet_type, payload: &[u8], bits| {
            read(&compose(packet_type, 0, third, fourth, bits, payload)).refusal
        };
        assert_eq!(read(&NINE_ONES[..9]).refusal, 18);
        assert_eq!(read(&NINE_ONES[..11]).refusal, 19);
        let mut damaged = NINE_ONES;
        damaged[11] ^= 1;
        assert_eq!(read(&damaged).refusal, 14);
        assert_eq!(with(0x01, 0, 0, &[], 0), 20);
        assert_eq!(with(0, 0x80, 0, &[], 0), 20);
        assert_eq!(with(0, 0x08, 0x03, &[], 0), 20);
        assert_eq!(with(0, 0, 0x03, &[1], 7), 21);
        assert_eq!(with(0, 0, 0x33, &[1], 7), 22);
        assert_eq!(with(0, 0, 0x33, &[2], 7), 0);
    }

    #[test]
    fn writing_refusals_one_by_one() {
        let refusal = |packet_type, frame, stream, bits, payload: &[u8], room| {
            write(packet_type, 0, frame, stream, bits, payload, &vec![0; room])
                .0
                .refusal
        };
        assert_eq!(refusal(0x22, 16, 0, 0, &[], 10), 21);
        assert_eq!(refusal(0x20, 16, 0, 0, &[1], 10), 38);
        assert_eq!(refusal(0x20, 0, 8, 0, &[1], 10), 38);
        assert_eq!(refusal(0x20, 0, 0, 65_536, &[], 10), 38);
        assert_eq!(refusal(0x20, 0, 0, 7, &[], 10), 19);
        assert_eq!(refusal(0x20, 0, 0, 7, &[1], 0), 22);
        assert_eq!(refusal(0x20, 0, 0, 7, &[2], 10), 16);
        assert_eq!(refusal(0x20, 0, 0, 7, &[2], 11), 0);
    }
}
