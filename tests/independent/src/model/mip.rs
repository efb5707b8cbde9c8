//! The Mega-frame Initialization Packet and the site timing sums: 01, "MIP and
//! site timing"; 000, clause 6 (table 1b), annexes A and B.

use super::addressing;
use super::answers::{Mip, Time, Written};
use super::crc::{crc, with_crc};
use super::write_at_start;

pub const LENGTH: usize = 188;
/// Where the addressing data begins: header 4, then 17 bytes of table 1b.
pub const ADDRESSING: usize = 21;
/// section_length without addressing: from behind itself to the CRC's end.
const SECTION: usize = 19;
/// section_length goes to 182, so that the CRC ends with the packet.
const MOST_SECTION: usize = 182;
pub const MOST_ADDRESSING: usize = MOST_SECTION - SECTION;
const CRC: usize = 4;
/// One second in 100 ns steps.
pub const SECOND: u32 = 10_000_000;

/// Reads a MIP. Its addressing data is `packet[21 .. 21 + addressing]`.
pub fn read(packet: &[u8]) -> Mip {
    let refusal = refusal_of_reading(packet);
    if refusal != 0 {
        return Mip {
            refusal,
            ..Mip::default()
        };
    }
    let periodic_and_future = u16::from_be_bytes([packet[8], packet[9]]);
    Mip {
        refusal: 0,
        stamp: three_bytes(&packet[10..13]),
        delay: three_bytes(&packet[13..16]),
        // P0 is the top bit.
        tps: u32::from_be_bytes([packet[16], packet[17], packet[18], packet[19]]),
        addressing: u32::from(packet[20]),
        pointer: u16::from_be_bytes([packet[6], packet[7]]),
        future: periodic_and_future & 0x7FFF,
        count: packet[3] & 0x0F,
        periodic: (periodic_and_future >> 15) as u8,
    }
}

fn three_bytes(bytes: &[u8]) -> u32 {
    u32::from_be_bytes([0, bytes[0], bytes[1], bytes[2]])
}

/// Order of 01: 1, 5, 30, 31, 32, 14, 33, 34, 35, then the walk.
fn refusal_of_reading(packet: &[u8]) -> u32 {
    if packet.len() != LENGTH {
        return 1;
    }
    if packet[0] != 0x47 {
        return 5;
    }
    if !header_is_right(packet) {
        return 30;
    }
    if packet[4] != 0 {
        return 31;
    }
    let section_length = usize::from(packet[5]);
    let addressing_length = usize::from(packet[20]);
    if section_length > MOST_SECTION || section_length != SECTION + addressing_length {
        return 32;
    }
    let data_end = ADDRESSING + addressing_length;
    let crc_end = data_end + CRC;
    // From 0x47 to the CRC's last byte; the stuffing has no part in it.
    if crc(&packet[..crc_end]) != 0 {
        return 14;
    }
    if three_bytes(&packet[10..13]) >= SECOND {
        return 33;
    }
    if three_bytes(&packet[13..16]) >= SECOND {
        return 34;
    }
    if packet[crc_end..].iter().any(|byte| *byte != 0xFF) {
        return 35;
    }
    addressing::check(&packet[ADDRESSING..data_end])
}

/// No error mark, start and priority 1, PID 0x0015; scrambling 00, adaptation
/// control 01, any count.
fn header_is_right(packet: &[u8]) -> bool {
    packet[1] == 0b0110_0000 && packet[2] == 0x15 && packet[3] & 0xF0 == 0x10
}

/// Writes a MIP into a buffer with the contents `out`; gives the answer and the
/// buffer's contents afterwards.
pub fn write(
    count: u8,
    pointer: u16,
    periodic: u8,
    future: u16,
    stamp: u32,
    delay: u32,
    tps: u32,
    addressing: &[u8],
    out: &[u8],
) -> (Written, Vec<u8>) {
    let is_too_wide =
        count > 15 || periodic > 1 || future > 0x7FFF || stamp >= 1 << 24 || delay >= 1 << 24;
    let refusal = refusal_of_writing(is_too_wide, stamp, delay, addressing, out.len());
    if refusal != 0 {
        return (Written { refusal, bytes: 0 }, out.to_vec());
    }
    let section_length = (SECTION + addressing.len()) as u8;
    let mut whole = vec![0x47, 0b0110_0000, 0x15, 0x10 | count, 0, section_length];
    whole.extend_from_slice(&pointer.to_be_bytes());
    whole.extend_from_slice(&(u16::from(periodic) << 15 | future).to_be_bytes());
    whole.extend_from_slice(&stamp.to_be_bytes()[1..]);
    whole.extend_from_slice(&delay.to_be_bytes()[1..]);
    whole.extend_from_slice(&tps.to_be_bytes());
    whole.push(addressing.len() as u8);
    whole.extend_from_slice(addressing);
    let mut whole = with_crc(&whole);
    whole.resize(LENGTH, 0xFF);
    let bytes = LENGTH as u32;
    (Written { refusal: 0, bytes }, write_at_start(out, &whole))
}

/// Order of 01: 36, 38, 33, 34, the walk, 16.
fn refusal_of_writing(
    is_too_wide: bool,
    stamp: u32,
    delay: u32,
    addressing: &[u8],
    room: usize,
) -> u32 {
    if addressing.len() > MOST_ADDRESSING {
        return 36;
    }
    if is_too_wide {
        return 38;
    }
    if stamp >= SECOND {
        return 33;
    }
    if delay >= SECOND {
        return 34;
    }
    let refusal = addressing::check(addressing);
    if refusal != 0 {
        return refusal;
    }
    if room < LENGTH {
        return 16;
    }
    0
}

/// Emission time: (stamp + maximum delay + time offset) modulo 10,000,000.
/// Order of 01: 38, 33, 34.
pub fn emission(stamp: u32, delay: u32, offset: i32) -> Time {
    let refusal = refusal_of_times(stamp, delay, offset);
    if refusal != 0 {
        return Time { refusal, steps: 0 };
    }
    // Every term is under a second by now, so the sum fits with its sign.
    let sum = stamp as i32 + delay as i32 + offset;
    Time {
        refusal: 0,
        steps: sum.rem_euclid(SECOND as i32) as u32,
    }
}

/// Extra delay: the emission time less the reception time, modulo 10,000,000.
/// Order of 01: 38, 33, 34, 37.
pub fn extra_delay(stamp: u32, delay: u32, offset: i32, reception: u32) -> Time {
    let emission = emission(stamp, delay, offset);
    if emission.refusal != 0 {
        return emission;
    }
    if reception >= SECOND {
        return Time {
            refusal: 37,
            steps: 0,
        };
    }
    let difference = emission.steps as i32 - reception as i32;
    Time {
        refusal: 0,
        steps: difference.rem_euclid(SECOND as i32) as u32,
    }
}

fn refusal_of_times(stamp: u32, delay: u32, offset: i32) -> u32 {
    if !(-32_768..=32_767).contains(&offset) {
        return 38;
    }
    if stamp >= SECOND {
        return 33;
    }
    if delay >= SECOND {
        return 34;
    }
    0
}

#[cfg(test)]
mod tests {
    use super::*;

    /// Laid out by hand from 000, table 1b: count 12, pointer 0x0102, periodic,
    /// stamp 9,999,999 (98967F), delay 1, tps 12345678, no addressing. The CRC
    /// comes from zlib, on reversed bits.
    const PLAIN: [u8; 25] = [
        0x47, 0x60, 0x15, 0x1C, 0x00, 0x13, 0x01, 0x02, 0x80, 0x00, 0x98, 0x96, 0x7F, 0x00, 0x00,
        0x01, 0x12, 0x34, 0x56, 0x78, 0x00, 0x7C, 0xDA, 0xA9, 0x64,
    ];

    /// Count 3, all ones in pointer and future_use, aperiodic, stamp 0, delay
    /// 9,999,999, P0 and P31 set; broadcast time offset of -32,768.
    const ADDRESSED: [u8; 32] = [
        0x47, 0x60, 0x15, 0x13, 0x00, 0x1A, 0xFF, 0xFF, 0x7F, 0xFF, 0x00, 0x00, 0x00, 0x98, 0x96,
        0x7F, 0x80, 0x00, 0x00, 0x01, 0x07, 0x00, 0x00, 0x04, 0x00, 0x04, 0x80, 0x00, 0x8F, 0x38,
        0x4A, 0xD5,
    ];

    fn stuffed(section: &[u8]) -> Vec<u8> {
        let mut packet = section.to_vec();
        packet.resize(LENGTH, 0xFF);
        packet
    }

    #[test]
    fn plain_mip_is_read_and_written() {
        let expected = Mip {
            refusal: 0,
            stamp: 9_999_999,
            delay: 1,
            tps: 0x1234_5678,
            addressing: 0,
            pointer: 0x0102,
            future: 0,
            count: 12,
            periodic: 1,
        };
        assert_eq!(read(&stuffed(&PLAIN)), expected);
        let (written, out) = write(12, 0x0102, 1, 0, 9_999_999, 1, 0x1234_5678, &[], &[0; 189]);
        assert_eq!((written.refusal, written.bytes), (0, 188));
        assert_eq!((&out[..188], out[188]), (&stuffed(&PLAIN)[..], 0));
    }

    #[test]
    fn addressed_mip_is_read_and_written() {
        let expected = Mip {
            refusal: 0,
            stamp: 0,
            delay: 9_999_999,
            tps: 0x8000_0001,
            addressing: 7,
            pointer: 0xFFFF,
            future: 0x7FFF,
            count: 3,
            periodic: 0,
        };
        assert_eq!(read(&stuffed(&ADDRESSED)), expected);
        let data = &ADDRESSED[21..28];
        let (_, out) = write(
            3,
            0xFFFF,
            0,
            0x7FFF,
            0,
            9_999_999,
            0x8000_0001,
            data,
            &[0; 188],
        );
        assert_eq!(out, stuffed(&ADDRESSED));
    }

    /// The plain MIP with one byte changed, its CRC mended or not.
    fn refusal_with(at: usize, byte: u8, mended: bool) -> u32 {
        let mut section = PLAIN.to_vec();
        section[at] = byte;
        if mended {
            section = with_crc(&section[..21]);
        }
        read(&stuffed(&section)).refusal
    }

    #[test]
    fn reading_refusals_one_by_one() {
        assert_eq!(read(&stuffed(&PLAIN)[..187]).refusal, 1);
        assert_eq!(refusal_with(0, 0x46, true), 5);
        for (at, byte) in [(1, 0xE0), (1, 0x20), (1, 0x40), (1, 0x61), (2, 0x14)] {
            assert_eq!(refusal_with(at, byte, true), 30);
        }
        for third in [0x0C, 0x2C, 0x3C, 0x5C, 0x9C] {
            assert_eq!(refusal_with(3, third, true), 30);
        }
        assert_eq!(refusal_with(4, 1, true), 31);
        assert_eq!(refusal_with(5, 18, true), 32);
        assert_eq!(refusal_with(20, 1, true), 32);
        assert_eq!(refusal_with(20, 0, false), 0);
        assert_eq!(refusal_with(19, 0, false), 14);
        assert_eq!(refusal_with(12, 0x80, true), 33);
        assert_eq!(refusal_with(13, 0x99, true), 34);
        let mut packet = stuffed(&PLAIN);
        packet[187] = 0;
        assert_eq!(read(&packet).refusal, 35);
        let mut section = ADDRESSED[..28].to_vec();
        section[23] = 3;
        assert_eq!(read(&stuffed(&with_crc(&section))).refusal, 27);
    }

    #[test]
    fn writing_refusals_one_by_one() {
        let refusal = |count, periodic, future, stamp, delay, data: &[u8], room| {
            let out = vec![0; room];
            write(count, 0, periodic, future, stamp, delay, 0, data, &out)
                .0
                .refusal
        };
        assert_eq!(refusal(16, 0, 0, 0, 0, &[0; 164], 188), 36);
        assert_eq!(refusal(16, 0, 0, 10_000_000, 0, &[], 188), 38);
        assert_eq!(refusal(0, 2, 0, 0, 0, &[], 188), 38);
        assert_eq!(refusal(0, 0, 0x8000, 0, 0, &[], 188), 38);
        assert_eq!(refusal(0, 0, 0, 1 << 24, 0, &[], 188), 38);
        assert_eq!(refusal(0, 0, 0, 0, 1 << 24, &[], 188), 38);
        assert_eq!(refusal(0, 0, 0, 10_000_000, 10_000_000, &[0], 0), 33);
        assert_eq!(refusal(0, 0, 0, 0, 10_000_000, &[0], 0), 34);
        assert_eq!(refusal(0, 0, 0, 0, 0, &[0], 0), 26);
        assert_eq!(refusal(0, 0, 0, 0, 0, &[], 187), 16);
    }

    #[test]
    fn bench_sums() {
        let steps = |time: Time| (time.refusal, time.steps);
        assert_eq!(steps(emission(9_999_999, 1, 0)), (0, 0));
        assert_eq!(steps(emission(0, 0, -1)), (0, 9_999_999));
        assert_eq!(steps(extra_delay(0, 0, 0, 5)), (0, 9_999_995));
    }

    #[test]
    fn refused_sums() {
        assert_eq!(emission(10_000_000, 10_000_000, 32_768).refusal, 38);
        assert_eq!(emission(10_000_000, 10_000_000, -32_768).refusal, 33);
        assert_eq!(emission(9_999_999, u32::MAX, 0).refusal, 34);
        assert_eq!(extra_delay(0, 0, -32_769, 10_000_000).refusal, 38);
        assert_eq!(extra_delay(0, 0, 0, 10_000_000).refusal, 37);
    }
}
