//! The DVB-T2 timestamp payload (type 0x20): 01, "Timestamp and addressing
//! payloads"; 002, clause 5.2.7.

use super::answers::{Stamp, Written};
use super::write_at_start;

/// 88 bits.
pub const LENGTH: usize = 11;

/// Subsecond units per microsecond for bw 0 to 5 (002, table 4).
pub const UNITS: [u32; 6] = [131, 40, 48, 56, 64, 80];

/// The three fields of the null stamp, all ones (002, clause 5.2.7.1).
pub const NULL_SECONDS: u64 = (1 << 40) - 1;
pub const NULL_SUBSECONDS: u32 = (1 << 27) - 1;
pub const NULL_UTCO: u16 = (1 << 13) - 1;

/// The kinds of `sfn.h`.
pub const ABSOLUTE: u8 = 0;
pub const RELATIVE: u8 = 1;
pub const NULL: u8 = 2;

/// The subsecond units of a whole second.
pub fn second(bw: u8) -> u32 {
    UNITS[usize::from(bw)] * 1_000_000
}

/// Null is a matter of these three fields; bw still tells the bandwidth.
fn is_null(seconds: u64, subseconds: u32, utco: u16) -> bool {
    seconds == NULL_SECONDS && subseconds == NULL_SUBSECONDS && utco == NULL_UTCO
}

/// Seconds 0 marks a relative stamp (002, clause 5.2.7); the null stamp has other
/// seconds.
fn kind(seconds: u64, subseconds: u32, utco: u16) -> u8 {
    if is_null(seconds, subseconds, utco) {
        return NULL;
    }
    if seconds == 0 {
        return RELATIVE;
    }
    ABSOLUTE
}

/// 25: a relative stamp (seconds 0) is judged like any other.
fn reaches_a_second(bw: u8, seconds: u64, subseconds: u32, utco: u16) -> bool {
    subseconds >= second(bw) && !is_null(seconds, subseconds, utco)
}

/// Reads a payload. Order of 01: 23, 20, 24, 25.
pub fn read(payload: &[u8]) -> Stamp {
    if payload.len() != LENGTH {
        return refused(23);
    }
    if payload[0] & 0xF0 != 0 {
        return refused(20);
    }
    let bw = payload[0] & 0x0F;
    if bw > 5 {
        return refused(24);
    }
    let seconds = number(&payload[1..6]);
    // The last forty bits: 27 of subseconds, then 13 of utco.
    let both = number(&payload[6..11]);
    let subseconds = (both >> 13) as u32;
    let utco = (both & 0x1FFF) as u16;
    if reaches_a_second(bw, seconds, subseconds, utco) {
        return refused(25);
    }
    Stamp {
        seconds,
        refusal: 0,
        subseconds,
        utco,
        bw,
        kind: kind(seconds, subseconds, utco),
    }
}

fn refused(refusal: u32) -> Stamp {
    Stamp {
        refusal,
        ..Stamp::default()
    }
}

/// Bytes as a number, most significant first.
fn number(bytes: &[u8]) -> u64 {
    bytes
        .iter()
        .fold(0, |before, byte| before << 8 | u64::from(*byte))
}

/// Writes a payload into a buffer with the contents `out`; gives the answer and
/// the buffer's contents afterwards.
pub fn write(bw: u8, seconds: u64, subseconds: u32, utco: u16, out: &[u8]) -> (Written, Vec<u8>) {
    let refusal = refusal_of_writing(bw, seconds, subseconds, utco, out.len());
    if refusal != 0 {
        return (Written { refusal, bytes: 0 }, out.to_vec());
    }
    let whole = compose(bw, seconds, subseconds, utco);
    let bytes = LENGTH as u32;
    (Written { refusal: 0, bytes }, write_at_start(out, &whole))
}

/// Order of 01: 24, 38, 25, 16.
fn refusal_of_writing(bw: u8, seconds: u64, subseconds: u32, utco: u16, room: usize) -> u32 {
    if bw > 5 {
        return 24;
    }
    if seconds > NULL_SECONDS || subseconds > NULL_SUBSECONDS || utco > NULL_UTCO {
        return 38;
    }
    if reaches_a_second(bw, seconds, subseconds, utco) {
        return 25;
    }
    if room < LENGTH {
        return 16;
    }
    0
}

/// The bytes of a payload from its first byte as it stands on the wire (four
/// reserved bits and bw) and three fields within their widths. It judges nothing:
/// the comparison uses it for wrong payloads too.
pub fn compose(first: u8, seconds: u64, subseconds: u32, utco: u16) -> Vec<u8> {
    let mut bytes = vec![first];
    bytes.extend_from_slice(&seconds.to_be_bytes()[3..]);
    let both = u64::from(subseconds) << 13 | u64::from(utco);
    bytes.extend_from_slice(&both.to_be_bytes()[3..]);
    bytes
}

#[cfg(test)]
mod tests {
    use super::*;

    /// 8 MHz, second 1, its last unit (63,999,999 is 3D08FFF), utco 2. By hand:
    /// 3D08FFF shifted left by 13 bits is 7A11FFE000.
    const LAST_UNIT: [u8; 11] = [4, 0, 0, 0, 0, 1, 0x7A, 0x11, 0xFF, 0xE0, 0x02];

    #[test]
    fn hand_made_stamp() {
        let expected = Stamp {
            seconds: 1,
            refusal: 0,
            subseconds: 63_999_999,
            utco: 2,
            bw: 4,
            kind: 0,
        };
        assert_eq!(read(&LAST_UNIT), expected);
        let (written, out) = write(4, 1, 63_999_999, 2, &[0xAA; 12]);
        assert_eq!((written.refusal, written.bytes), (0, 11));
        assert_eq!((&out[..11], out[11]), (&LAST_UNIT[..], 0xAA));
    }

    /// 64,000,000 is 3D09000, shifted 7A12000000: a whole second at 8 MHz, and
    /// not at 10 MHz.
    #[test]
    fn a_whole_second() {
        let mut payload = [4, 0, 0, 0, 0, 0, 0x7A, 0x12, 0, 0, 0];
        assert_eq!(read(&payload).refusal, 25);
        assert_eq!(write(4, 0, 64_000_000, 0, &[0; 11]).0.refusal, 25);
        payload[0] = 5;
        assert_eq!(read(&payload).subseconds, 64_000_000);
    }

    /// 002, table 4 in units per second.
    #[test]
    fn seconds_of_each_bandwidth() {
        let seconds: Vec<u32> = (0..6).map(second).collect();
        assert_eq!(
            seconds,
            [
                131_000_000,
                40_000_000,
                48_000_000,
                56_000_000,
                64_000_000,
                80_000_000
            ]
        );
    }

    #[test]
    fn null_stamp_of_each_bandwidth() {
        for bw in 0..16 {
            let mut payload = [0xFF; 11];
            payload[0] = bw;
            let stamp = read(&payload);
            let expected = if bw > 5 { (24, 0) } else { (0, 2) };
            assert_eq!((stamp.refusal, stamp.kind), expected);
            let (written, _) = write(bw, NULL_SECONDS, NULL_SUBSECONDS, NULL_UTCO, &payload);
            assert_eq!(written.refusal, stamp.refusal);
        }
    }

    #[test]
    fn nearly_null_is_refused() {
        let mut payload = [0xFF; 11];
        payload[0] = 4;
        payload[10] = 0xFE;
        assert_eq!((read(&payload).refusal, read(&payload).kind), (25, 0));
    }

    /// Seconds all ones alone do not make a stamp null.
    #[test]
    fn the_last_second_is_absolute() {
        let payload = [4, 0xFF, 0xFF, 0xFF, 0xFF, 0xFF, 0, 0, 0, 0x1F, 0xFF];
        let stamp = read(&payload);
        assert_eq!((stamp.refusal, stamp.kind), (0, 0));
        assert_eq!((stamp.subseconds, stamp.utco), (0, NULL_UTCO));
    }

    /// The same stamp at second 0, and refused for a reserved bit.
    #[test]
    fn a_relative_stamp() {
        let mut payload = LAST_UNIT;
        payload[5] = 0;
        assert_eq!((read(&payload).seconds, read(&payload).kind), (0, 1));
        payload[0] |= 0x80;
        assert_eq!((read(&payload).refusal, read(&payload).kind), (20, 0));
    }

    #[test]
    fn other_refusals() {
        assert_eq!(read(&LAST_UNIT[..10]).refusal, 23);
        assert_eq!(read(&[0x14, 0, 0, 0, 0, 0, 0, 0, 0, 0, 0]).refusal, 20);
        assert_eq!(read(&[0x06, 0, 0, 0, 0, 0, 0, 0, 0, 0, 0]).refusal, 24);
        let refusal =
            |bw, seconds, sub, utco, room| write(bw, seconds, sub, utco, &vec![0; room]).0.refusal;
        assert_eq!(refusal(6, 1 << 40, 0, 0, 11), 24);
        assert_eq!(refusal(5, 1 << 40, 80_000_000, 0, 11), 38);
        assert_eq!(refusal(5, 0, 1 << 27, 0, 11), 38);
        assert_eq!(refusal(5, 0, 0, 1 << 13, 11), 38);
        assert_eq!(refusal(5, 0, 80_000_000, 0, 0), 25);
        assert_eq!(refusal(5, 0, 79_999_999, 0, 10), 16);
    }
}
