//! The CRC vectors: what a small proved program must print, line by line.

use crate::model::crc::crc;

/// Name and bytes.
///
/// - `check` is the published check input of CRC-32/MPEG-2 (result 0376e6e7).
/// - `all-ff`: the register starts at all ones, so four bytes ff are its own CRC.
/// - `pat`, `pmt-video` and `pmt-video-audio` are the sections which FFmpeg's
///   MPEG-TS muxer emits with its defaults (transport stream 1, service 1, PMT
///   on PID 0x1000, H.264 on 0x100, AAC on 0x101), as published in many dumps.
/// - The three T2-MI packets were laid out by hand from 002, clause 5.1: a null
///   timestamp for 8 MHz (count 5, superframe 1), 40 zero bits of type 0x12
///   (count 6, superframe 1), nine one bits of type 0x30 (count 255, superframe
///   15, stream 7). Their CRCs were found outside this program.
///
/// Each was checked in Python in two other ways: with zlib's reflected CRC-32 on
/// bit-reversed bytes, and by long division of one great integer.
pub const VECTORS: [(&str, &[u8]); 10] = [
    ("empty", &[]),
    ("zero", &[0x00]),
    ("check", b"123456789"),
    ("all-ff", &[0xFF, 0xFF, 0xFF, 0xFF]),
    (
        "pat",
        &[
            0x00, 0xB0, 0x0D, 0x00, 0x01, 0xC1, 0x00, 0x00, 0x00, 0x01, 0xF0, 0x00, 0x2A, 0xB1,
            0x04, 0xB2,
        ],
    ),
    (
        "pmt-video",
        &[
            0x02, 0xB0, 0x12, 0x00, 0x01, 0xC1, 0x00, 0x00, 0xE1, 0x00, 0xF0, 0x00, 0x1B, 0xE1,
            0x00, 0xF0, 0x00, 0x15, 0xBD, 0x4D, 0x56,
        ],
    ),
    (
        "pmt-video-audio",
        &[
            0x02, 0xB0, 0x17, 0x00, 0x01, 0xC1, 0x00, 0x00, 0xE1, 0x00, 0xF0, 0x00, 0x1B, 0xE1,
            0x00, 0xF0, 0x00, 0x0F, 0xE1, 0x01, 0xF0, 0x00, 0x2F, 0x44, 0xB9, 0x9B,
        ],
    ),
    (
        "timestamp-packet",
        &[
            0x20, 0x05, 0x10, 0x00, 0x00, 0x58, 0x04, 0xFF, 0xFF, 0xFF, 0xFF, 0xFF, 0xFF, 0xFF,
            0xFF, 0xFF, 0xFF, 0xC7, 0x44, 0x71, 0xB2,
        ],
    ),
    (
        "balancing-packet",
        &[
            0x12, 0x06, 0x10, 0x00, 0x00, 0x28, 0x00, 0x00, 0x00, 0x00, 0x00, 0x3A, 0x0A, 0xD1,
            0x50,
        ],
    ),
    (
        "padded-packet",
        &[
            0x30, 0xFF, 0xF0, 0x07, 0x00, 0x09, 0xFF, 0x80, 0xEF, 0xFE, 0x6F, 0xF9,
        ],
    ),
];

/// One line per vector: its name and the register after its bytes.
pub fn text() -> String {
    let lines = VECTORS
        .iter()
        .map(|(name, bytes)| format!("{name} {:08x}\n", crc(bytes)));
    lines.collect()
}

#[cfg(test)]
mod tests {
    use super::*;

    /// The registers as the other tools gave them.
    #[test]
    fn registers_known_from_outside() {
        let expected = "empty ffffffff\nzero 4e08bfb4\ncheck 0376e6e7\nall-ff 00000000\n\
            pat 00000000\npmt-video 00000000\npmt-video-audio 00000000\n\
            timestamp-packet 00000000\nbalancing-packet 00000000\npadded-packet 00000000\n";
        assert_eq!(text(), expected);
    }
}
