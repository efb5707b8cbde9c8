//! Rows of bytes and the fields that they stand for, both ways. They were laid out
//! by hand from 002, clause 5, and 000, table 1b and tables 6 to 14: neighbouring
//! fields are unlike each other and have their top bits set where 01 takes them so.
//! The CRCs are of another program. The statements of the proved library are held
//! against the same rows.

use super::answers::{Addressing, Carried, Function, Mip, Packet, Stamp, Written};
use super::{addressing, carry, gather, mip, packet, stamp};

/// Written into an output of just that size.
fn filled(bytes: &[u8]) -> (Written, Vec<u8>) {
    let written = Written {
        refusal: 0,
        bytes: bytes.len() as u32,
    };
    (written, bytes.to_vec())
}

fn blank(bytes: &[u8]) -> Vec<u8> {
    vec![0; bytes.len()]
}

/// 32 bytes and 5 bits, then 3 of pad.
fn payload_261() -> Vec<u8> {
    let mut payload: Vec<u8> = (0x01..=0x20).collect();
    payload.push(0xF8);
    payload
}

/// 002, clause 5.1: type 33, count A5, superframe C, nine bits of zeros, stream 5,
/// 261 bits.
#[test]
fn a_packet() {
    let payload = payload_261();
    let head = [0x33, 0xA5, 0xC0, 0x05, 0x01, 0x05];
    let bytes = [&head[..], &payload, &[0xD1, 0x53, 0x4C, 0xF1]].concat();
    let fields = Packet {
        refusal: 0,
        bits: 261,
        packet_type: 0x33,
        count: 0xA5,
        frame: 0xC,
        stream: 5,
    };
    assert_eq!(packet::read(&bytes), fields);
    assert_eq!(bytes[6..bytes.len() - 4], payload);
    let written = packet::write(0x33, 0xA5, 0xC, 5, 261, &payload, &blank(&bytes));
    assert_eq!(written, filled(&bytes));
}

/// 002, clause 5.2.7. In the first the last five bytes are 27 bits,
/// 100 0110 0101 0100 0011 0010 0001, and 13, 1 1010 0101 1100; the second is null.
#[test]
fn stamps() {
    let rows: [([u8; 11], Stamp); 2] = [
        (
            [
                0x05, 0x81, 0x23, 0x45, 0x67, 0x89, 0x8C, 0xA8, 0x64, 0x3A, 0x5C,
            ],
            Stamp {
                seconds: 0x81_2345_6789,
                refusal: 0,
                subseconds: 0x465_4321,
                utco: 0x1A5C,
                bw: 5,
                kind: stamp::ABSOLUTE,
            },
        ),
        (
            [
                0x03, 0xFF, 0xFF, 0xFF, 0xFF, 0xFF, 0xFF, 0xFF, 0xFF, 0xFF, 0xFF,
            ],
            Stamp {
                seconds: 0xFF_FFFF_FFFF,
                refusal: 0,
                subseconds: 0x7FF_FFFF,
                utco: 0x1FFF,
                bw: 3,
                kind: stamp::NULL,
            },
        ),
    ];
    for (bytes, fields) in rows {
        assert_eq!(stamp::read(&bytes), fields);
        let (seconds, subseconds) = (fields.seconds, fields.subseconds);
        let written = stamp::write(fields.bw, seconds, subseconds, fields.utco, &blank(&bytes));
        assert_eq!(written, filled(&bytes));
    }
    assert_eq!(stamp::UNITS, [131, 40, 48, 56, 64, 80]);
}

/// 000, tables 6 to 14: tag and body; value, wait flag and reserved bits; and the
/// bytes that are carried beside them.
#[test]
fn functions() {
    let rows: [(u8, &[u8], i32, u8, u8, &[u8]); 11] = [
        (0, &[0x8A, 0x5C], -30_116, 0, 0, &[]),
        (1, &[0x9B, 0x3C, 0x7D], -6_603_651, 0, 0, &[]),
        (2, &[0xC3, 0x51], 50_001, 0, 0, &[]),
        (3, &[0x9A, 0x00, 0xFF], 0, 0, 0, &[0x9A, 0x00, 0xFF]),
        (4, &[0xD2, 0xA7, 0xD5], 0xD2A7, 1, 0x55, &[]),
        (4, &[0x72, 0xA7, 0x6A], 0x72A7, 0, 0x6A, &[]),
        (5, &[0x04, 0x06], 0, 0, 0, &[0x04, 0x06]),
        (6, &[0x01], 0, 1, 0, &[]),
        (6, &[0x00], 0, 0, 0, &[]),
        (0xE7, &[0x80, 0x01], 0, 0, 0, &[0x80, 0x01]),
        (7, &[], 0, 0, 0, &[]),
    ];
    for (tag, body, value, wait, reserved, beside) in rows {
        let kind = tag.min(7);
        let fields = Function {
            refusal: 0,
            value,
            kind,
            tag,
            wait,
            reserved,
        };
        assert_eq!(addressing::function_read(tag, body), fields);
        let out = blank(body);
        let written = addressing::function_write(kind, tag, value, wait, reserved, beside, &out);
        assert_eq!(written, filled(body));
    }
}

/// For 8102, 7 bytes: a time offset, and a function of tag E7.
const OWN: [u8; 10] = [0x81, 0x02, 0x07, 0x00, 0x04, 0x8A, 0x5C, 0xE7, 0x03, 0x80];
/// For all, 11 bytes: power, bandwidth, tags enabled.
const BROADCAST: [u8; 14] = [
    0x00, 0x00, 0x0B, 0x02, 0x04, 0xC3, 0x51, 0x06, 0x03, 0x01, 0x05, 0x04, 0x04, 0x06,
];

/// The tags and bodies of a whole walk.
fn heard(data: &[u8], transmitter: u16) -> Vec<(u8, Vec<u8>)> {
    let mut functions = Vec::new();
    let mut walked = addressing::walk(data, transmitter, 0);
    while walked.given == 1 {
        let (start, body) = (walked.start as usize, walked.body as usize);
        functions.push((walked.tag, data[start..start + body].to_vec()));
        walked = addressing::walk(data, transmitter, walked.next);
    }
    assert_eq!(walked.refusal, 0);
    functions
}

/// 002, clause 5.2.8; 000, clause 6.
#[test]
fn an_addressing_payload() {
    let data = [&OWN[..], &BROADCAST].concat();
    let bytes = [&[0x00, 0x18], &data[..]].concat();
    let fields = Addressing {
        refusal: 0,
        bytes: 24,
    };
    assert_eq!(addressing::read(&bytes), fields);
    assert_eq!(addressing::write(&data, &blank(&bytes)), filled(&bytes));
    let to_all = [
        (2, vec![0xC3, 0x51]),
        (6, vec![0x01]),
        (5, vec![0x04, 0x06]),
    ];
    let own = [(0, vec![0x8A, 0x5C]), (0xE7, vec![0x80])];
    assert_eq!(heard(&data, 0x8102), [&own[..], &to_all].concat());
    assert_eq!(heard(&data, 0x0281), to_all);
}

/// 000, table 1b: count 14; section_length 29; pointer 9ABC; periodic, then 15 bits
/// of future_use; stamp and delay; tps_mip with P0 set; 10 bytes of addressing.
#[test]
fn a_mip() {
    let head = [
        0x47, 0x60, 0x15, 0x1E, 0x00, 0x1D, 0x9A, 0xBC, 0xDA, 0x3C, 0x8F, 0x1E, 0x2D, 0x91, 0x23,
        0x45, 0xB7, 0x65, 0x43, 0x21, 0x0A,
    ];
    let crc = [0x76, 0xC4, 0xB6, 0xF7];
    let bytes = [&head[..], &OWN, &crc, &[0xFF; 153]].concat();
    let fields = Mip {
        refusal: 0,
        stamp: 9_379_373,
        delay: 9_511_749,
        tps: 0xB765_4321,
        addressing: 10,
        pointer: 0x9ABC,
        future: 0x5A3C,
        count: 14,
        periodic: 1,
    };
    assert_eq!(mip::read(&bytes), fields);
    let (stamp, delay) = (9_379_373, 9_511_749);
    let out = blank(&bytes);
    let written = mip::write(14, 0x9ABC, 1, 0x5A3C, stamp, delay, 0xB765_4321, &OWN, &out);
    assert_eq!(written, filled(&bytes));
}

/// ISO/IEC 13818-1; 002, clause 6.1; 01, "Carriage: the writer". A packet of 384
/// bytes and one of 10, on PID 1ABC, counts from 11 on: a start and 183 bytes; 184
/// bytes; a start 17 bytes on, behind 156 bytes of adaptation field.
#[test]
fn transport_packets() {
    let head = [0x10, 0x07, 0x90, 0x03, 0x0B, 0xB0];
    let crc = [0x02, 0xF4, 0xB3, 0x12];
    let long = [&head[..], &[0x6E; 374], &crc].concat();
    let short = [0x30, 0x08, 0x90, 0x03, 0x00, 0x00, 0xF6, 0x0B, 0x1D, 0xAD];
    let first = [&[0x47, 0x5A, 0xBC, 0x1B, 0x00], &head[..], &[0x6E; 177]].concat();
    let second = [&[0x47, 0x1A, 0xBC, 0x1C], &[0x6E; 184][..]].concat();
    let field = [&[0x9B, 0x00], &[0xFF; 154][..]].concat();
    let front = [&[0x47, 0x5A, 0xBC, 0x3D], &field[..], &[0x11]].concat();
    let third = [&front[..], &[0x6E; 13], &crc, &short].concat();

    let batch = [&long[..], &short].concat();
    let stream = [&first[..], &second, &third].concat();
    let answer = Carried {
        refusal: 0,
        packets: 3,
        next_count: 14,
    };
    let carried = carry::carry(0x1ABC, 11, &batch, &blank(&stream));
    assert_eq!(carried, (answer, stream));

    let mut reader = gather::start(0x1ABC).reader;
    let mut buffer = vec![0; 8_202];
    let mut handed = Vec::new();
    for (transport, count) in [(first, 11), (second, 12), (third, 13)] {
        let (answer, after, out) = gather::gather(reader, &transport, &buffer, &[0; 8_385]);
        assert_eq!((answer.refusal, answer.reader.last), (0, count));
        handed.extend_from_slice(&out[..answer.bytes as usize]);
        (reader, buffer) = (answer.reader, after);
    }
    assert_eq!(handed, batch);
}
