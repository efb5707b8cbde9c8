//! The wrapper hands every field to its place: what is written through it is read through it. Whether the library keeps
//! the rules is not asked here; that is proved, and compared in `tests/independent`.

use wasukpelon::sfn::*;

/// What a writer says of a field that is too wide.
const TOO_WIDE: Result<usize, Refusal> = Err(Refusal::TOO_WIDE_OR_UNFIT_STATE);

fn header() -> Header {
    Header {
        kind: 0x20,
        count: 0xc5,
        frame: 9,
        stream: 3,
        bits: 88,
    }
}

/// A T2-MI packet of 21 bytes.
fn packet() -> Vec<u8> {
    let mut out = [0; 64];
    let len = packet_write(header(), &[0x15; 11], &mut out).unwrap();
    out[..len].to_vec()
}

/// A T2-MI packet of so many bytes.
fn filled(size: usize) -> Vec<u8> {
    let payload = vec![0xa5; size - 10];
    let bits = 8 * payload.len() as u16;
    let mut out = vec![0; size];
    packet_write(Header { bits, ..header() }, &payload, &mut out).unwrap();
    out
}

#[test]
fn a_packet() {
    let bytes = packet();
    let read = packet_read(&bytes).unwrap();
    assert_eq!(read.header, header());
    assert_eq!(read.payload, [0x15; 11]);
    assert_eq!(crc(&bytes), 0);
    let unlike = Err(Refusal::LENGTH_UNLIKE_PAYLOAD_LEN);
    assert_eq!(packet_read(&bytes[1..]), unlike);
    // The header's fields that fill no Rust type can still be too wide.
    for wide in [
        Header {
            frame: 16,
            ..header()
        },
        Header {
            stream: 8,
            ..header()
        },
    ] {
        assert_eq!(packet_write(wide, &[0; 11], &mut [0; 64]), TOO_WIDE);
    }
}

/// The payload is as long as its bits say, up to the most that there are.
#[test]
fn payloads_of_some_lengths() {
    for bits in [0, 1, 8, 9, 65_535] {
        let payload = vec![0; usize::from(bits).div_ceil(8)];
        let mut out = [0; PACKET_MOST];
        let len = packet_write(Header { bits, ..header() }, &payload, &mut out).unwrap();
        let read = packet_read(&out[..len]).unwrap();
        assert_eq!((read.header.bits, read.payload), (bits, &payload[..]));
    }
}

#[test]
fn lengths_of_packets() {
    let (first, second) = (filled(10), packet());
    let both = [&first[..], &second[..]].concat();
    assert_eq!(packet_length(&first), Some(10));
    assert_eq!(packet_length(&first[..9]), None);
    assert_eq!(packet_length(&[]), None);
    assert_eq!(packet_length(&both), Some(10));
    assert!(packets(&both).eq([&first[..], &second[..]]));
    assert!(packets(&both[..30]).eq([&first[..]]));
    assert_eq!(packet_length(&filled(8201)), Some(8201));
}

#[test]
fn a_stamp_of_each_kind() {
    for (seconds, subseconds, utco, kind) in [
        (0x01_2345_6789, 0x012_3456, 0x1234, StampKind::Absolute),
        (0, 7, 8, StampKind::Relative),
        (0xff_ffff_ffff, 0x7ff_ffff, 0x1fff, StampKind::Null),
    ] {
        let stamp = Stamp {
            bw: 4,
            seconds,
            subseconds,
            utco,
        };
        let mut out = [0; 11];
        assert_eq!(stamp_write(stamp, &mut out), Ok(11));
        assert_eq!(stamp_read(&out), Ok((stamp, kind)));
        let utco = 0x2000;
        assert_eq!(stamp_write(Stamp { utco, ..stamp }, &mut out), TOO_WIDE);
    }
    assert_eq!(stamp_read(&[]), Err(Refusal::PAYLOAD_SIZE_WRONG));
}

#[test]
fn a_function_of_each_kind() {
    let body = &[1, 2, 3][..];
    for (tag, f) in [
        (0, Function::TimeOffset(-2)),
        (0, Function::TimeOffset(i16::MIN)),
        (1, Function::FrequencyOffset(-8_388_608)),
        (2, Function::Power(601)),
        (2, Function::Power(u16::MAX)),
        (3, Function::Private(body)),
        (
            4,
            Function::Cell {
                id: 0x1234,
                wait: true,
                reserved: 5,
            },
        ),
        (5, Function::Enabled(body)),
        (
            6,
            Function::Bandwidth {
                value: 0,
                wait: true,
            },
        ),
        (9, Function::Passed { tag: 9, body }),
    ] {
        let mut out = [0; 253];
        let len = function_write(f, &mut out).unwrap();
        assert_eq!(function_read(tag, &out[..len]), Ok(f));
    }
}

/// What Rust's types leave of refusal 38 (the module says what they take away).
#[test]
fn functions_that_are_too_wide() {
    let cell = Function::Cell {
        id: u16::MAX,
        wait: true,
        reserved: 128,
    };
    let bandwidth = Function::Bandwidth {
        value: 128,
        wait: false,
    };
    for f in [
        Function::FrequencyOffset(8_388_608),
        cell,
        bandwidth,
        Function::Private(&[0; 254]),
        Function::Passed { tag: 6, body: &[] },
    ] {
        assert_eq!(function_write(f, &mut [0; 254]), TOO_WIDE, "{f:?}");
    }
    let reserved = Function::Bandwidth {
        value: 127,
        wait: false,
    };
    let refused = Err(Refusal::BANDWIDTH_VALUE_RESERVED);
    assert_eq!(function_write(reserved, &mut [0; 1]), refused);
}

#[test]
fn addressing_for_one_transmitter() {
    // broadcast: bandwidth 0 with the wait flag; 0x0102: power 1; 0x0103: power 2
    let data = [0, 0, 3, 6, 3, 1, 1, 2, 4, 2, 4, 0, 1, 1, 3, 4, 2, 4, 0, 2];
    let mut out = [0; 64];
    let len = addressing_write(&data, &mut out).unwrap();
    assert_eq!(addressing_read(&out[..len]), Ok(&data[..]));
    let heard: Result<Vec<_>, _> = functions(&data, 0x0103).collect();
    assert_eq!(heard, Ok(vec![(6, &[1][..]), (2, &[0, 2][..])]));
    let refused: Vec<_> = functions(&data[..19], 0x0103).collect();
    assert_eq!(refused, [Err(Refusal::GROUP_CUT)]);
    let long: Vec<_> = functions(&[0; 256], 0x0103).collect();
    assert_eq!(long, [Err(Refusal::TOO_WIDE_OR_UNFIT_STATE)]);
}

#[test]
fn carried_and_gathered() {
    let batch = packet().repeat(20);
    let mut out = vec![0; carry_room(batch.len())];
    let carried = carry(0x1000, 14, &batch, &mut out).unwrap();
    assert_eq!((carried.packets, carried.next_count), (3, 1));
    let mut reader = Reader::start(0x1000).unwrap();
    let mut gathered = Vec::new();
    for transport in out.chunks(TRANSPORT).take(carried.packets) {
        let answer = reader.gather(transport).unwrap();
        assert!(!answer.loss && !answer.misfit && !answer.crc);
        gathered.extend(answer.packets.map(<[u8]>::to_vec));
    }
    assert_eq!(gathered, vec![packet(); 20]);
    let short = reader.gather(&out[..TRANSPORT - 1]).err();
    assert_eq!(short, Some(Refusal::TRANSPORT_NOT_188));
    let stranger = Reader::start(0).err();
    assert_eq!(stranger, Some(Refusal::PID_OUT_OF_RANGE));
}

/// What `include/sfn.h` says is always enough room, over the lengths where the writer's four cases meet.
#[test]
fn room_for_every_batch() {
    let mut out = vec![0; carry_room(2000)];
    for first in 10..1200 {
        for second in [0, 10, 183, 184, 366] {
            let mut batch = filled(first);
            if second > 0 {
                batch.extend(filled(second));
            }
            let room = carry_room(batch.len());
            let carried = carry(0x1000, 0, &batch, &mut out[..room]);
            assert!(carried.is_ok(), "{first} and {second} bytes");
        }
    }
}

#[test]
fn a_mip_and_its_site() {
    let mip = Mip {
        count: 11,
        pointer: 0x2345,
        periodic: true,
        future: 0x6789,
        stamp: 9_000_001,
        delay: 2_000_002,
        tps: 0x89ab_cdef,
        addressing: &[1, 2, 4, 0, 4, 0xff, 0xfe],
    };
    let mut out = [0; TRANSPORT];
    assert_eq!(mip_write(mip, &mut out), Ok(TRANSPORT));
    assert_eq!(mip_read(&out), Ok(mip));
    assert_eq!(emission(mip.stamp, mip.delay, -2), Ok(1_000_001));
    assert_eq!(
        extra_delay(mip.stamp, mip.delay, -2, 1_000_004),
        Ok(9_999_997)
    );
    let over = Err(Refusal::TIME_STAMP_OVER);
    assert_eq!(emission(10_000_000, 0, i16::MIN), over);
    let future = 0x8000;
    assert_eq!(mip_write(Mip { future, ..mip }, &mut out), TOO_WIDE);
}
