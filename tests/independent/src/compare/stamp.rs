//! DVB-T2 timestamp payloads.

use super::{hex, inputs, over, Outcome, Session};
use crate::ffi;
use crate::lent::Told;
use crate::model::stamp::{self, NULL_SECONDS, NULL_SUBSECONDS, NULL_UTCO};
use crate::prng::Prng;
use std::time::Instant;

pub fn run(session: &mut Session, until: Instant) -> Outcome {
    short_payloads(session)?;
    every_first_byte(session)?;
    nearly_null(session)?;
    boundaries(session)?;
    every_single_bit(session)?;
    every_written_bandwidth(session)?;
    while !over(until) {
        for _ in 0..50 {
            any_reading(session)?;
            any_writing(session)?;
        }
    }
    Ok(())
}

/// The arguments of a writing.
#[derive(Clone, Copy, Debug)]
struct Fields {
    bw: u8,
    seconds: u64,
    subseconds: u32,
    utco: u16,
}

const NULL: Fields = Fields {
    bw: 4,
    seconds: NULL_SECONDS,
    subseconds: NULL_SUBSECONDS,
    utco: NULL_UTCO,
};

fn read(session: &mut Session, payload: &[u8]) -> Outcome {
    let model = Told::expected(stamp::read(payload), &[payload]);
    let library = ffi::stamp_read(payload);
    session.judge("stamp_read", model, library, || hex("payload", payload))
}

fn write(session: &mut Session, fields: Fields, room: usize) -> Outcome {
    let out = session.prng.bytes(room);
    let Fields {
        bw,
        seconds,
        subseconds,
        utco,
    } = fields;
    let (answer, after) = stamp::write(bw, seconds, subseconds, utco, &out);
    let model = Told::expected(answer, &[&after]);
    let library = ffi::stamp_write(bw, seconds, subseconds, utco, &out);
    session.judge("stamp_write", model, library, || {
        format!("{fields:?}\n{}", hex("out", &out))
    })
}

fn short_payloads(session: &mut Session) -> Outcome {
    for len in 0..=40 {
        let mut bytes = session.prng.bytes(len);
        read(session, &bytes)?;
        read(session, &vec![0; len])?;
        if len > 0 {
            bytes[0] = 4;
            read(session, &bytes)?;
        }
        write(session, NULL, len)?;
    }
    Ok(())
}

fn every_first_byte(session: &mut Session) -> Outcome {
    for first in 0..=255 {
        for rest in [[0x00; 10], [0xFF; 10], [0x55; 10]] {
            let mut payload = vec![first];
            payload.extend(rest);
            read(session, &payload)?;
        }
    }
    Ok(())
}

/// The null stamp with one bit cleared: not null any more, at any bandwidth.
fn nearly_null(session: &mut Session) -> Outcome {
    for bw in 0..=5 {
        for bit in 8..88 {
            let mut payload = vec![0xFF; 11];
            payload[0] = bw;
            inputs::flip_bit(&mut payload, bit);
            read(session, &payload)?;
        }
    }
    Ok(())
}

/// Each bandwidth with the ends of every field and around every second.
fn boundaries(session: &mut Session) -> Outcome {
    let mut subseconds = vec![
        0,
        1,
        NULL_SUBSECONDS - 1,
        NULL_SUBSECONDS,
        1 << 27,
        u32::MAX,
    ];
    for bw in 0..=5 {
        let second = stamp::second(bw);
        subseconds.extend([second - 1, second, second + 1]);
    }
    for bw in 0..=7 {
        for subseconds in &subseconds {
            for seconds in [0, 1, NULL_SECONDS - 1, NULL_SECONDS, 1 << 40, u64::MAX] {
                for utco in [0, 2, NULL_UTCO - 1, NULL_UTCO, 1 << 13, u16::MAX] {
                    let fields = Fields {
                        bw,
                        seconds,
                        subseconds: *subseconds,
                        utco,
                    };
                    read_and_write(session, fields)?;
                }
            }
        }
    }
    Ok(())
}

/// The payload of these fields where they fit their widths, and the writing of
/// them into each room around the right one.
fn read_and_write(session: &mut Session, fields: Fields) -> Outcome {
    let Fields {
        bw,
        seconds,
        subseconds,
        utco,
    } = fields;
    if seconds <= NULL_SECONDS && subseconds <= NULL_SUBSECONDS && utco <= NULL_UTCO {
        read(session, &stamp::compose(bw, seconds, subseconds, utco))?;
    }
    for room in [0, 10, 11, 12, 30] {
        write(session, fields, room)?;
    }
    Ok(())
}

/// Each bit of each field alone, so that none is taken for another.
fn every_single_bit(session: &mut Session) -> Outcome {
    for bit in 0..88 {
        let mut payload = vec![0; 11];
        inputs::flip_bit(&mut payload, bit);
        read(session, &payload)?;
        // The last of reserved, bw 5: the only one with room for 2 to the 26.
        payload[0] |= 5;
        read(session, &payload)?;
    }
    for bit in 0..64 {
        let seconds = Fields {
            bw: 0,
            seconds: 1 << bit,
            subseconds: 0,
            utco: 0,
        };
        write(session, seconds, 11)?;
        let both = Fields {
            bw: 0,
            seconds: 0,
            subseconds: 1 << (bit % 32),
            utco: 1 << (bit % 16),
        };
        write(session, both, 11)?;
    }
    Ok(())
}

fn every_written_bandwidth(session: &mut Session) -> Outcome {
    for bw in 0..=255 {
        write(session, Fields { bw, ..NULL }, 11)?;
        let zero = Fields {
            bw,
            seconds: 0,
            subseconds: 0,
            utco: 0,
        };
        write(session, zero, 11)?;
    }
    Ok(())
}

/// Mostly good fields, some of them null.
fn any_fields(prng: &mut Prng) -> Fields {
    let bw = prng.below(6) as u8;
    if prng.one_in(10) {
        return Fields { bw, ..NULL };
    }
    let second = stamp::second(bw) as usize;
    Fields {
        bw,
        seconds: match prng.below(8) {
            0 => 0,
            _ => prng.number() & NULL_SECONDS,
        },
        subseconds: match prng.below(4) {
            0 => (second - 2 + prng.below(4)) as u32,
            _ => prng.below(second) as u32,
        },
        utco: prng.below(1 << 13) as u16,
    }
}

fn any_reading(session: &mut Session) -> Outcome {
    let prng = &mut session.prng;
    let fields = any_fields(prng);
    let mut payload = stamp::compose(fields.bw, fields.seconds, fields.subseconds, fields.utco);
    for _ in 0..prng.below(3) {
        inputs::flip_any_bit(prng, &mut payload);
    }
    if prng.one_in(20) {
        inputs::change_length(prng, &mut payload);
    }
    read(session, &payload)
}

fn any_writing(session: &mut Session) -> Outcome {
    let prng = &mut session.prng;
    let mut fields = any_fields(prng);
    match prng.below(8) {
        0 => fields.bw = prng.byte(),
        1 => fields.seconds = prng.number() >> prng.below(64),
        2 => fields.subseconds = prng.number() as u32 >> prng.below(32),
        3 => fields.utco = prng.number() as u16 >> prng.below(16),
        _ => {}
    }
    let room = inputs::room(prng, stamp::LENGTH);
    write(session, fields, room)
}
