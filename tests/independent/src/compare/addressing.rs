//! Addressing payloads, the walk and the functions.

use super::groups::{damaged, good_data, good_data_of_length, identifier, BAD};
use super::{hex, inputs, over, Outcome, Session};
use crate::ffi;
use crate::lent::Told;
use crate::model::addressing;
use std::time::Instant;

pub fn run(session: &mut Session, until: Instant) -> Outcome {
    short_payloads(session)?;
    every_small_data(session)?;
    two_bad_places(session)?;
    every_place(session)?;
    longest_data(session)?;
    every_body_length(session)?;
    every_body(session)?;
    every_kind_and_tag(session)?;
    every_value(session)?;
    every_written_length(session)?;
    while !over(until) {
        for _ in 0..20 {
            any_data(session)?;
            any_function(session)?;
        }
    }
    Ok(())
}

fn read(session: &mut Session, payload: &[u8]) -> Outcome {
    let model = Told::expected(addressing::read(payload), &[payload]);
    let library = ffi::addressing_read(payload);
    session.judge("addressing_read", model, library, || {
        hex("payload", payload)
    })
}

fn write(session: &mut Session, data: &[u8], room: usize) -> Outcome {
    let out = session.prng.bytes(room);
    let (answer, after) = addressing::write(data, &out);
    let model = Told::expected(answer, &[data, &after]);
    let library = ffi::addressing_write(data, &out);
    session.judge("addressing_write", model, library, || {
        hex("data", data) + &hex("out", &out)
    })
}

/// One step; gives the next place.
fn walk(session: &mut Session, data: &[u8], transmitter: u16, place: u32) -> Result<u32, String> {
    let answer = addressing::walk(data, transmitter, place);
    let model = Told::expected(answer, &[data]);
    let library = ffi::walk(data, transmitter, place);
    if answer.refusal == 38 {
        // 38 has two causes; each must be met.
        let cause = if data.len() > 255 { "long" } else { "place" };
        session.note("walk", cause);
    }
    session.judge("walk", model, library, || {
        format!(
            "{}transmitter {transmitter}, place {place}",
            hex("data", data)
        )
    })?;
    Ok(answer.next)
}

/// A whole walk, from 0 to the data's end and once more there.
fn walk_through(session: &mut Session, data: &[u8], transmitter: u16) -> Outcome {
    let mut place = walk(session, data, transmitter, 0)?;
    while (place as usize) < data.len() && place > 0 {
        place = walk(session, data, transmitter, place)?;
    }
    walk(session, data, transmitter, data.len() as u32)?;
    Ok(())
}

/// The data as a payload read and written, and walked through.
fn all_of(session: &mut Session, data: &[u8]) -> Outcome {
    let mut payload = vec![0, data.len() as u8];
    payload.extend_from_slice(data);
    read(session, &payload)?;
    write(session, data, data.len() + 2)?;
    walk_through(session, data, 0x0001)
}

/// Every small length: any bytes, and with the length byte right.
fn short_payloads(session: &mut Session) -> Outcome {
    for len in 0..=40 {
        for _ in 0..20 {
            let mut payload = session.prng.bytes(len);
            read(session, &payload)?;
            if len >= 2 {
                payload[1] = (len - 2) as u8;
                read(session, &payload)?;
                payload[0] = 0;
                read(session, &payload)?;
            }
        }
    }
    for first in 0..=255 {
        read(session, &[first, 0])?;
        read(session, &[first, 1])?;
    }
    Ok(())
}

/// All data of up to 8 bytes made of these few, behind two identifiers.
fn every_small_data(session: &mut Session) -> Outcome {
    const BYTES: [u8; 6] = [0, 1, 2, 3, 4, 6];
    for length in 0..=8_u32 {
        let free = length.saturating_sub(2);
        for number in 0..BYTES.len().pow(free) {
            let identifier = [0, (number % 2) as u8];
            let mut data = identifier[..(length - free) as usize].to_vec();
            let mut rest = number;
            for _ in 0..free {
                data.push(BYTES[rest % BYTES.len()]);
                rest /= BYTES.len();
            }
            all_of(session, &data)?;
        }
    }
    Ok(())
}

/// Each bad place alone, behind good data and before each other: the first in
/// byte order decides, or a header that does not hold.
fn two_bad_places(session: &mut Session) -> Outcome {
    for first in BAD {
        all_of(session, first)?;
        let mut behind = good_data(&mut session.prng, 200);
        behind.extend_from_slice(first);
        all_of(session, &behind)?;
        for second in BAD {
            let both = [first, second].concat();
            all_of(session, &both)?;
        }
    }
    Ok(())
}

/// Good and damaged data from every place, reached or not.
fn every_place(session: &mut Session) -> Outcome {
    for round in 0..60 {
        let mut data = good_data(&mut session.prng, 255);
        if round % 4 == 0 {
            data = damaged(&mut session.prng, &data);
        }
        for transmitter in [0x0000, 0x0001, 0x0100, 0x0101, 0xFFFF] {
            let far = [300, 65_536, 65_536 + 7, u32::MAX - 1, u32::MAX];
            for place in (0..=data.len() as u32 + 2).chain(far) {
                walk(session, &data, transmitter, place)?;
            }
        }
    }
    Ok(())
}

/// Data of the last lengths that fit and the first that do not, and damaged so.
fn longest_data(session: &mut Session) -> Outcome {
    for length in (250..=262).chain([300, 511, 512, 600]) {
        for _ in 0..20 {
            let good = good_data_of_length(&mut session.prng, length);
            let bad = damaged(&mut session.prng, &good);
            for data in [good, bad] {
                let exact = data.len() + 2;
                for room in [0, exact - 1, exact, exact + 1, exact + 40] {
                    write(session, &data, room)?;
                }
                all_of(session, &data)?;
            }
        }
    }
    Ok(())
}

fn any_data(session: &mut Session) -> Outcome {
    let prng = &mut session.prng;
    let most = prng.between(0, 255);
    let mut data = good_data(prng, most);
    if prng.one_in(2) {
        data = damaged(prng, &data);
    }
    let transmitter = identifier(prng);
    let room = inputs::room(prng, data.len() + 2);
    let place = prng.below(data.len() + 3) as u32;
    let mut payload = vec![0, data.len() as u8];
    payload.extend_from_slice(&data);
    if prng.one_in(4) {
        inputs::flip_any_bit(prng, &mut payload[..2]);
    }
    read(session, &payload)?;
    write(session, &data, room)?;
    walk(session, &data, transmitter, place)?;
    walk_through(session, &data, transmitter)
}

fn function_read(session: &mut Session, tag: u8, body: &[u8]) -> Outcome {
    let model = Told::expected(addressing::function_read(tag, body), &[body]);
    let library = ffi::function_read(tag, body);
    session.judge("function_read", model, library, || {
        format!("tag {tag}\n{}", hex("body", body))
    })
}

/// The arguments of a function's writing.
#[derive(Clone, Debug)]
struct Fields {
    kind: u8,
    tag: u8,
    value: i32,
    wait: u8,
    reserved: u8,
    bytes: Vec<u8>,
}

fn function_write(session: &mut Session, fields: &Fields, room: usize) -> Outcome {
    let out = session.prng.bytes(room);
    let Fields { bytes, .. } = fields;
    let (kind, tag, value) = (fields.kind, fields.tag, fields.value);
    let (wait, reserved) = (fields.wait, fields.reserved);
    let (answer, after) = addressing::function_write(kind, tag, value, wait, reserved, bytes, &out);
    let model = Told::expected(answer, &[bytes, &after]);
    let library = ffi::function_write(kind, tag, value, wait, reserved, bytes, &out);
    session.judge("function_write", model, library, || {
        format!("{fields:?}\n{}", hex("out", &out))
    })
}

fn every_body_length(session: &mut Session) -> Outcome {
    for tag in 0..=255 {
        for len in (0..=40).chain(250..=258).chain([509, 600]) {
            let body = session.prng.bytes(len);
            function_read(session, tag, &body)?;
        }
    }
    Ok(())
}

/// Every body of one and two bytes, and each byte of those of three.
fn every_body(session: &mut Session) -> Outcome {
    for number in 0..=0xFFFF_u16 {
        let [high, low] = number.to_be_bytes();
        function_read(session, 0, &[high, low])?;
        function_read(session, 2, &[high, low])?;
        function_read(session, 6, &[low])?;
        for tag in [1, 4] {
            let any = session.prng.byte();
            function_read(session, tag, &[high, low, any])?;
            function_read(session, tag, &[any, high, low])?;
        }
    }
    Ok(())
}

fn every_kind_and_tag(session: &mut Session) -> Outcome {
    for kind in 0..=255 {
        for tag in 0..=255 {
            let mut fields = Fields {
                kind,
                tag,
                value: 0,
                wait: 0,
                reserved: 0,
                bytes: vec![],
            };
            function_write(session, &fields, 3)?;
            fields.bytes = vec![7];
            function_write(session, &fields, 3)?;
        }
    }
    Ok(())
}

/// The ends of every width, with every wait and reserved around theirs.
fn every_value(session: &mut Session) -> Outcome {
    let ends = [
        0, 1, 2, 127, 128, 255, 256, 32_767, 32_768, 65_535, 65_536, 8_388_607, 8_388_608,
    ];
    let values = ends.into_iter().flat_map(|end| [end, -end, -end - 1]);
    for value in values.chain([i32::MIN, i32::MAX, 16_777_215, 16_777_216]) {
        for kind in 0..=8 {
            for wait in [0, 1, 2, 128, 255] {
                for reserved in [0, 1, 127, 128, 255] {
                    let tag = kind;
                    let bytes = vec![];
                    let fields = Fields {
                        kind,
                        tag,
                        value,
                        wait,
                        reserved,
                        bytes,
                    };
                    let room = session.prng.below(5);
                    function_write(session, &fields, room)?;
                    function_write(session, &fields, 4)?;
                }
            }
        }
    }
    Ok(())
}

/// Bodies around none and around 253 bytes, for every kind, in each room.
fn every_written_length(session: &mut Session) -> Outcome {
    for kind in 0..=8 {
        for len in (0..=6).chain(250..=258) {
            let fields = Fields {
                kind,
                tag: kind,
                value: 0,
                wait: 0,
                reserved: 0,
                bytes: session.prng.bytes(len),
            };
            for room in [0, len.saturating_sub(1), len, len + 1, len + 40] {
                function_write(session, &fields, room)?;
            }
        }
    }
    Ok(())
}

fn any_function(session: &mut Session) -> Outcome {
    let prng = &mut session.prng;
    let kind = prng.below(8) as u8;
    let len = match prng.below(4) {
        0 => prng.between(245, 258),
        1 => prng.below(300),
        _ => prng.below(8),
    };
    let has_bytes = [3, 5, 7].contains(&kind) != prng.one_in(20);
    let fields = Fields {
        kind,
        tag: match prng.below(20) {
            0 => prng.byte(),
            _ if kind == 7 => prng.between(7, 255) as u8,
            _ => kind,
        },
        value: prng.number() as i32 >> prng.below(32),
        wait: prng.byte() >> prng.below(8),
        reserved: prng.byte() >> prng.below(8),
        bytes: prng.bytes(if has_bytes { len } else { 0 }),
    };
    let room = inputs::room(prng, if has_bytes { len } else { 3 });
    let body = prng.bytes(len);
    function_read(session, fields.tag, &body)?;
    function_write(session, &fields, room)
}
