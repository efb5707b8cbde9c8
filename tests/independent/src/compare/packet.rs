//! The register and T2-MI packets.

use super::inputs::{self, BITS};
use super::{hex, over, Outcome, Session};
use crate::ffi;
use crate::lent::Told;
use crate::model::{crc, packet};
use crate::prng::Prng;
use crate::vectors::VECTORS;
use std::time::Instant;

pub fn run(session: &mut Session, until: Instant) -> Outcome {
    registers(session)?;
    short_slices(session)?;
    every_payload_len(session)?;
    packets_back_to_back(session)?;
    every_type(session)?;
    every_single_flip(session)?;
    every_header_bit(session)?;
    every_pad(session)?;
    lying_lengths(session)?;
    every_frame_and_stream(session)?;
    written_bits(session)?;
    while !over(until) {
        for _ in 0..50 {
            any_register(session)?;
            any_lengths(session)?;
            any_reading(session)?;
            any_writing(session)?;
        }
    }
    Ok(())
}

fn register(session: &mut Session, bytes: &[u8]) -> Outcome {
    let model = Told::expected(crc::crc(bytes), &[bytes]);
    session.judge("crc", model, ffi::crc(bytes), || hex("bytes", bytes))
}

fn length(session: &mut Session, bytes: &[u8]) -> Outcome {
    let answer = packet::length(bytes);
    let facet = match answer as usize {
        0 => "cut",
        whole if whole == bytes.len() => "alone",
        _ => "behind",
    };
    session.note("packet_length", facet);
    let model = Told::expected(answer, &[bytes]);
    let library = ffi::packet_length(bytes);
    session.judge("packet_length", model, library, || hex("bytes", bytes))
}

/// Whatever is read, good or damaged, is asked for its length too.
fn read(session: &mut Session, slice: &[u8]) -> Outcome {
    length(session, slice)?;
    let model = Told::expected(packet::read(slice), &[slice]);
    let library = ffi::packet_read(slice);
    session.judge("packet_read", model, library, || hex("slice", slice))
}

/// The arguments of a writing.
#[derive(Clone, Debug)]
struct Fields {
    packet_type: u8,
    count: u8,
    frame: u8,
    stream: u8,
    bits: u32,
    payload: Vec<u8>,
}

impl Fields {
    fn good(prng: &mut Prng, bits: u32) -> Fields {
        Fields {
            packet_type: prng.pick(&packet::TYPES),
            count: prng.byte(),
            frame: prng.below(16) as u8,
            stream: prng.below(8) as u8,
            bits,
            payload: inputs::payload(prng, bits),
        }
    }
}

fn write(session: &mut Session, fields: &Fields, room: usize) -> Outcome {
    let out = session.prng.bytes(room);
    let Fields { payload, .. } = fields;
    let (packet_type, count) = (fields.packet_type, fields.count);
    let (frame, stream, bits) = (fields.frame, fields.stream, fields.bits);
    let (answer, after) = packet::write(packet_type, count, frame, stream, bits, payload, &out);
    let model = Told::expected(answer, &[payload, &after]);
    let library = ffi::packet_write(packet_type, count, frame, stream, bits, payload, &out);
    session.judge("packet_write", model, library, || {
        format!("{fields:?}\n{}", hex("out", &out))
    })
}

/// One byte short, exact, one over, and none at all.
fn write_into_each_room(session: &mut Session, fields: &Fields) -> Outcome {
    let exact = packet::total(fields.payload.len() * 8);
    for room in [0, exact - 1, exact, exact + 1, exact + 33] {
        write(session, fields, room)?;
    }
    Ok(())
}

fn registers(session: &mut Session) -> Outcome {
    for (_, bytes) in VECTORS {
        register(session, bytes)?;
    }
    for byte in 0..=255 {
        register(session, &[byte])?;
    }
    for len in 0..=40 {
        let bytes = session.prng.bytes(len);
        register(session, &bytes)?;
        register(session, &vec![0x00; len])?;
        register(session, &vec![0xFF; len])?;
    }
    Ok(())
}

/// Slices of every small length: any bytes, and a cut good packet.
fn short_slices(session: &mut Session) -> Outcome {
    let whole = inputs::packet(&mut session.prng, 240);
    for len in 0..=40 {
        let bytes = session.prng.bytes(len);
        read(session, &bytes)?;
        read(session, &vec![0x00; len])?;
        read(session, &inputs::repaired(&vec![0x00; len]))?;
        read(session, &whole[..len])?;
        read(session, &inputs::repaired(&whole[..len]))?;
    }
    Ok(())
}

/// Each payload_len that there is, in bytes that end a byte before its packet
/// does, with it, and a byte behind.
fn every_payload_len(session: &mut Session) -> Outcome {
    let mut bytes = session.prng.bytes(packet::LONGEST + 1);
    for said in 0..=0xFFFF_u16 {
        bytes[4..6].copy_from_slice(&said.to_be_bytes());
        let own = packet::total(usize::from(said));
        for len in own - 1..=own + 1 {
            length(session, &bytes[..len])?;
        }
    }
    Ok(())
}

/// Two good packets, cut at each place near the beginning and around both ends.
fn packets_back_to_back(session: &mut Session) -> Outcome {
    for bits in BITS {
        let first = inputs::packet(&mut session.prng, bits);
        let second = inputs::packet(&mut session.prng, 20);
        let both = [&first[..], &second[..]].concat();
        let ends = [first.len(), both.len()];
        let around = ends.into_iter().flat_map(|end| end - 9..=end + 9);
        for len in (0..=40).chain(around) {
            length(session, &both[..len.min(both.len())])?;
        }
        length(session, &second)?;
    }
    Ok(())
}

fn every_type(session: &mut Session) -> Outcome {
    for packet_type in 0..=255 {
        for bits in BITS {
            if bits > 3_000 && packet_type > 0x34 {
                continue;
            }
            let mut whole = inputs::packet(&mut session.prng, bits);
            whole[0] = packet_type;
            read(session, &inputs::repaired(&whole))?;
            let mut fields = Fields::good(&mut session.prng, bits);
            fields.packet_type = packet_type;
            write(session, &fields, whole.len())?;
        }
    }
    Ok(())
}

/// Each bit of some short packets flipped, with the CRC mended and not.
fn every_single_flip(session: &mut Session) -> Outcome {
    for bits in BITS.into_iter().filter(|bits| *bits < 300) {
        let good = inputs::packet(&mut session.prng, bits);
        for bit in 0..good.len() * 8 {
            let mut damaged = good.clone();
            inputs::flip_bit(&mut damaged, bit);
            read(session, &damaged)?;
            read(session, &inputs::repaired(&damaged))?;
        }
    }
    Ok(())
}

/// All values of the two bytes with the frame, the reserved bits and the stream.
fn every_header_bit(session: &mut Session) -> Outcome {
    for both in 0..=0xFFFF_u16 {
        let [third, fourth] = both.to_be_bytes();
        let packet_type = session.prng.pick(&[0x00, 0x33, 0x34]);
        let whole = packet::compose(packet_type, both as u8, third, fourth, 3, &[0xE0]);
        read(session, &whole)?;
    }
    Ok(())
}

/// Every last byte with every number of used bits, read and written.
fn every_pad(session: &mut Session) -> Outcome {
    for bits in 1..=16_u16 {
        for last in 0..=255 {
            let mut payload = vec![last];
            if bits > 8 {
                payload.insert(0, 0xFF);
            }
            read(session, &packet::compose(0x31, 1, 0x20, 3, bits, &payload))?;
            let mut fields = Fields::good(&mut session.prng, u32::from(bits));
            fields.payload = payload;
            write_into_each_room(session, &fields)?;
        }
    }
    Ok(())
}

/// The length field set beside the truth, the CRC mended.
fn lying_lengths(session: &mut Session) -> Outcome {
    for bits in BITS {
        let good = inputs::packet(&mut session.prng, bits);
        for off in [-65_535, -256, -16, -9, -8, -7, -1, 1, 7, 8, 9, 16, 256] {
            let mut lying = good.clone();
            let said = (bits as i32 + off).rem_euclid(65_536) as u16;
            lying[4..6].copy_from_slice(&said.to_be_bytes());
            read(session, &lying)?;
            read(session, &inputs::repaired(&lying))?;
        }
        for len in [good.len() - 1, good.len() + 1, good.len() + 4] {
            let mut unlike = good.clone();
            unlike.resize(len, 0);
            read(session, &unlike)?;
            read(session, &inputs::repaired(&unlike))?;
        }
    }
    Ok(())
}

fn every_frame_and_stream(session: &mut Session) -> Outcome {
    for frame in 0..=255 {
        for stream in 0..=255 {
            let mut fields = Fields::good(&mut session.prng, 5);
            (fields.frame, fields.stream) = (frame, stream);
            write(session, &fields, 11)?;
        }
    }
    Ok(())
}

/// Bit counts up to their ends and beyond, with payloads beside the right length.
fn written_bits(session: &mut Session) -> Outcome {
    let beyond = [65_536, 65_537, 65_543, 65_544, 131_072, 1 << 31, u32::MAX];
    for bits in BITS.into_iter().chain(beyond) {
        let right = packet::payload_bytes(bits as usize).min(9_000);
        for len in [0, right.saturating_sub(1), right, right + 1] {
            let mut fields = Fields::good(&mut session.prng, 0);
            fields.bits = bits;
            fields.payload = session.prng.bytes(len);
            write_into_each_room(session, &fields)?;
            fields.payload = vec![0; len];
            write_into_each_room(session, &fields)?;
        }
    }
    Ok(())
}

fn any_register(session: &mut Session) -> Outcome {
    let len = match session.prng.below(20) {
        0 => session.prng.below(9_000),
        _ => session.prng.below(300),
    };
    let bytes = session.prng.bytes(len);
    register(session, &bytes)
}

/// Some packets back to back, damaged or cut now and then: the length of each, as
/// a caller goes from one to the next.
fn any_lengths(session: &mut Session) -> Outcome {
    let prng = &mut session.prng;
    let mut bytes = Vec::new();
    for _ in 0..prng.between(1, 4) {
        let bits = inputs::any_bits(prng);
        bytes.extend(inputs::packet(prng, bits));
    }
    for _ in 0..prng.below(3) {
        inputs::flip_any_bit(prng, &mut bytes);
    }
    if prng.one_in(3) {
        inputs::change_length(prng, &mut bytes);
    }
    let mut rest = &bytes[..];
    loop {
        length(session, rest)?;
        match packet::length(rest) as usize {
            0 => return Ok(()),
            own => rest = &rest[own..],
        }
    }
}

fn any_reading(session: &mut Session) -> Outcome {
    let prng = &mut session.prng;
    let bits = inputs::any_bits(prng);
    let mut slice = inputs::packet(prng, bits);
    for _ in 0..prng.below(4) {
        match prng.below(6) {
            0 => inputs::change_length(prng, &mut slice),
            1 if slice.len() > 5 => slice[5] = prng.byte(),
            2 if !slice.is_empty() => slice[0] = prng.byte(),
            _ => inputs::flip_any_bit(prng, &mut slice),
        }
    }
    if prng.one_in(2) {
        slice = inputs::repaired(&slice);
    }
    read(session, &slice)
}

fn any_writing(session: &mut Session) -> Outcome {
    let prng = &mut session.prng;
    let bits = inputs::any_bits(prng);
    let mut fields = Fields::good(prng, bits);
    for _ in 0..prng.below(3) {
        match prng.below(6) {
            0 => fields.packet_type = prng.byte(),
            1 => fields.frame = prng.byte() & 0x1F,
            2 => fields.stream = prng.byte() & 0x0F,
            3 => fields.bits = prng.number() as u32 >> prng.below(32),
            4 => inputs::change_length(prng, &mut fields.payload),
            _ => inputs::flip_any_bit(prng, &mut fields.payload),
        }
    }
    let room = inputs::room(prng, packet::SHORTEST + fields.payload.len());
    write(session, &fields, room)
}
