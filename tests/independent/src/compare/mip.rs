//! Mega-frame Initialization Packets and the site timing sums.

use super::groups::{damaged, good_data, good_data_of_length, BAD};
use super::{hex, inputs, over, Outcome, Session};
use crate::ffi;
use crate::lent::Told;
use crate::model::crc::with_crc;
use crate::model::mip::{self, ADDRESSING, LENGTH, MOST_ADDRESSING, SECOND};
use crate::prng::Prng;
use std::time::Instant;

pub fn run(session: &mut Session, until: Instant) -> Outcome {
    every_length(session)?;
    every_header_byte(session)?;
    every_pair_of_lengths(session)?;
    every_single_flip(session)?;
    every_addressing_length(session)?;
    every_bad_place(session)?;
    times_and_stuffing(session)?;
    written_widths(session)?;
    every_small_field(session)?;
    timing_boundaries(session)?;
    while !over(until) {
        for _ in 0..20 {
            any_reading(session)?;
            any_writing(session)?;
            any_timing(session)?;
        }
    }
    Ok(())
}

fn read(session: &mut Session, packet: &[u8]) -> Outcome {
    let model = Told::expected(mip::read(packet), &[packet]);
    let library = ffi::mip_read(packet);
    session.judge("mip_read", model, library, || hex("packet", packet))
}

/// The arguments of a writing.
#[derive(Clone, Debug)]
struct Fields {
    count: u8,
    pointer: u16,
    periodic: u8,
    future: u16,
    stamp: u32,
    delay: u32,
    tps: u32,
    addressing: Vec<u8>,
}

impl Fields {
    fn good(prng: &mut Prng, addressing: Vec<u8>) -> Fields {
        Fields {
            count: prng.below(16) as u8,
            pointer: prng.number() as u16,
            periodic: prng.below(2) as u8,
            future: prng.below(0x8000) as u16,
            stamp: prng.below(SECOND as usize) as u32,
            delay: prng.below(SECOND as usize) as u32,
            tps: prng.number() as u32,
            addressing,
        }
    }

    /// The MIP of good fields.
    fn packet(&self) -> Vec<u8> {
        let (count, pointer, periodic, future) =
            (self.count, self.pointer, self.periodic, self.future);
        let (stamp, delay, tps) = (self.stamp, self.delay, self.tps);
        let data = &self.addressing;
        let out = [0; LENGTH];
        mip::write(
            count, pointer, periodic, future, stamp, delay, tps, data, &out,
        )
        .1
    }
}

fn write(session: &mut Session, fields: &Fields, room: usize) -> Outcome {
    let out = session.prng.bytes(room);
    let (count, pointer, periodic, future) =
        (fields.count, fields.pointer, fields.periodic, fields.future);
    let (stamp, delay, tps) = (fields.stamp, fields.delay, fields.tps);
    let data = &fields.addressing;
    let (answer, after) = mip::write(
        count, pointer, periodic, future, stamp, delay, tps, data, &out,
    );
    let model = Told::expected(answer, &[data, &after]);
    let library = ffi::mip_write(
        count, pointer, periodic, future, stamp, delay, tps, data, &out,
    );
    session.judge("mip_write", model, library, || {
        format!("{fields:?}\n{}", hex("out", &out))
    })
}

/// A good MIP with good addressing of up to so many bytes.
fn good_mip(prng: &mut Prng, most: usize) -> Vec<u8> {
    let data = good_data(prng, most);
    Fields::good(prng, data).packet()
}

/// The CRC mended where the MIP's own length byte says it stands, if it can.
fn mended(packet: &[u8]) -> Vec<u8> {
    if packet.len() != LENGTH {
        return packet.to_vec();
    }
    let data_end = ADDRESSING + usize::from(packet[20]);
    if data_end + 4 > LENGTH {
        return packet.to_vec();
    }
    let mut whole = with_crc(&packet[..data_end]);
    whole.extend_from_slice(&packet[data_end + 4..]);
    whole
}

fn read_mended_and_not(session: &mut Session, packet: &[u8]) -> Outcome {
    read(session, packet)?;
    read(session, &mended(packet))
}

fn every_length(session: &mut Session) -> Outcome {
    let mut long = good_mip(&mut session.prng, 20);
    long.extend([0xFF; LENGTH]);
    for len in (0..=40).chain(180..=196).chain([376]) {
        read(session, &long[..len])?;
        let bytes = session.prng.bytes(len);
        read(session, &bytes)?;
        let fields = Fields::good(&mut session.prng, vec![]);
        write(session, &fields, len)?;
    }
    Ok(())
}

/// Every value of each of the first five bytes.
fn every_header_byte(session: &mut Session) -> Outcome {
    for at in 0..5 {
        for byte in 0..=255 {
            let mut packet = good_mip(&mut session.prng, 60);
            packet[at] = byte;
            read_mended_and_not(session, &packet)?;
        }
    }
    Ok(())
}

/// Every section_length with every individual_addressing_length near it, and
/// each alone.
fn every_pair_of_lengths(session: &mut Session) -> Outcome {
    let good = good_mip(&mut session.prng, 40);
    for section in 0..=255_u8 {
        for addressing in 0..=255_u8 {
            let mut packet = good.clone();
            (packet[5], packet[20]) = (section, addressing);
            let near = section.abs_diff(addressing.wrapping_add(19)) <= 2;
            if near {
                read_mended_and_not(session, &packet)?;
            } else {
                read(session, &packet)?;
            }
        }
    }
    Ok(())
}

/// Each bit of a MIP flipped, stuffing and CRC too.
fn every_single_flip(session: &mut Session) -> Outcome {
    for length in [0, 7, 50, MOST_ADDRESSING - 1, MOST_ADDRESSING] {
        let data = good_data_of_length(&mut session.prng, length);
        let good = Fields::good(&mut session.prng, data).packet();
        for bit in 0..LENGTH * 8 {
            let mut damaged = good.clone();
            inputs::flip_bit(&mut damaged, bit);
            read_mended_and_not(session, &damaged)?;
        }
    }
    Ok(())
}

/// Addressing of every length up to and over 163, good and damaged.
fn every_addressing_length(session: &mut Session) -> Outcome {
    for length in (0..=170).chain([182, 200, 255, 256, 300]) {
        let good = good_data_of_length(&mut session.prng, length);
        let bad = damaged(&mut session.prng, &good);
        for data in [good, bad] {
            let mut fields = Fields::good(&mut session.prng, data);
            for room in [0, 187, 188, 189] {
                write(session, &fields, room)?;
            }
            read(session, &fields.packet())?;
            fields.count = 16;
            write(session, &fields, 188)?;
        }
    }
    Ok(())
}

/// Each kind of bad addressing, written, and read with the CRC right.
fn every_bad_place(session: &mut Session) -> Outcome {
    for data in BAD {
        let fields = Fields::good(&mut session.prng, data.to_vec());
        write(session, &fields, LENGTH)?;
        write(session, &fields, 0)?;
        let mut packet = Fields::good(&mut session.prng, vec![]).packet();
        packet[5] += data.len() as u8;
        packet[20] = data.len() as u8;
        packet[ADDRESSING..ADDRESSING + data.len()].copy_from_slice(data);
        packet[ADDRESSING + data.len() + 4..].fill(0xFF);
        read_mended_and_not(session, &packet)?;
    }
    Ok(())
}

/// Stamp and delay at their ends, with good stuffing and bad, so that 33, 34
/// and 35 meet.
fn times_and_stuffing(session: &mut Session) -> Outcome {
    let times = [0, 1, SECOND - 1, SECOND, SECOND + 1, 0xFF_FFFF];
    for stamp in times {
        for delay in times {
            for last in [0xFF, 0xFE, 0x00] {
                let mut packet = good_mip(&mut session.prng, 60);
                packet[10..13].copy_from_slice(&stamp.to_be_bytes()[1..]);
                packet[13..16].copy_from_slice(&delay.to_be_bytes()[1..]);
                packet[LENGTH - 1] = last;
                read_mended_and_not(session, &packet)?;
            }
        }
    }
    Ok(())
}

/// Each field at the ends of its width and beyond, with every room around 188.
fn written_widths(session: &mut Session) -> Outcome {
    let times = [0, 1, SECOND - 1, SECOND, (1 << 24) - 1, 1 << 24, u32::MAX];
    for stamp in times {
        for delay in times {
            for (count, periodic, future) in [(0, 0, 0), (15, 1, 0x7FFF), (16, 0, 0), (0, 2, 0)] {
                let mut fields = Fields::good(&mut session.prng, vec![]);
                (fields.stamp, fields.delay) = (stamp, delay);
                (fields.count, fields.periodic, fields.future) = (count, periodic, future);
                let room = inputs::room(&mut session.prng, LENGTH);
                write(session, &fields, room)?;
                write(session, &fields, LENGTH)?;
                fields.addressing = vec![0; 2];
                write(session, &fields, LENGTH)?;
            }
        }
    }
    Ok(())
}

/// Every count, every periodic flag and every future_use that C can give.
fn every_small_field(session: &mut Session) -> Outcome {
    for byte in 0..=255 {
        let mut fields = Fields::good(&mut session.prng, vec![]);
        fields.count = byte;
        write(session, &fields, LENGTH)?;
        let mut fields = Fields::good(&mut session.prng, vec![]);
        fields.periodic = byte;
        write(session, &fields, LENGTH)?;
    }
    for future in 0..=0xFFFF {
        let mut fields = Fields::good(&mut session.prng, vec![]);
        fields.future = future;
        write(session, &fields, LENGTH)?;
    }
    Ok(())
}

/// A good MIP with a few faults: its addressing, its times, any bits.
fn any_reading(session: &mut Session) -> Outcome {
    let prng = &mut session.prng;
    let mut packet = good_mip(prng, MOST_ADDRESSING);
    match prng.below(6) {
        0 => packet[10..13].copy_from_slice(&[0x98, 0x96, prng.byte()]),
        1 => packet[13..16].copy_from_slice(&[0x98, 0x96, prng.byte()]),
        2 => {
            let end = ADDRESSING + usize::from(packet[20]);
            let data = &mut packet[ADDRESSING..end];
            inputs::flip_any_bit(prng, data);
        }
        3 => inputs::flip_any_bit(prng, &mut packet),
        4 => inputs::flip_any_bit(prng, &mut packet[..25]),
        _ => {}
    }
    if prng.one_in(50) {
        inputs::change_length(prng, &mut packet);
    }
    if prng.one_in(4) {
        return read(session, &packet);
    }
    read(session, &mended(&packet))
}

fn any_writing(session: &mut Session) -> Outcome {
    let prng = &mut session.prng;
    let mut data = good_data(prng, 180);
    if prng.one_in(4) {
        data = damaged(prng, &data);
    }
    let mut fields = Fields::good(prng, data);
    match prng.below(8) {
        0 => fields.count = prng.byte() >> prng.below(8),
        1 => fields.periodic = prng.byte() >> prng.below(8),
        2 => fields.future = prng.number() as u16,
        3 => fields.stamp = prng.number() as u32 >> prng.below(32),
        4 => fields.delay = prng.number() as u32 >> prng.below(32),
        _ => {}
    }
    let room = inputs::room(prng, LENGTH);
    write(session, &fields, room)
}

fn emission(session: &mut Session, stamp: u32, delay: u32, offset: i32) -> Outcome {
    let model = Told::expected(mip::emission(stamp, delay, offset), &[]);
    let library = ffi::emission(stamp, delay, offset);
    session.judge("emission", model, library, || {
        format!("stamp {stamp}, delay {delay}, offset {offset}")
    })
}

fn extra_delay(session: &mut Session, stamp: u32, delay: u32, offset: i32, at: u32) -> Outcome {
    let model = Told::expected(mip::extra_delay(stamp, delay, offset, at), &[]);
    let library = ffi::extra_delay(stamp, delay, offset, at);
    session.judge("extra_delay", model, library, || {
        format!("stamp {stamp}, delay {delay}, offset {offset}, reception {at}")
    })
}

/// The ends of the times and beyond.
const TIMES: [u32; 12] = [
    0,
    1,
    5,
    32_768,
    SECOND / 2,
    SECOND - 32_768,
    SECOND - 1,
    SECOND,
    SECOND + 1,
    1 << 24,
    1 << 31,
    u32::MAX,
];

/// The ends of the offset and beyond.
const OFFSETS: [i32; 12] = [
    0,
    1,
    -1,
    32_767,
    -32_768,
    32_768,
    -32_769,
    65_535,
    65_536,
    -65_536,
    i32::MIN,
    i32::MAX,
];

fn timing_boundaries(session: &mut Session) -> Outcome {
    for stamp in TIMES {
        for delay in TIMES {
            for offset in OFFSETS {
                emission(session, stamp, delay, offset)?;
                for reception in TIMES {
                    extra_delay(session, stamp, delay, offset, reception)?;
                }
            }
        }
    }
    Ok(())
}

fn any_timing(session: &mut Session) -> Outcome {
    let prng = &mut session.prng;
    let mut time = || match prng.below(20) {
        0 => prng.number() as u32,
        _ => prng.below(SECOND as usize) as u32,
    };
    let (stamp, delay, reception) = (time(), time(), time());
    let offset = match prng.below(20) {
        0 => prng.number() as i32,
        _ => i32::from(prng.number() as i16),
    };
    emission(session, stamp, delay, offset)?;
    extra_delay(session, stamp, delay, offset, reception)
}
