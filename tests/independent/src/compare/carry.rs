//! The batch writer.

use super::{hex, inputs, over, Outcome, Session};
use crate::ffi;
use crate::lent::Told;
use crate::model::carry::{self, MOST_BATCH, TRANSPORT};
use crate::prng::Prng;
use std::time::Instant;

/// Transport payloads end after 183 bytes of a batch and then every 184.
const LAST_BOUNDARY: usize = 183 + 184 * 44;

pub fn run(session: &mut Session, until: Instant) -> Outcome {
    any_short_bytes(session)?;
    every_pid_and_count(session)?;
    every_small_size(session)?;
    around_each_boundary(session)?;
    pairs_around_the_first_boundaries(session)?;
    largest_batches(session)?;
    every_damage(session)?;
    let mut size = session.prng.below(MOST_BATCH + 40);
    while !over(until) {
        // A step without common divisor, so that every size has its turn.
        size = (size + 25_117) % (MOST_BATCH + 40);
        any_batch_of_size(session, size)?;
        for _ in 0..20 {
            any_short_batch(session)?;
        }
    }
    Ok(())
}

fn carry(session: &mut Session, pid: u16, first_count: u8, batch: &[u8], room: usize) -> Outcome {
    let out = session.prng.bytes(room);
    let (answer, after) = carry::carry(pid, first_count, batch, &out);
    let model = Told::expected(answer, &[batch, &after]);
    let library = ffi::carry(pid, first_count, batch, &out);
    session.judge("carry", model, library, || {
        let arguments = format!("pid {pid:#06x}, first count {first_count}\n");
        arguments + &hex("batch", batch) + &hex("out", &out)
    })
}

/// A room that no batch of so many bytes can overrun: every transport packet but
/// the last carries 183 bytes of it or more.
fn enough_room(batch: &[u8]) -> usize {
    (batch.len() / 183 + 2) * TRANSPORT
}

/// The room that the batch needs, as the model has it.
fn exact_room(batch: &[u8]) -> usize {
    let (answer, _) = carry::carry(0x0020, 0, batch, &vec![0; enough_room(batch)]);
    answer.packets as usize * TRANSPORT
}

/// Exact, one byte short, and longer.
fn carry_into_each_room(session: &mut Session, batch: &[u8]) -> Outcome {
    let exact = exact_room(batch);
    let pid = session.prng.between(0x0020, 0x1FFE) as u16;
    let count = session.prng.below(16) as u8;
    for room in [exact, exact.saturating_sub(1), exact + 1, exact + 200] {
        carry(session, pid, count, batch, room)?;
    }
    Ok(())
}

fn batch(prng: &mut Prng, lengths: &[usize]) -> Vec<u8> {
    let packets = lengths
        .iter()
        .map(|length| inputs::packet_of_length(prng, *length));
    packets.collect::<Vec<_>>().concat()
}

/// Packets of about `usual` bytes that fill up exactly `size` bytes; a size
/// under 10 can't be filled and gives any bytes.
fn batch_of_size(prng: &mut Prng, size: usize, usual: usize) -> Vec<u8> {
    let mut batch = Vec::new();
    while batch.len() < size {
        let left = size - batch.len();
        if left < 10 {
            batch.extend(prng.bytes(left));
        } else if left < 20 {
            batch.extend(inputs::packet_of_length(prng, left));
        } else {
            // What is left over must be a packet again.
            let most = (left - 10).min(8_202).min(10 + usual);
            let length = match left {
                0..=8_202 if prng.one_in(20) => left,
                _ => prng.between(10, most),
            };
            batch.extend(inputs::packet_of_length(prng, length));
        }
    }
    batch
}

fn any_short_bytes(session: &mut Session) -> Outcome {
    for len in 0..=40 {
        let bytes = session.prng.bytes(len);
        carry(session, 0x1000, 3, &bytes, 400)?;
        carry(session, 0x1000, 3, &vec![0; len], 400)?;
        carry(session, 0x1000, 3, &inputs::repaired(&vec![0; len]), 400)?;
        carry(session, 0x1000, 3, &inputs::repaired(&vec![0; len]), len)?;
    }
    Ok(())
}

/// Every PID, every count, and each refusal before the others.
fn every_pid_and_count(session: &mut Session) -> Outcome {
    let batch = batch(&mut session.prng, &[10, 200]);
    for pid in 0..=0xFFFF {
        carry(session, pid, (pid % 16) as u8, &[], 0)?;
    }
    for count in 0..=255 {
        for pid in [0x001F, 0x0020, 0x1000, 0x1FFE, 0x1FFF, 0x3000] {
            carry(session, pid, count, &batch, 376)?;
            carry(session, pid, count, &batch[1..], 0)?;
        }
        carry(session, 0x1000, count, &[0; 65_537], 0)?;
        carry(session, 0x1FFF, count, &[0; 65_537], 0)?;
    }
    Ok(())
}

/// Batches of every size up to some transport packets, of short packets.
fn every_small_size(session: &mut Session) -> Outcome {
    for size in 0..=1_200 {
        for usual in [0, 30, 250] {
            let batch = batch_of_size(&mut session.prng, size, usual);
            carry_into_each_room(session, &batch)?;
        }
    }
    Ok(())
}

/// A first packet that ends around each boundary, alone and before others.
fn around_each_boundary(session: &mut Session) -> Outcome {
    let boundaries = (183..=LAST_BOUNDARY).step_by(184);
    for length in boundaries.flat_map(|boundary| boundary - 3..=boundary + 3) {
        let length = length.min(8_202);
        let first = inputs::packet_of_length(&mut session.prng, length);
        carry_into_each_room(session, &first)?;
        for second in [10, 183, 184, 185] {
            let mut both = first.clone();
            both.extend(inputs::packet_of_length(&mut session.prng, second));
            carry(session, 0x1234, 9, &both, enough_room(&both))?;
        }
    }
    Ok(())
}

/// Two packets of every pair of lengths around the first boundaries, and a short
/// third.
fn pairs_around_the_first_boundaries(session: &mut Session) -> Outcome {
    let near: Vec<usize> = [183, 367, 551]
        .iter()
        .flat_map(|at| at - 4..=at + 4)
        .collect();
    for first in &near {
        for second in near.iter().chain(&[10, 11, 12]) {
            let two = batch(&mut session.prng, &[*first, *second]);
            carry(session, 0x0ABC, 5, &two, enough_room(&two))?;
            let three = batch(&mut session.prng, &[*first, *second, 10]);
            carry(session, 0x0ABC, 5, &three, enough_room(&three))?;
        }
    }
    Ok(())
}

/// Just up to 65,536 bytes and beyond.
fn largest_batches(session: &mut Session) -> Outcome {
    for size in MOST_BATCH - 12..=MOST_BATCH + 12 {
        for usual in [0, 300, 8_202] {
            let batch = batch_of_size(&mut session.prng, size, usual);
            carry(session, 0x1FFE, 15, &batch, enough_room(&batch))?;
        }
    }
    Ok(())
}

/// Each bit of a batch flipped; each cut; each way to lie about a length.
fn every_damage(session: &mut Session) -> Outcome {
    let good = batch(&mut session.prng, &[10, 23, 200, 11]);
    let room = enough_room(&good);
    for bit in 0..good.len() * 8 {
        let mut damaged = good.clone();
        inputs::flip_bit(&mut damaged, bit);
        carry(session, 0x0100, 0, &damaged, room)?;
    }
    for len in 0..good.len() {
        carry(session, 0x0100, 0, &good[..len], room)?;
        carry(session, 0x0100, 0, &good[len..], room)?;
    }
    for at in [4, 5, 14, 15, 37, 38] {
        for byte in 0..=255 {
            let mut damaged = good.clone();
            damaged[at] = byte;
            carry(session, 0x0100, 0, &damaged, room)?;
        }
    }
    Ok(())
}

/// A batch of this size, sometimes with a fault.
fn any_batch_of_size(session: &mut Session, size: usize) -> Outcome {
    let prng = &mut session.prng;
    let usual = prng.pick(&[0, 20, 200, 400, 2_000, 8_202]);
    let mut batch = batch_of_size(prng, size, usual);
    if prng.one_in(8) {
        inputs::flip_any_bit(prng, &mut batch);
    }
    let exact = exact_room(&batch);
    let room = inputs::room(prng, exact);
    let (pid, count) = (prng.between(0x20, 0x1FFE) as u16, prng.below(16) as u8);
    carry(session, pid, count, &batch, room)
}

fn any_short_batch(session: &mut Session) -> Outcome {
    let prng = &mut session.prng;
    let (size, usual) = (prng.below(1_500), prng.pick(&[0, 20, 200, 400]));
    let mut batch = batch_of_size(prng, size, usual);
    match prng.below(6) {
        0 => inputs::flip_any_bit(prng, &mut batch),
        1 => inputs::change_length(prng, &mut batch),
        _ => {}
    }
    let exact = exact_room(&batch);
    let room = inputs::room(prng, exact);
    let pid = prng.number() as u16 >> prng.between(3, 6);
    let count = prng.byte() >> prng.between(3, 5);
    carry(session, pid, count, &batch, room)
}
