//! The reader of transport packets.

use super::ways::{self, Cutter};
use super::{hex, inputs, over, Outcome, Session};
use crate::ffi;
use crate::lent::Told;
use crate::model::answers::Reader;
use crate::model::carry::TRANSPORT;
use crate::model::gather::{self, LEAST_GATHERING, LEAST_OUTPUT, NO_COUNT};
use crate::model::packet::LONGEST;
use crate::prng::Prng;
use std::time::Instant;

pub fn run(session: &mut Session, until: Instant) -> Outcome {
    every_start(session)?;
    every_state(session)?;
    every_length(session)?;
    every_header(session)?;
    every_pointer(session)?;
    every_count(session)?;
    every_own_length(session)?;
    every_end_before_a_start(session)?;
    every_end_without_start(session)?;
    longest_packets(session)?;
    every_loss(session)?;
    while !over(until) {
        writers_journey(session)?;
        others_journey(session)?;
        for _ in 0..50 {
            any_state(session)?;
        }
    }
    Ok(())
}

const PID: u16 = 0x1000;

fn start(session: &mut Session, pid: u16) -> Outcome {
    let model = Told::expected(gather::start(pid), &[]);
    session.judge("start", model, ffi::start(pid), || {
        format!("pid {pid:#06x}")
    })
}

/// A reader's state and its gathering buffer between two calls.
#[derive(Clone)]
struct Receiver {
    reader: Reader,
    gathering: Vec<u8>,
}

impl Receiver {
    fn fresh(prng: &mut Prng, pid: u16) -> Receiver {
        Receiver {
            reader: gather::start(pid).reader,
            gathering: prng.bytes(LEAST_GATHERING),
        }
    }

    /// In step after count 4 with these bytes waiting.
    fn waiting(prng: &mut Prng, bytes: &[u8]) -> Receiver {
        let mut gathering = prng.bytes(LEAST_GATHERING);
        gathering[..bytes.len()].copy_from_slice(bytes);
        let reader = Reader {
            pid: PID,
            last: 4,
            in_step: 1,
            waiting: bytes.len() as u32,
        };
        Receiver { reader, gathering }
    }
}

/// One call, after which the receiver goes on.
fn take(session: &mut Session, receiver: &mut Receiver, transport: &[u8]) -> Outcome {
    take_with_room(session, receiver, transport, LEAST_OUTPUT)
}

fn take_with_room(
    session: &mut Session,
    receiver: &mut Receiver,
    transport: &[u8],
    room: usize,
) -> Outcome {
    let out = session.prng.bytes(room);
    let Receiver { reader, gathering } = receiver.clone();
    let (answer, gathered, after) = gather::gather(reader, transport, &gathering, &out);
    let model = Told::expected(answer, &[transport, &gathered, &after]);
    let library = ffi::gather(reader, transport, &gathering, &out);
    session.judge("gather", model, library, || {
        let slices = hex("transport", transport) + &hex("gathering", &gathering);
        format!("{reader:?}\n{slices}{}", hex("out", &out))
    })?;
    receiver.reader = answer.reader;
    receiver.gathering = gathered;
    Ok(())
}

fn every_start(session: &mut Session) -> Outcome {
    for pid in 0..=0xFFFF {
        start(session, pid)?;
    }
    Ok(())
}

/// Each part of the state at and beyond its ends, in all combinations.
fn every_state(session: &mut Session) -> Outcome {
    let waitings = [
        0,
        1,
        5,
        6,
        9,
        10,
        8_200,
        8_201,
        8_202,
        8_203,
        65_536,
        u32::MAX,
    ];
    for pid in [0, 0x001F, 0x0020, PID, 0x1FFE, 0x1FFF, 0x3000, 0xFFFF] {
        for last in [0, 4, 15, 16, 254, 255] {
            for in_step in [0, 1, 2, 255] {
                for waiting in waitings {
                    from_state(session, pid, last, in_step, waiting)?;
                }
            }
        }
    }
    for byte in 0..=255 {
        for waiting in [0, 3] {
            from_state(session, PID, byte, 0, waiting)?;
            from_state(session, PID, byte, 1, waiting)?;
            from_state(session, PID, 4, byte, waiting)?;
        }
    }
    Ok(())
}

/// A transport packet that could follow, and none at all.
fn from_state(session: &mut Session, pid: u16, last: u8, in_step: u8, waiting: u32) -> Outcome {
    let reader = Reader {
        pid,
        last,
        in_step,
        waiting,
    };
    let gathering = session.prng.bytes(LEAST_GATHERING);
    let mut receiver = Receiver { reader, gathering };
    let payload = session.prng.bytes(184);
    let start = session.prng.one_in(2);
    let transport = ways::transport(&mut session.prng, pid & 0x1FFF, 5, start, &payload);
    take(session, &mut receiver.clone(), &transport)?;
    take(session, &mut receiver, &[])
}

/// Each lent slice short, right and long, in all combinations.
fn every_length(session: &mut Session) -> Outcome {
    let payload = session.prng.bytes(184);
    let mut long = ways::transport(&mut session.prng, PID, 5, false, &payload);
    long.extend(session.prng.bytes(200));
    for len in (0..=40).chain([186, 187, 188, 189, 376]) {
        for gathering in [0, 10, 8_201, 8_202, 8_203, 9_000] {
            for room in [0, 10, 8_384, 8_385, 8_386, 9_000] {
                let mut receiver = Receiver::waiting(&mut session.prng, &[0, 0, 0]);
                receiver.gathering.resize(gathering, 0xDD);
                take_with_room(session, &mut receiver, &long[..len], room)?;
            }
        }
    }
    Ok(())
}

/// Every value of each header byte and of the adaptation field's length, with
/// bytes waiting and not.
fn every_header(session: &mut Session) -> Outcome {
    for at in 0..5 {
        for byte in 0..=255 {
            for waiting in [0, 12] {
                for control in [0x10, 0x30] {
                    let first = inputs::packet(&mut session.prng, 800);
                    let mut receiver = Receiver::waiting(&mut session.prng, &first[..waiting]);
                    let mut transport = session.prng.bytes(TRANSPORT);
                    transport[..4].copy_from_slice(&[0x47, 0x50, 0x00, control | 5]);
                    transport[4] = 20;
                    transport[at] = byte;
                    take(session, &mut receiver, &transport)?;
                }
            }
        }
    }
    Ok(())
}

/// Every pointer with every size of payload around it.
fn every_pointer(session: &mut Session) -> Outcome {
    for pointer in 0..=255 {
        let sizes = [
            1,
            2,
            3,
            pointer,
            pointer + 1,
            pointer + 2,
            pointer + 3,
            183,
            184,
        ];
        for size in sizes.into_iter().filter(|size| (1..=184).contains(size)) {
            let mut payload = session.prng.bytes(size);
            payload[0] = pointer as u8;
            let transport = ways::transport(&mut session.prng, PID, 5, true, &payload);
            let first = inputs::packet(&mut session.prng, 2_000);
            for waiting in [0, 3, 30] {
                let mut receiver = Receiver::waiting(&mut session.prng, &first[..waiting]);
                take(session, &mut receiver, &transport)?;
            }
        }
    }
    Ok(())
}

/// Every last count, none too, with every count that can come.
fn every_count(session: &mut Session) -> Outcome {
    for last in (0..=15).chain([NO_COUNT]) {
        for count in 0..=15 {
            for waiting in [0, 12] {
                for start in [false, true] {
                    for good in [false, true] {
                        follows(session, last, count, waiting, start, good)?;
                    }
                }
            }
        }
    }
    Ok(())
}

/// The rest of a packet, with a start also a second packet, good or not.
fn follows(
    session: &mut Session,
    last: u8,
    count: u8,
    waiting: usize,
    start: bool,
    good: bool,
) -> Outcome {
    let prng = &mut session.prng;
    let whole = inputs::packet(prng, 800);
    let mut receiver = Receiver::waiting(prng, &whole[..waiting]);
    receiver.reader.last = last;
    let mut payload = whole[waiting..].to_vec();
    if start {
        payload.insert(0, payload.len() as u8);
        payload.extend(inputs::packet(prng, 8));
    }
    if !good {
        let last_byte = payload.len() - 1;
        payload[last_byte] ^= 1;
    }
    let transport = ways::transport(prng, PID, count, start, &payload);
    take(session, &mut receiver, &transport)
}

/// Waiting bytes around their own length, as if the caller had altered them.
fn every_own_length(session: &mut Session) -> Outcome {
    for waiting in (0..=30).chain([200, 8_190, 8_200, 8_201]) {
        for own_bytes in (waiting.max(12) - 2..=waiting + 3).chain([10, 8_202]) {
            let bits = (own_bytes.min(LONGEST) - 10) * 8;
            let mut bytes = session.prng.bytes(waiting);
            if waiting > 5 {
                let said = bits.min(65_535) as u16;
                bytes[4..6].copy_from_slice(&said.to_be_bytes());
            }
            let receiver = Receiver::waiting(&mut session.prng, &bytes);
            for size in [1, 2, 5, 184] {
                for start in [false, true] {
                    let mut payload = session.prng.bytes(size);
                    payload[0] = (size / 2) as u8;
                    let transport = ways::transport(&mut session.prng, PID, 5, start, &payload);
                    take(session, &mut receiver.clone(), &transport)?;
                }
            }
        }
    }
    Ok(())
}

/// A packet of which `waiting` bytes wait and `needed` are still to come, good
/// or with a wrong CRC; none where no packet is so short.
fn split_packet(prng: &mut Prng, waiting: usize, needed: usize, good: bool) -> Option<Vec<u8>> {
    let length = waiting + needed;
    if !(10..=LONGEST).contains(&length) || needed == 0 {
        return None;
    }
    let mut packet = inputs::packet_of_length(prng, length);
    if !good {
        packet[length - 1] ^= 1 << prng.below(8);
    }
    Some(packet)
}

/// The packet's bytes still to come, cut or filled up to so many.
fn coming(prng: &mut Prng, packet: &[u8], waiting: usize, size: usize) -> Vec<u8> {
    let mut data = packet[waiting..].to_vec();
    data.extend(prng.bytes(size));
    data.truncate(size);
    data
}

/// A waiting packet and what comes of it: `before` bytes come before a start, or
/// without one; the packet needs `needed` more.
#[derive(Clone, Copy)]
struct Ending {
    before: usize,
    needed: usize,
    waiting: usize,
    good: bool,
}

type Ends = fn(&mut Session, Ending) -> Outcome;

/// The packet ends before, at and after the last of these bytes, with a right and a wrong CRC.
fn every_end(session: &mut Session, before: usize, ends: Ends) -> Outcome {
    let about = [before.saturating_sub(1), before, before + 1, before + 40];
    for needed in [1].into_iter().chain(about) {
        for waiting in [1, 5, 6, 9, 100] {
            for good in [false, true] {
                let ending = Ending {
                    before,
                    needed,
                    waiting,
                    good,
                };
                ends(session, ending)?;
            }
        }
    }
    Ok(())
}

/// At every place of a start.
fn every_end_before_a_start(session: &mut Session) -> Outcome {
    (0..=182).try_for_each(|pointer| every_end(session, pointer, ends_before_a_start))
}

/// Without a start, for every size of payload.
fn every_end_without_start(session: &mut Session) -> Outcome {
    (1..=184).try_for_each(|size| every_end(session, size, ends_without_start))
}

fn ends_before_a_start(session: &mut Session, ending: Ending) -> Outcome {
    let prng = &mut session.prng;
    let (pointer, waiting) = (ending.before, ending.waiting);
    let Some(packet) = split_packet(prng, waiting, ending.needed, ending.good) else {
        return Ok(());
    };
    let mut payload = vec![pointer as u8];
    payload.extend(coming(prng, &packet, waiting, pointer));
    // At least one byte stands at the start; the last packet may be cut.
    for _ in 0..prng.between(1, 3) {
        let length = prng.between(10, 60);
        payload.extend(inputs::packet_of_length(prng, length));
    }
    payload.truncate(prng.between(pointer + 2, 184));
    if prng.one_in(8) {
        inputs::flip_any_bit(prng, &mut payload[pointer + 1..]);
    }
    let transport = ways::transport(prng, PID, 5, true, &payload);
    let mut receiver = Receiver::waiting(prng, &packet[..waiting]);
    take(session, &mut receiver, &transport)
}

fn ends_without_start(session: &mut Session, ending: Ending) -> Outcome {
    let prng = &mut session.prng;
    let waiting = ending.waiting;
    let Some(packet) = split_packet(prng, waiting, ending.needed, ending.good) else {
        return Ok(());
    };
    let payload = coming(prng, &packet, waiting, ending.before);
    let transport = ways::transport(prng, PID, 5, false, &payload);
    let mut receiver = Receiver::waiting(prng, &packet[..waiting]);
    take(session, &mut receiver, &transport)
}

/// Packets of 8,202 bytes that end at the last places.
fn longest_packets(session: &mut Session) -> Outcome {
    for size in [1, 2, 10, 90, 180, 181, 182, 183, 184] {
        for needed in [size - 1, size, size + 1] {
            let waiting = LONGEST - needed;
            for good in [false, true] {
                let ending = Ending {
                    before: size,
                    needed,
                    waiting,
                    good,
                };
                ends_without_start(session, ending)?;
                if size <= 182 {
                    ends_before_a_start(session, ending)?;
                }
            }
        }
    }
    Ok(())
}

/// Losses of every length from 1 to 20 in the midst of a long packet, between
/// packets and before one.
fn every_loss(session: &mut Session) -> Outcome {
    for lost in 1..=20 {
        for from in 1..12 {
            let mut count = session.prng.below(16) as u8;
            let prng = &mut session.prng;
            let lengths = [600, 20, 8_000, 30, 400];
            let packets = lengths.map(|length| inputs::packet_of_length(prng, length));
            let sent = ways::written(PID, &mut count, &packets);
            let mut receiver = Receiver::fresh(&mut session.prng, PID);
            for (at, transport) in sent.iter().enumerate() {
                if !(from..from + lost).contains(&at) {
                    take(session, &mut receiver, transport)?;
                }
            }
        }
    }
    Ok(())
}

/// Batches of our writer, the count running on, on a lossy way.
fn writers_journey(session: &mut Session) -> Outcome {
    let pid = session.prng.between(0x0020, 0x1FFE) as u16;
    let mut count = session.prng.below(16) as u8;
    let one_loss_in = session.prng.pick(&[5, 20, 100, 10_000]);
    let mut receiver = Receiver::fresh(&mut session.prng, pid);
    for _ in 0..20 {
        let packets = ways::packets(&mut session.prng, false);
        let sent = ways::written(pid, &mut count, &packets);
        let arrived = ways::on_the_way(&mut session.prng, &sent, one_loss_in);
        for transport in arrived {
            take(session, &mut receiver, &transport)?;
        }
    }
    Ok(())
}

/// Packets and transport packets of any making; now and then the caller alters
/// the buffer between two calls.
fn others_journey(session: &mut Session) -> Outcome {
    let prng = &mut session.prng;
    let mut cutter = Cutter {
        pid: prng.between(0x0020, 0x1FFE) as u16,
        count: prng.below(16) as u8,
        short: prng.pick(&[0, 1, 4]),
        wrong: prng.pick(&[0, 5, 20]),
    };
    let one_loss_in = prng.pick(&[20, 100, 10_000]);
    let mut receiver = Receiver::fresh(prng, cutter.pid);
    receiver
        .gathering
        .resize(prng.pick(&[8_202, 8_203, 8_300]), 0xDD);
    for _ in 0..20 {
        let packets = ways::packets(&mut session.prng, true);
        let sent = cutter.cut(&mut session.prng, &packets);
        for transport in ways::on_the_way(&mut session.prng, &sent, one_loss_in) {
            let room = session.prng.pick(&[8_385, 8_385, 8_400]);
            take_with_room(session, &mut receiver, &transport, room)?;
            if session.prng.one_in(50) {
                inputs::flip_any_bit(&mut session.prng, &mut receiver.gathering[..8]);
            }
        }
    }
    Ok(())
}

/// Any state and any buffer, with a transport packet that could follow.
fn any_state(session: &mut Session) -> Outcome {
    let prng = &mut session.prng;
    let waiting = match prng.below(4) {
        0 => 0,
        1 => prng.between(1, 12),
        2 => prng.between(1, 300),
        _ => prng.between(1, 8_201),
    };
    let mut receiver = Receiver::waiting(prng, &[]);
    receiver.reader.waiting = waiting as u32;
    receiver.reader.last = prng.pick(&[4, 4, 4, 4, 5, 9, NO_COUNT]);
    if prng.one_in(3) {
        // An own length near what waits.
        let own = (waiting + prng.below(200)).clamp(12, LONGEST);
        let bits = ((own - 11) * 8) as u16;
        receiver.gathering[4..6].copy_from_slice(&bits.to_be_bytes());
    }
    let size = if prng.one_in(3) {
        prng.between(1, 184)
    } else {
        184
    };
    let mut payload = prng.bytes(size);
    let start = prng.one_in(2);
    if start {
        payload[0] = prng.below(size) as u8;
        plant_packets(prng, &mut payload);
    }
    let transport = ways::transport(prng, PID, 5, start, &payload);
    take(session, &mut receiver, &transport)
}

/// Puts packets at the place that the pointer shows, as far as there is room.
fn plant_packets(prng: &mut Prng, payload: &mut [u8]) {
    let mut at = 1 + usize::from(payload[0]);
    while at < payload.len() {
        let length = prng.between(10, 80);
        let mut packet = inputs::packet_of_length(prng, length);
        if prng.one_in(10) {
            inputs::flip_any_bit(prng, &mut packet);
        }
        let room = packet.len().min(payload.len() - at);
        payload[at..at + room].copy_from_slice(&packet[..room]);
        at += room;
    }
}
