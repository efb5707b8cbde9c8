//! Carriage, the reader: transport packets into T2-MI packets. 01, "Carriage:
//! the reader"; 002, clause 6.1.

use super::answers::{Gathered, Reader, Started};
use super::carry::{pid_is_good, SYNC, TRANSPORT};
use super::crc::crc;
use super::packet::{own_length, HEADER, LONGEST};
use super::write_at_start;

/// The least gathering buffer: one packet.
pub const LEAST_GATHERING: usize = LONGEST;
/// The least output: a packet that waited and a transport packet's bytes.
pub const LEAST_OUTPUT: usize = 8_385;
/// `last` of a reader that has taken no packet yet.
pub const NO_COUNT: u8 = 255;

/// A fresh reader: out of step, with no count. Order of 01: 4.
pub fn start(pid: u16) -> Started {
    if !pid_is_good(pid) {
        return Started {
            refusal: 4,
            ..Started::default()
        };
    }
    Started {
        refusal: 0,
        reader: Reader {
            pid,
            last: NO_COUNT,
            in_step: 0,
            waiting: 0,
        },
    }
}

/// Takes one transport packet. Gives the answer and the contents of the
/// gathering buffer and of the output afterwards.
pub fn gather(
    reader: Reader,
    transport: &[u8],
    gathering: &[u8],
    out: &[u8],
) -> (Gathered, Vec<u8>, Vec<u8>) {
    let refusal = refusal_of(reader, transport, gathering.len(), out.len());
    if refusal != 0 {
        let answer = Gathered {
            refusal,
            reader,
            ..Gathered::default()
        };
        return (answer, gathering.to_vec(), out.to_vec());
    }
    let mut work = Work::new(reader, gathering);
    work.take(transport);
    let answer = Gathered {
        refusal: 0,
        reader: Reader {
            pid: reader.pid,
            last: count(transport),
            in_step: u8::from(work.in_step),
            waiting: work.waiting as u32,
        },
        bytes: work.handed_out.len() as u32,
        packets: work.packets,
        loss: u8::from(work.loss),
        misfit: u8::from(work.misfit),
        crc: u8::from(work.crc),
    };
    let out = write_at_start(out, &work.handed_out);
    (answer, work.gathering, out)
}

/// Order of 01: 38, 1, 2, 3, 5 to 12.
fn refusal_of(reader: Reader, transport: &[u8], gathering_len: usize, out_len: usize) -> u32 {
    if state_is_bad(reader) {
        return 38;
    }
    if transport.len() != TRANSPORT {
        return 1;
    }
    if gathering_len < LEAST_GATHERING {
        return 2;
    }
    if out_len < LEAST_OUTPUT {
        return 3;
    }
    refusal_of_transport(reader, transport)
}

/// 38 of a reader state, and what `sfn.h` adds: `in_step` is 0 or 1.
fn state_is_bad(reader: Reader) -> bool {
    let count_is_bad = reader.last > 15 && reader.last != NO_COUNT;
    let waits_out_of_step = reader.waiting > 0 && reader.in_step == 0;
    !pid_is_good(reader.pid)
        || count_is_bad
        || reader.in_step > 1
        || reader.waiting > 8_201
        || waits_out_of_step
}

/// 5 to 12.
fn refusal_of_transport(reader: Reader, transport: &[u8]) -> u32 {
    if transport[0] != SYNC {
        return 5;
    }
    if transport[1] & 0x80 != 0 {
        return 6;
    }
    if pid(transport) != reader.pid {
        return 7;
    }
    if transport[3] & 0xC0 != 0 {
        return 8;
    }
    if !has_payload(transport) {
        return 9;
    }
    if has_adaptation_field(transport) && transport[4] > 182 {
        return 10;
    }
    let payload = payload(transport);
    if has_start(transport) && 1 + usize::from(payload[0]) >= payload.len() {
        return 11;
    }
    if count(transport) == reader.last {
        return 12;
    }
    0
}

fn pid(transport: &[u8]) -> u16 {
    u16::from_be_bytes([transport[1] & 0x1F, transport[2]])
}

fn has_start(transport: &[u8]) -> bool {
    transport[1] & 0x40 != 0
}

/// Adaptation control 01 or 11.
fn has_payload(transport: &[u8]) -> bool {
    transport[3] & 0x10 != 0
}

/// Adaptation control 11, where there is a payload.
fn has_adaptation_field(transport: &[u8]) -> bool {
    transport[3] & 0x20 != 0
}

fn count(transport: &[u8]) -> u8 {
    transport[3] & 0x0F
}

/// What lies behind the header and the adaptation field, whose first byte
/// counts the bytes behind itself.
fn payload(transport: &[u8]) -> &[u8] {
    if has_adaptation_field(transport) {
        &transport[5 + usize::from(transport[4])..]
    } else {
        &transport[4..]
    }
}

/// What came of bytes that joined the waiting ones.
enum Joined {
    Unfinished,
    /// Handed out; so many bytes are over.
    Good {
        over: usize,
    },
    /// Finished, but its CRC is wrong.
    Bad,
}

/// The reader at work on one transport packet.
struct Work {
    last: u8,
    in_step: bool,
    waiting: usize,
    gathering: Vec<u8>,
    handed_out: Vec<u8>,
    packets: u32,
    loss: bool,
    misfit: bool,
    crc: bool,
}

impl Work {
    fn new(reader: Reader, gathering: &[u8]) -> Work {
        Work {
            last: reader.last,
            in_step: reader.in_step == 1,
            waiting: reader.waiting as usize,
            gathering: gathering.to_vec(),
            handed_out: Vec::new(),
            packets: 0,
            loss: false,
            misfit: false,
            crc: false,
        }
    }

    fn take(&mut self, transport: &[u8]) {
        self.look_for_a_loss(count(transport));
        self.look_for_an_altered_buffer();
        let payload = payload(transport);
        if has_start(transport) {
            let (before, from_start) = payload[1..].split_at(usize::from(payload[0]));
            self.take_with_start(before, from_start);
        } else {
            self.take_without_start(payload);
        }
    }

    fn fall_out_of_step(&mut self) {
        self.in_step = false;
        self.waiting = 0;
    }

    /// Rule 1. A count equal to the last was refused before.
    fn look_for_a_loss(&mut self, count: u8) {
        if self.last != NO_COUNT && count != (self.last + 1) % 16 {
            self.loss = true;
            self.fall_out_of_step();
        }
    }

    /// Rule 1, "Next": the waiting bytes already reach their own length, which
    /// they tell from their sixth on.
    fn look_for_an_altered_buffer(&mut self) {
        if self.waiting >= HEADER && self.waiting >= own_length(&self.gathering) {
            self.misfit = true;
            self.fall_out_of_step();
        }
    }

    /// Rule 2, and rule 4 for what is over.
    fn take_without_start(&mut self, data: &[u8]) {
        if !self.in_step {
            return;
        }
        if self.waiting == 0 {
            self.misfit = true;
            self.fall_out_of_step();
            return;
        }
        if let Joined::Good { over: 1.. } = self.join(data) {
            self.misfit = true;
            self.fall_out_of_step();
        }
    }

    /// Rule 3.
    fn take_with_start(&mut self, before: &[u8], from_start: &[u8]) {
        if self.waiting > 0 {
            match self.join(before) {
                Joined::Unfinished => self.misfit = true,
                // Over after a good packet: they belong to none while in step.
                Joined::Good { over } => self.misfit |= over > 0,
                // Out of step at that moment: the CRC mark alone.
                Joined::Bad => {}
            }
        } else if self.in_step && !before.is_empty() {
            self.misfit = true;
        }
        self.in_step = true;
        self.waiting = 0;
        self.follow(from_start);
    }

    /// Puts data behind the waiting bytes, up to the packet's own length (all of
    /// it while that is not known), and finishes the packet where it is reached.
    fn join(&mut self, data: &[u8]) -> Joined {
        let mut known = self.gathering[..self.waiting].to_vec();
        known.extend_from_slice(data);
        if known.len() < HEADER || known.len() < own_length(&known) {
            self.gathering[..known.len()].copy_from_slice(&known);
            self.waiting = known.len();
            return Joined::Unfinished;
        }
        let (packet, over) = known.split_at(own_length(&known));
        self.gathering[..packet.len()].copy_from_slice(packet);
        self.waiting = 0;
        if self.finish(packet) {
            Joined::Good { over: over.len() }
        } else {
            Joined::Bad
        }
    }

    /// Rule 4: hands a finished packet out, or drops it; true where it was good.
    fn finish(&mut self, packet: &[u8]) -> bool {
        if crc(packet) != 0 {
            self.crc = true;
            self.fall_out_of_step();
            return false;
        }
        self.handed_out.extend_from_slice(packet);
        self.packets += 1;
        true
    }

    /// Rule 3, from the start on: packet after packet by their own lengths; what
    /// is left waits. After a bad CRC the rest is passed over, for the one start
    /// of this transport packet lies behind.
    fn follow(&mut self, from_start: &[u8]) {
        let mut rest = from_start;
        while rest.len() >= HEADER && rest.len() >= own_length(rest) {
            let (packet, behind) = rest.split_at(own_length(rest));
            if !self.finish(packet) {
                return;
            }
            rest = behind;
        }
        self.gathering[..rest.len()].copy_from_slice(rest);
        self.waiting = rest.len();
    }
}

#[cfg(test)]
mod tests {
    use super::*;
    use crate::model::packet::compose;

    const PID: u16 = 0x0123;

    /// A good packet of so many bytes.
    fn packet(length: usize) -> Vec<u8> {
        let payload = vec![length as u8; length - 10];
        compose(0x00, 0, 0, 0, (payload.len() * 8) as u16, &payload)
    }

    /// The same with a wrong CRC.
    fn bad(length: usize) -> Vec<u8> {
        let mut packet = packet(length);
        packet[length - 1] ^= 1;
        packet
    }

    /// A transport packet with this payload, which an adaptation field fills up
    /// to the end; with `pointer` the start is set.
    fn transport(count: u8, pointer: Option<u8>, data: &[u8]) -> Vec<u8> {
        let mut payload: Vec<u8> = pointer.into_iter().collect();
        payload.extend_from_slice(data);
        let start = if pointer.is_some() { 0x41 } else { 0x01 };
        let mut bytes = vec![0x47, start, 0x23];
        if payload.len() == 184 {
            bytes.push(0x10 | count);
        } else {
            bytes.extend([0x30 | count, (183 - payload.len()) as u8]);
            bytes.resize(188 - payload.len(), 0xEE);
        }
        bytes.extend(payload);
        assert_eq!(bytes.len(), 188);
        bytes
    }

    /// A reader in step after count 4, these bytes waiting in a buffer of 0xBB.
    fn waiting(bytes: &[u8]) -> (Reader, Vec<u8>) {
        let reader = Reader {
            pid: PID,
            last: 4,
            in_step: 1,
            waiting: bytes.len() as u32,
        };
        (reader, write_at_start(&[0xBB; 8_202], bytes))
    }

    /// An answer in short: (in step, waiting, packets, loss, misfit, crc).
    type Short = (u8, u32, u32, u8, u8, u8);

    fn short(answer: Gathered) -> Short {
        let Gathered { reader, .. } = answer;
        assert_eq!(answer.refusal, 0);
        let (loss, misfit) = (answer.loss, answer.misfit);
        (
            reader.in_step,
            reader.waiting,
            answer.packets,
            loss,
            misfit,
            answer.crc,
        )
    }

    /// One call in step with `before` waiting, on count 5.
    fn after(before: &[u8], pointer: Option<u8>, data: &[u8]) -> (Short, Vec<u8>, Vec<u8>) {
        let (reader, gathering) = waiting(before);
        let bytes = transport(5, pointer, data);
        let (answer, gathering, out) = gather(reader, &bytes, &gathering, &[0xCC; 8_385]);
        assert_eq!((answer.reader.pid, answer.reader.last), (PID, 5));
        let handed_out = out[..answer.bytes as usize].to_vec();
        assert!(out[answer.bytes as usize..]
            .iter()
            .all(|byte| *byte == 0xCC));
        (short(answer), gathering, handed_out)
    }

    #[test]
    fn fresh_reader() {
        let reader = start(PID).reader;
        let expected = Reader {
            pid: PID,
            last: 255,
            in_step: 0,
            waiting: 0,
        };
        assert_eq!(reader, expected);
        assert_eq!((start(0x001F).refusal, start(0x1FFF).refusal), (4, 4));
        assert_eq!(start(0x1FFF).reader, Reader::default());
    }

    /// Rule 2: out of step, the data is passed over without any mark.
    #[test]
    fn out_of_step_without_start() {
        let reader = start(PID).reader;
        let bytes = transport(9, None, &[1; 184]);
        let (answer, gathering, _) = gather(reader, &bytes, &[0xBB; 8_202], &[0; 8_385]);
        assert_eq!(short(answer), (0, 0, 0, 0, 0, 0));
        assert_eq!(answer.reader.last, 9);
        assert_eq!(gathering, [0xBB; 8_202]);
    }

    /// Rule 2: in step with nothing waiting.
    #[test]
    fn nothing_waiting_without_start() {
        let (answer, gathering, _) = after(&[], None, &[1; 3]);
        assert_eq!(answer, (0, 0, 0, 0, 1, 0));
        assert_eq!(gathering, [0xBB; 8_202]);
    }

    /// Rule 2 and 4: joined, finished, and with a byte over.
    #[test]
    fn joined_without_start() {
        let whole = packet(20);
        let (answer, gathering, _) = after(&whole[..3], None, &whole[3..5]);
        assert_eq!(answer, (1, 5, 0, 0, 0, 0));
        assert_eq!((&gathering[..5], gathering[5]), (&whole[..5], 0xBB));
        let (answer, gathering, out) = after(&whole[..5], None, &whole[5..]);
        assert_eq!((answer, &out), ((1, 0, 1, 0, 0, 0), &whole));
        assert_eq!((&gathering[..20], gathering[20]), (&whole[..], 0xBB));
        let mut more = whole[5..].to_vec();
        more.push(0x77);
        let (answer, gathering, out) = after(&whole[..5], None, &more);
        assert_eq!((answer, &out), ((0, 0, 1, 0, 1, 0), &whole));
        assert_eq!(gathering[20], 0xBB);
    }

    /// Rule 4: a bad CRC, with and without bytes over: the CRC mark alone.
    #[test]
    fn bad_without_start() {
        let mut whole = bad(20);
        whole.push(0x77);
        for end in [20, 21] {
            let (answer, gathering, out) = after(&whole[..7], None, &whole[7..end]);
            assert_eq!((answer, out.len()), ((0, 0, 0, 0, 0, 1), 0));
            assert_eq!((&gathering[..20], gathering[20]), (&whole[..20], 0xBB));
        }
    }

    /// Rule 3: finished before the start, good and bad, with bytes over or not.
    #[test]
    fn finished_before_the_start() {
        let next = packet(12);
        for over in 0..2 {
            for (whole, handed, crc) in [(packet(20), 1, 0), (bad(20), 0, 1)] {
                let mut data = whole[8..].to_vec();
                data.resize(12 + over, 0x77);
                let pointer = Some(data.len() as u8);
                data.extend(&next[..10]);
                let (answer, gathering, out) = after(&whole[..8], pointer, &data);
                let misfit = u8::from(handed == 1 && over == 1);
                assert_eq!(answer, (1, 10, handed, 0, misfit, crc));
                assert_eq!(out.len(), 20 * handed as usize);
                // The finished packet lies under the new waiting bytes.
                assert_eq!(gathering[..10], next[..10]);
                assert_eq!((&gathering[10..20], gathering[20]), (&whole[10..], 0xBB));
            }
        }
    }

    /// Rule 3: unfinished at the start; also with pointer 0.
    #[test]
    fn unfinished_at_the_start() {
        let (whole, next) = (packet(20), packet(10));
        for joined in [0, 11] {
            let mut data = whole[8..8 + joined].to_vec();
            data.extend(&next);
            let (answer, gathering, out) = after(&whole[..8], Some(joined as u8), &data);
            assert_eq!((answer, &out), ((1, 0, 1, 0, 1, 0), &next));
            assert_eq!(gathering[..8 + joined], whole[..8 + joined]);
            assert_eq!(gathering[8 + joined], 0xBB);
        }
    }

    /// Rule 3: bytes that belong to none, in step and out of step.
    #[test]
    fn bytes_of_no_packet() {
        let mut data = vec![0x77; 2];
        data.extend(packet(10));
        let (answer, gathering, _) = after(&[], Some(2), &data);
        assert_eq!(answer, (1, 0, 1, 0, 1, 0));
        assert_eq!(gathering, [0xBB; 8_202]);
        let bytes = transport(3, Some(2), &data);
        let (answer, _, _) = gather(start(PID).reader, &bytes, &gathering, &[0; 8_385]);
        assert_eq!(short(answer), (1, 0, 1, 0, 0, 0));
    }

    /// Rule 4: a bad packet from the start on; the rest is passed over.
    #[test]
    fn bad_after_the_start() {
        let mut data = packet(10);
        data.extend(bad(11));
        data.extend(packet(10));
        let (answer, gathering, out) = after(&[], Some(0), &data);
        assert_eq!((answer, out), ((0, 0, 1, 0, 0, 1), packet(10)));
        assert_eq!(gathering, [0xBB; 8_202]);
    }

    /// Rule 1, "Next": ten bytes wait and say that they are a whole packet.
    #[test]
    fn altered_buffer() {
        let whole = packet(10);
        let (answer, gathering, _) = after(&whole, None, &[0x77; 4]);
        assert_eq!(answer, (0, 0, 0, 0, 1, 0));
        assert_eq!(gathering[10], 0xBB);
        let (answer, _, out) = after(&whole, Some(0), &packet(12));
        assert_eq!((answer, out), ((1, 0, 1, 0, 1, 0), packet(12)));
    }

    /// 01, bench examples, and both sides of them: after count 4 come the counts
    /// 4 + 15, 4 + 16 and 4 + 17 modulo 16.
    #[test]
    fn losses() {
        let (reader, gathering) = waiting(&packet(20)[..8]);
        let arrives = |lost: u8| {
            let bytes = transport((5 + lost) % 16, None, &packet(20)[8..]);
            gather(reader, &bytes, &gathering, &[0; 8_385]).0
        };
        for lost in 1..=14 {
            assert_eq!(short(arrives(lost)), (0, 0, 0, 1, 0, 0));
        }
        assert_eq!((arrives(15).refusal, arrives(15).reader), (12, reader));
        assert_eq!(short(arrives(16)), (1, 0, 1, 0, 0, 0));
    }

    #[test]
    fn refused_states() {
        let good = waiting(&[1, 2]).0;
        let bytes = transport(5, None, &[1]);
        let with = |change: fn(&mut Reader)| {
            let mut reader = good;
            change(&mut reader);
            let (answer, _, _) = gather(reader, &bytes[..0], &[], &[]);
            assert_eq!(answer.reader, reader);
            answer.refusal
        };
        // 1 comes after 38: the state was good.
        assert_eq!(with(|_| {}), 1);
        assert_eq!(with(|reader| reader.last = 255), 1);
        assert_eq!(with(|reader| reader.waiting = 8_201), 1);
        assert_eq!(with(|reader| reader.pid = 0x001F), 38);
        assert_eq!(with(|reader| reader.last = 16), 38);
        assert_eq!(with(|reader| reader.last = 254), 38);
        assert_eq!(with(|reader| reader.in_step = 2), 38);
        assert_eq!(with(|reader| reader.in_step = 0), 38);
        assert_eq!(with(|reader| reader.waiting = 8_202), 38);
    }

    #[test]
    fn refusals_one_by_one() {
        let (reader, gathering) = waiting(&[]);
        let good = transport(5, Some(2), &[1; 3]);
        let with = |at: usize, byte: u8| {
            let mut bytes = good.clone();
            bytes[at] = byte;
            gather(reader, &bytes, &gathering, &[0; 8_385]).0.refusal
        };
        assert_eq!(with(0, 0x47), 0);
        let (short, low) = (&good[..187], &gathering[..8_201]);
        assert_eq!(gather(reader, short, low, &[]).0.refusal, 1);
        assert_eq!(gather(reader, &good, low, &[]).0.refusal, 2);
        assert_eq!(gather(reader, &good, &gathering, &[0; 8_384]).0.refusal, 3);
        assert_eq!(with(0, 0x46), 5);
        assert_eq!(with(1, 0xC0), 6);
        assert_eq!(with(2, 0x24), 7);
        assert_eq!(with(3, 0x75), 8);
        assert_eq!((with(3, 0x05), with(3, 0x25)), (9, 9));
        assert_eq!((with(4, 183), with(4, 255)), (10, 10));
        // One byte of payload, with a start: there is nothing to point at.
        assert_eq!(with(4, 182), 11);
        assert_eq!(with(184, 3), 11);
        assert_eq!(with(3, 0x34), 12);
    }
}
