//! Demand 3, tried on the model alone: writer, a lossy way, reader.

use super::answers::Reader;
use super::carry::{carry, TRANSPORT};
use super::gather::{gather, start};
use super::packet::own_length;
use crate::compare::inputs;
use crate::prng::Prng;

const PID: u16 = 0x0777;

/// One of the writer's transport packets on its way.
struct Sent {
    bytes: Vec<u8>,
    arrives: bool,
    /// A run with arrivals before it was lost directly before this one.
    after_a_run: bool,
}

/// A T2-MI packet and the transport packets that carry bytes of it.
struct Carriers {
    packet: Vec<u8>,
    carriers: std::ops::RangeInclusive<usize>,
}

/// Batches of one to a few packets, the count running on.
fn send(prng: &mut Prng) -> (Vec<Sent>, Vec<Carriers>) {
    let (mut sent, mut carried) = (Vec::new(), Vec::new());
    let mut count = prng.below(16) as u8;
    for _ in 0..40 {
        let mut batch = Vec::new();
        let mut bounds = vec![0];
        for _ in 0..prng.between(1, 4) {
            let length = prng.between(10, 700);
            batch.extend(inputs::packet_of_length(prng, length));
            bounds.push(batch.len());
        }
        let (answer, out) = carry(PID, count, &batch, &[0; 10_000]);
        count = answer.next_count;
        let first = sent.len();
        let stream = &out[..answer.packets as usize * TRANSPORT];
        let owners: Vec<usize> = stream
            .chunks(TRANSPORT)
            .enumerate()
            .flat_map(owner)
            .collect();
        for bound in bounds.windows(2) {
            carried.push(Carriers {
                packet: batch[bound[0]..bound[1]].to_vec(),
                carriers: first + owners[bound[0]]..=first + owners[bound[1] - 1],
            });
        }
        sent.extend(stream.chunks(TRANSPORT).map(|bytes| Sent {
            bytes: bytes.to_vec(),
            arrives: true,
            after_a_run: false,
        }));
    }
    (sent, carried)
}

/// For each batch byte in this transport packet, the packet's number.
fn owner((number, bytes): (usize, &[u8])) -> Vec<usize> {
    let field = if bytes[3] & 0x20 != 0 {
        1 + usize::from(bytes[4])
    } else {
        0
    };
    let pointer = usize::from(bytes[1] & 0x40 != 0);
    vec![number; 184 - field - pointer]
}

/// Loses any number at both ends, and between them runs of 1 to 14 with at least
/// one arrival between two runs.
fn lose(prng: &mut Prng, sent: &mut [Sent]) {
    let from = prng.below(20);
    let to = sent.len() - prng.below(20);
    for (at, each) in sent.iter_mut().enumerate() {
        each.arrives = (from..to).contains(&at);
    }
    let mut at = from + prng.between(1, 30);
    loop {
        let run = prng.between(1, 14);
        if at + run >= to {
            return;
        }
        sent[at..at + run]
            .iter_mut()
            .for_each(|each| each.arrives = false);
        sent[at + run].after_a_run = true;
        at += run + prng.between(1, 12);
    }
}

/// What may stand anywhere: another PID, or an error mark.
fn disturbance(prng: &mut Prng) -> Vec<u8> {
    let mut bytes = prng.bytes(TRANSPORT);
    bytes[0] = 0x47;
    if prng.one_in(2) {
        bytes[1] |= 0x80;
    } else {
        bytes[1] = bytes[1] & 0x60 | 0x10;
    }
    bytes
}

struct Receiver {
    reader: Reader,
    gathering: Vec<u8>,
    handed_out: Vec<Vec<u8>>,
}

impl Receiver {
    /// Hands one transport packet to the reader; gives the refusal and the loss mark.
    fn take(&mut self, bytes: &[u8]) -> (u32, u8) {
        let (answer, gathering, out) = gather(self.reader, bytes, &self.gathering, &[0; 8_385]);
        (self.reader, self.gathering) = (answer.reader, gathering);
        let mut rest = &out[..answer.bytes as usize];
        while !rest.is_empty() {
            let (packet, behind) = rest.split_at(own_length(rest));
            self.handed_out.push(packet.to_vec());
            rest = behind;
        }
        (answer.refusal, answer.loss)
    }
}

#[test]
fn exactly_the_packets_whose_every_carrier_arrived() {
    for seed in 0..150 {
        let mut prng = Prng::new(seed);
        let (mut sent, carried) = send(&mut prng);
        lose(&mut prng, &mut sent);
        let mut receiver = Receiver {
            reader: start(PID).reader,
            gathering: vec![0xBB; 8_202],
            handed_out: Vec::new(),
        };
        for each in sent.iter().filter(|each| each.arrives) {
            let marked = u8::from(each.after_a_run);
            assert_eq!(receiver.take(&each.bytes), (0, marked), "seed {seed}");
            if prng.one_in(5) {
                assert_eq!(receiver.take(&each.bytes), (12, 0), "seed {seed}");
            }
            if prng.one_in(5) {
                assert_ne!(receiver.take(&disturbance(&mut prng)).0, 0);
            }
        }
        let whole = |each: &&Carriers| each.carriers.clone().all(|at| sent[at].arrives);
        let expected: Vec<Vec<u8>> = carried
            .iter()
            .filter(whole)
            .map(|each| each.packet.clone())
            .collect();
        assert_eq!(receiver.handed_out, expected, "seed {seed}");
    }
}
