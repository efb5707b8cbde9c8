//! Transport packets for the reader: of our writer's making and of others', and
//! what happens to them on the way.

use super::inputs;
use crate::model::carry::{carry, TRANSPORT};
use crate::prng::Prng;

/// A transport packet with this payload of 1 to 184 bytes behind an adaptation
/// field of any content.
pub fn transport(prng: &mut Prng, pid: u16, count: u8, start: bool, payload: &[u8]) -> Vec<u8> {
    let mut bytes = vec![0x47, u8::from(start) << 6 | (pid >> 8) as u8, pid as u8];
    if payload.len() == 184 {
        bytes.push(0x10 | count);
    } else {
        let length = 183 - payload.len();
        bytes.extend([0x30 | count, length as u8]);
        bytes.extend(prng.bytes(length));
    }
    bytes.extend_from_slice(payload);
    bytes
}

/// How another writer, good or bad, cuts packets into transport packets.
pub struct Cutter {
    pub pid: u16,
    pub count: u8,
    /// One payload in so many is shorter than it could be; 0 for none.
    pub short: usize,
    /// One start or pointer in so many is wrong; 0 for none.
    pub wrong: usize,
}

impl Cutter {
    /// Cuts the packets, which may be any bytes, standing back to back.
    pub fn cut(&mut self, prng: &mut Prng, packets: &[Vec<u8>]) -> Vec<Vec<u8>> {
        let bytes = packets.concat();
        let mut starts = vec![0];
        for packet in packets {
            starts.push(starts[starts.len() - 1] + packet.len());
        }
        starts.pop();
        let mut sent = Vec::new();
        let mut at = 0;
        while at < bytes.len() {
            let (start, payload, taken) = self.payload(prng, &bytes, &starts, at);
            sent.push(transport(prng, self.pid, self.count, start, &payload));
            self.count = (self.count + 1) % 16;
            at += taken;
        }
        sent
    }

    /// Start indicator, payload and how many of the bytes are in it.
    fn payload(
        &self,
        prng: &mut Prng,
        bytes: &[u8],
        starts: &[usize],
        at: usize,
    ) -> (bool, Vec<u8>, usize) {
        let mut room = 184;
        if self.short != 0 && prng.one_in(self.short) {
            room = prng.between(2, 184);
        }
        let left = &bytes[at..];
        let next = starts.iter().find(|start| **start >= at);
        let pointer = next.map_or(usize::MAX, |start| start - at);
        let is_wrong = self.wrong != 0 && prng.one_in(self.wrong);
        // The byte pointed at must lie in this payload.
        if pointer < room - 1 && !(is_wrong && prng.one_in(2)) {
            let mut pointer = pointer as u8;
            if is_wrong {
                pointer = prng.byte() >> prng.below(8);
            }
            let taken = left.len().min(room - 1);
            let payload = [&[pointer], &left[..taken]].concat();
            return (true, payload, taken);
        }
        // A start just behind this payload ends it.
        let taken = left.len().min(room).min(pointer.max(1));
        (false, left[..taken].to_vec(), taken)
    }
}

/// T2-MI packets for a journey: mostly good and short; some long, some with a
/// wrong CRC, some with a length that lies (and the CRC mended, so that it may
/// hold over the wrong bytes or not).
pub fn packets(prng: &mut Prng, faults: bool) -> Vec<Vec<u8>> {
    let how_many = prng.between(1, 6);
    (0..how_many).map(|_| any_packet(prng, faults)).collect()
}

fn any_packet(prng: &mut Prng, faults: bool) -> Vec<u8> {
    let length = match prng.below(40) {
        0 => prng.between(10, 8_202),
        1 => prng.between(8_195, 8_202),
        2..=9 => prng.between(170, 380),
        _ => prng.between(10, 60),
    };
    let mut packet = inputs::packet_of_length(prng, length);
    if !faults {
        return packet;
    }
    match prng.below(12) {
        0 => inputs::flip_any_bit(prng, &mut packet),
        1 => {
            packet[5] ^= 1 << prng.between(0, 7);
            packet = inputs::repaired(&packet);
        }
        2 => {
            inputs::flip_any_bit(prng, &mut packet);
            packet = inputs::repaired(&packet);
        }
        3 => inputs::change_length(prng, &mut packet),
        _ => {}
    }
    packet
}

/// The transport packets of our own writer for good packets.
pub fn written(pid: u16, count: &mut u8, packets: &[Vec<u8>]) -> Vec<Vec<u8>> {
    let batch = packets.concat();
    let out = vec![0; (batch.len() / 183 + 2) * TRANSPORT];
    let (answer, out) = carry(pid, *count, &batch, &out);
    *count = answer.next_count;
    let stream = &out[..answer.packets as usize * TRANSPORT];
    stream.chunks(TRANSPORT).map(<[u8]>::to_vec).collect()
}

/// What arrives of the packets sent: runs lost, repeats, strangers, damage.
pub fn on_the_way(prng: &mut Prng, sent: &[Vec<u8>], one_loss_in: usize) -> Vec<Vec<u8>> {
    let mut arrived = Vec::new();
    let mut at = 0;
    while at < sent.len() {
        if prng.one_in(one_loss_in) {
            at += prng.between(1, 20);
            continue;
        }
        let packet = &sent[at];
        at += 1;
        arrived.push(packet.clone());
        match prng.below(30) {
            0 => arrived.push(packet.clone()),
            1 => arrived.push(stranger(prng, packet)),
            2 => arrived.push(prng.bytes(TRANSPORT)),
            3 => {
                let last = arrived.len() - 1;
                damage(prng, &mut arrived[last]);
            }
            _ => {}
        }
    }
    arrived
}

/// A packet that is no part of the journey: another PID, an error mark, no
/// payload, scrambled; and at times nearly the one that it follows.
fn stranger(prng: &mut Prng, packet: &[u8]) -> Vec<u8> {
    let mut stranger = packet.to_vec();
    match prng.below(5) {
        0 => stranger[1] |= 0x80,
        1 => stranger[2] ^= 1 << prng.below(8),
        2 => stranger[3] &= 0xCF,
        3 => stranger[3] |= 0x40 << prng.below(2),
        _ => stranger[0] = prng.byte(),
    }
    stranger
}

/// A bit of the header, of the first payload bytes or of any.
fn damage(prng: &mut Prng, packet: &mut [u8]) {
    match prng.below(3) {
        0 => inputs::flip_any_bit(prng, &mut packet[..6]),
        1 => inputs::flip_any_bit(prng, &mut packet[4..20]),
        _ => inputs::flip_any_bit(prng, packet),
    }
}

#[cfg(test)]
mod tests {
    use super::*;
    use crate::model::gather::{gather, start};

    /// Good packets, cut by a good writer in any way, are handed out whole.
    #[test]
    fn a_good_cutter_is_understood() {
        let mut prng = Prng::new(8);
        for short in [0, 1, 3] {
            let mut cutter = Cutter {
                pid: 0x0321,
                count: 5,
                short,
                wrong: 0,
            };
            let (mut reader, mut gathering) = (start(0x0321).reader, vec![0; 8_202]);
            for _ in 0..40 {
                let packets = packets(&mut prng, false);
                let mut handed_out = Vec::new();
                for bytes in cutter.cut(&mut prng, &packets) {
                    let (answer, after, out) = gather(reader, &bytes, &gathering, &[0; 8_385]);
                    assert_eq!((answer.refusal, answer.misfit, answer.crc), (0, 0, 0));
                    handed_out.extend_from_slice(&out[..answer.bytes as usize]);
                    (reader, gathering) = (answer.reader, after);
                }
                assert_eq!(handed_out, packets.concat());
            }
        }
    }
}
