//! Carriage, the writer: T2-MI packets into transport packets. 01, "Carriage:
//! the writer"; 002, clause 6.1.

use super::answers::Carried;
use super::crc::crc;
use super::packet::{own_length, SHORTEST};
use super::write_at_start;

pub const TRANSPORT: usize = 188;
/// What a transport packet holds besides its four header bytes.
const ROOM: usize = 184;
pub const MOST_BATCH: usize = 65_536;
pub const SYNC: u8 = 0x47;

/// 4: the PIDs that are free for this use.
pub fn pid_is_good(pid: u16) -> bool {
    (0x0020..=0x1FFE).contains(&pid)
}

/// Carries a batch of whole packets, back to back, into a buffer with the
/// contents `out`; gives the answer and the buffer's contents afterwards.
/// Order of 01: 4, 17, 15, then packet by packet 13, 14, then 16.
pub fn carry(pid: u16, first_count: u8, batch: &[u8], out: &[u8]) -> (Carried, Vec<u8>) {
    let refused = |refusal| {
        let answer = Carried {
            refusal,
            ..Carried::default()
        };
        (answer, out.to_vec())
    };
    if !pid_is_good(pid) {
        return refused(4);
    }
    if first_count > 15 {
        return refused(17);
    }
    if batch.len() > MOST_BATCH {
        return refused(15);
    }
    let ends = match packet_ends(batch) {
        Ok(ends) => ends,
        Err(refusal) => return refused(refusal),
    };
    let stream = transport_packets(pid, first_count, batch, &ends);
    if out.len() < stream.len() {
        return refused(16);
    }
    let packets = stream.len() / TRANSPORT;
    let answer = Carried {
        refusal: 0,
        packets: packets as u32,
        next_count: next(first_count, packets),
    };
    (answer, write_at_start(out, &stream))
}

/// The continuity count so many packets further on: modulo 16.
fn next(count: u8, packets: usize) -> u8 {
    ((usize::from(count) + packets) % 16) as u8
}

/// Where each packet of the batch ends, or 13 or 14 of the first bad one. Only
/// length and CRC are judged, as in the reader.
fn packet_ends(batch: &[u8]) -> Result<Vec<usize>, u32> {
    let mut ends = Vec::new();
    let mut at = 0;
    while at < batch.len() {
        let left = &batch[at..];
        if left.len() < SHORTEST || left.len() < own_length(left) {
            return Err(13);
        }
        let packet = &left[..own_length(left)];
        if crc(packet) != 0 {
            return Err(14);
        }
        at += packet.len();
        ends.push(at);
    }
    Ok(ends)
}

/// The payload of one transport packet: batch bytes, and the pointer before
/// them where the start indicator is set.
#[derive(Debug, PartialEq)]
struct Piece {
    pointer: Option<u8>,
    bytes: usize,
}

/// The four cases of 01. `r` is what is left of the packet under way, `remains`
/// what is left of the batch, at least 1.
fn piece(r: usize, remains: usize) -> Piece {
    let another_follows = remains > r;
    if r <= 182 && another_follows {
        return Piece {
            pointer: Some(r as u8),
            bytes: remains.min(183),
        };
    }
    let bytes = if r >= 184 {
        184
    } else if r == 183 && another_follows {
        // A pointer would leave no byte for the packet it points at.
        183
    } else {
        r
    };
    Piece {
        pointer: None,
        bytes,
    }
}

fn transport_packets(pid: u16, first_count: u8, batch: &[u8], ends: &[usize]) -> Vec<u8> {
    let mut stream = Vec::new();
    let mut at = 0;
    let mut count = first_count;
    while at < batch.len() {
        let remains = batch.len() - at;
        let piece = piece(left_of_packet(at, ends), remains);
        let data = &batch[at..at + piece.bytes];
        stream.extend(transport_packet(pid, count, piece.pointer, data));
        at += piece.bytes;
        count = next(count, 1);
    }
    stream
}

/// The bytes left of the packet under way; 0 where the last one has just ended,
/// or none has begun.
fn left_of_packet(at: usize, ends: &[usize]) -> usize {
    if at == 0 {
        return 0;
    }
    let end = ends.iter().find(|end| **end >= at);
    end.expect("the last packet ends with the batch") - at
}

/// Header, adaptation field in the room left, payload (ISO/IEC 13818-1).
fn transport_packet(pid: u16, count: u8, pointer: Option<u8>, data: &[u8]) -> Vec<u8> {
    let mut payload: Vec<u8> = pointer.into_iter().collect();
    payload.extend_from_slice(data);
    let field = adaptation_field(ROOM - payload.len());
    let start = u8::from(pointer.is_some()) << 6;
    let control = if field.is_empty() { 0x10 } else { 0x30 };
    let mut packet = vec![SYNC, start | (pid >> 8) as u8, pid as u8, control | count];
    packet.extend(field);
    packet.extend(payload);
    packet
}

/// An adaptation field of so many bytes that says nothing: its length byte,
/// then (where there is more) a byte of flags and stuffing.
fn adaptation_field(bytes: usize) -> Vec<u8> {
    match bytes {
        0 => vec![],
        1 => vec![0x00],
        _ => {
            let mut field = vec![(bytes - 1) as u8, 0x00];
            field.resize(bytes, 0xFF);
            field
        }
    }
}

#[cfg(test)]
mod tests {
    use super::*;
    use crate::model::packet::compose;

    /// Packets of these total lengths, back to back.
    fn batch(lengths: &[usize]) -> Vec<u8> {
        let mut bytes = Vec::new();
        for length in lengths {
            let payload = vec![0x5A; length - 10];
            let bits = (payload.len() * 8).min(65_535) as u16;
            bytes.extend(compose(0x00, 0, 0, 0, bits, &payload));
        }
        bytes
    }

    /// The transport packets of a batch, from count 14 on.
    fn carried(lengths: &[usize]) -> Vec<Vec<u8>> {
        let (answer, out) = carry(0x1000, 14, &batch(lengths), &[0xAA; 50_000]);
        assert_eq!(answer.refusal, 0);
        assert_eq!(u32::from(answer.next_count), (14 + answer.packets) % 16);
        let end = answer.packets as usize * TRANSPORT;
        assert!(out[end..].iter().all(|byte| *byte == 0xAA));
        out[..end].chunks(TRANSPORT).map(<[u8]>::to_vec).collect()
    }

    /// 01, bench examples: one packet with an adaptation field of 173 bytes.
    #[test]
    fn one_short_packet_to_the_byte() {
        let packets = carried(&[10]);
        assert_eq!(packets.len(), 1);
        let mut expected = vec![0x47, 0x50, 0x00, 0x3E, 172, 0x00];
        expected.extend([0xFF; 171]);
        // The pointer, then type 0 with no payload; its CRC as zlib gives it.
        expected.extend([0, 0, 0, 0, 0, 0, 0, 0x3A, 0x7A, 0xBC, 0x72]);
        assert_eq!(packets[0], expected);
    }

    /// 01, bench examples: the pointer 182 in the second of three.
    #[test]
    fn pointer_182() {
        let packets = carried(&[365, 10]);
        assert_eq!(packets.len(), 3);
        assert_eq!(packets[0][..5], [0x47, 0x50, 0x00, 0x1E, 0]);
        assert_eq!(packets[1][..5], [0x47, 0x50, 0x00, 0x1F, 182]);
        // Nine bytes left: 175 of adaptation field.
        assert_eq!(packets[2][..6], [0x47, 0x10, 0x00, 0x30, 174, 0]);
    }

    /// 01, bench examples: 183 left, so one byte of adaptation field.
    #[test]
    fn one_byte_of_adaptation_field() {
        let packets = carried(&[366, 10]);
        assert_eq!(packets.len(), 3);
        assert_eq!(packets[1][..5], [0x47, 0x10, 0x00, 0x3F, 0]);
        assert_eq!(packets[2][..5], [0x47, 0x50, 0x00, 0x30, 172]);
    }

    /// 183 left of the last packet: also no start, also one byte of field.
    #[test]
    fn last_183_bytes() {
        let packets = carried(&[366]);
        assert_eq!(packets.len(), 2);
        assert_eq!(packets[1][..5], [0x47, 0x10, 0x00, 0x3F, 0]);
    }

    /// 01, bench examples: the remaining counts.
    #[test]
    fn how_many_packets() {
        assert_eq!(carried(&[8_202]).len(), 45);
        assert_eq!(carried(&[10; 18]).len(), 1);
        assert_eq!(carried(&[10; 19]).len(), 2);
        assert_eq!(carried(&[]).len(), 0);
    }

    #[test]
    fn refusals_one_by_one() {
        let refusal =
            |pid, count, batch: &[u8], room| carry(pid, count, batch, &vec![0; room]).0.refusal;
        let good = batch(&[10, 12]);
        let mut damaged = good.clone();
        damaged[9] ^= 1;
        assert_eq!(refusal(0x001F, 16, &[], 0), 4);
        assert_eq!(refusal(0x1FFF, 16, &[], 0), 4);
        assert_eq!(refusal(0x0020, 16, &[0; 65_537], 0), 17);
        assert_eq!(refusal(0x1FFE, 15, &[0; 65_537], 0), 15);
        assert_eq!(refusal(0x1000, 0, &good[..9], 0), 13);
        assert_eq!(refusal(0x1000, 0, &good[..21], 0), 13);
        assert_eq!(refusal(0x1000, 0, &damaged[..21], 0), 14);
        assert_eq!(refusal(0x1000, 0, &good, 187), 16);
        assert_eq!(refusal(0x1000, 0, &good, 188), 0);
        assert_eq!(refusal(0x1000, 0, &[], 0), 0);
    }
}
