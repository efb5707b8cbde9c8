//! T2-MI packets.

use super::{accepted, raw, written, Refusal};

/// What a header says. `bits` is payload_len, `kind` is packet_type.
#[derive(Clone, Copy, Debug, PartialEq, Eq)]
pub struct Header {
    pub kind: u8,
    pub count: u8,
    pub frame: u8,
    pub stream: u8,
    pub bits: u16,
}

/// A packet that was read: its header, and its payload as a part of the caller's bytes.
#[derive(Clone, Copy, Debug, PartialEq, Eq)]
pub struct Packet<'a> {
    pub header: Header,
    pub payload: &'a [u8],
}

/// Reads the packet that fills `slice`.
pub fn packet_read(slice: &[u8]) -> Result<Packet<'_>, Refusal> {
    let p = raw::packet_read(slice);
    accepted(p.refusal)?;
    let header = Header {
        kind: p.kind,
        count: p.count,
        frame: p.frame,
        stream: p.stream,
        bits: p.bits as u16, // 16 bits on the wire
    };
    // As the header says at `struct sfn_packet`; an accepted packet has all of it.
    let payload = &slice[6..6 + p.bits.div_ceil(8) as usize];
    Ok(Packet { header, payload })
}

/// Writes a packet to the front of `out` and gives its length.
pub fn packet_write(h: Header, payload: &[u8], out: &mut [u8]) -> Result<usize, Refusal> {
    let fields = [h.kind, h.count, h.frame, h.stream];
    written(raw::packet_write(fields, u32::from(h.bits), payload, out))
}

/// The length of the packet at the front of `bytes`; none where they do not hold all of it.
pub fn packet_length(bytes: &[u8]) -> Option<usize> {
    match raw::packet_length(bytes) {
        0 => None,
        length => Some(length as usize),
    }
}

/// The packets that lie back to back in `bytes`, up to one that is not whole. Each is cut out by its length alone.
pub fn packets(bytes: &[u8]) -> Packets<'_> {
    Packets { rest: bytes }
}

/// What `packets` gives: each packet as a part of the caller's bytes.
#[derive(Clone, Copy, Debug)]
pub struct Packets<'a> {
    rest: &'a [u8],
}

impl<'a> Iterator for Packets<'a> {
    type Item = &'a [u8];

    fn next(&mut self) -> Option<&'a [u8]> {
        let (packet, rest) = self.rest.split_at(packet_length(self.rest)?);
        self.rest = rest;
        Some(packet)
    }
}
