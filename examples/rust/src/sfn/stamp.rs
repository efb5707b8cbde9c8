//! Timestamps: the payload of type 0x20.

use super::{accepted, raw, written, Refusal};

/// A stamp. How many `subseconds` a second has depends on `bw`.
#[derive(Clone, Copy, Debug, PartialEq, Eq)]
pub struct Stamp {
    pub bw: u8,
    pub seconds: u64,
    pub subseconds: u32,
    pub utco: u16,
}

/// What a stamp is meant as. It follows from the fields: it is told when a stamp is read, and not asked for when one is
/// written.
#[derive(Clone, Copy, Debug, PartialEq, Eq)]
pub enum StampKind {
    Absolute,
    Relative,
    Null,
}

fn kind_of(number: u8) -> StampKind {
    match number {
        raw::STAMP_ABSOLUTE => StampKind::Absolute,
        raw::STAMP_RELATIVE => StampKind::Relative,
        raw::STAMP_NULL.. => StampKind::Null, // the header has none above it
    }
}

/// Reads a payload of type 0x20.
pub fn stamp_read(payload: &[u8]) -> Result<(Stamp, StampKind), Refusal> {
    let s = raw::stamp_read(payload);
    accepted(s.refusal)?;
    let stamp = Stamp {
        bw: s.bw,
        seconds: s.seconds,
        subseconds: s.subseconds,
        utco: s.utco,
    };
    Ok((stamp, kind_of(s.kind)))
}

/// Writes a payload of type 0x20, 11 bytes, to the front of `out`.
pub fn stamp_write(s: Stamp, out: &mut [u8]) -> Result<usize, Refusal> {
    written(raw::stamp_write(s.bw, s.seconds, s.subseconds, s.utco, out))
}
