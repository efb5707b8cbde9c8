//! Mega-frame Initialization Packets, and the timing of a site. Times are in steps of 100 ns.

use super::{accepted, raw, written, Refusal};

/// A MIP with its addressing data.
#[derive(Clone, Copy, Debug, PartialEq, Eq)]
pub struct Mip<'a> {
    pub count: u8,
    pub pointer: u16,
    pub periodic: bool,
    pub future: u16,
    pub stamp: u32,
    pub delay: u32,
    pub tps: u32,
    pub addressing: &'a [u8],
}

/// Reads a MIP.
pub fn mip_read(packet: &[u8]) -> Result<Mip<'_>, Refusal> {
    let m = raw::mip_read(packet);
    accepted(m.refusal)?;
    Ok(Mip {
        count: m.count,
        pointer: m.pointer,
        periodic: m.periodic == 1,
        future: m.future,
        stamp: m.stamp,
        delay: m.delay,
        tps: m.tps,
        // As the header says at `struct sfn_mip`.
        addressing: &packet[21..21 + m.addressing as usize],
    })
}

/// Writes a MIP, 188 bytes, to the front of `out`.
pub fn mip_write(m: Mip, out: &mut [u8]) -> Result<usize, Refusal> {
    let fields = raw::Mip {
        refusal: 0,
        stamp: m.stamp,
        delay: m.delay,
        tps: m.tps,
        addressing: 0, // its length is the slice's
        pointer: m.pointer,
        future: m.future,
        count: m.count,
        periodic: u8::from(m.periodic),
    };
    written(raw::mip_write(fields, m.addressing, out))
}

fn steps(answer: raw::Time) -> Result<u32, Refusal> {
    accepted(answer.refusal)?;
    Ok(answer.steps)
}

/// When a mega-frame leaves the antenna. The offset is a time offset's, so it is never refused (38).
pub fn emission(stamp: u32, delay: u32, offset: i16) -> Result<u32, Refusal> {
    steps(raw::emission(stamp, delay, offset.into()))
}

/// How long a site holds back what it received at `reception`. Nor is the offset refused here.
pub fn extra_delay(stamp: u32, delay: u32, offset: i16, reception: u32) -> Result<u32, Refusal> {
    steps(raw::extra_delay(stamp, delay, offset.into(), reception))
}
