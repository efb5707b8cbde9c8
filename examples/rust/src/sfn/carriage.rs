//! Carriage: a batch of T2-MI packets into transport packets, and a reader that gathers them again.

use super::{accepted, packets, raw, Packets, Refusal};

/// Room that is always enough to carry a batch of so many bytes, as the header says at `sfn_carry`.
pub const fn carry_room(batch: usize) -> usize {
    raw::TRANSPORT * (batch / 183 + 1)
}

/// What carrying gives: transport packets written, and the count for the next batch.
#[derive(Clone, Copy, Debug, PartialEq, Eq)]
pub struct Carried {
    pub packets: usize,
    pub next_count: u8,
}

/// Carries whole T2-MI packets, back to back in `batch`, into transport packets at the front of `out`.
pub fn carry(pid: u16, first_count: u8, batch: &[u8], out: &mut [u8]) -> Result<Carried, Refusal> {
    let c = raw::carry(pid, first_count, batch, out);
    accepted(c.refusal)?;
    Ok(Carried {
        packets: c.packets as usize,
        next_count: c.next_count,
    })
}

/// A gathering reader with its two buffers.
pub struct Reader {
    state: raw::Reader,
    gathering: Box<[u8]>,
    out: Box<[u8]>,
}

/// What one transport packet brought: packets that are now whole, how many, and the three marks.
pub struct Gathered<'a> {
    pub packets: Packets<'a>,
    pub count: usize,
    pub loss: bool,
    pub misfit: bool,
    pub crc: bool,
}

impl Reader {
    /// A fresh reader for one PID.
    pub fn start(pid: u16) -> Result<Reader, Refusal> {
        let s = raw::start(pid);
        accepted(s.refusal)?;
        Ok(Reader {
            state: s.reader,
            gathering: vec![0; raw::GATHERING].into(),
            out: vec![0; raw::OUTPUT].into(),
        })
    }

    /// Takes one transport packet. A refused one leaves the reader as it was.
    pub fn gather(&mut self, transport: &[u8]) -> Result<Gathered<'_>, Refusal> {
        let g = raw::gather(self.state, transport, &mut self.gathering, &mut self.out);
        accepted(g.refusal)?;
        self.state = g.reader;
        Ok(Gathered {
            packets: packets(&self.out[..g.bytes as usize]),
            count: g.packets as usize,
            loss: g.loss == 1,
            misfit: g.misfit == 1,
            crc: g.crc == 1,
        })
    }
}
