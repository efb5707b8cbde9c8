//! Individual addressing: the payload of type 0x21, the functions for one transmitter, and their bodies.

use super::{accepted, raw, written, Refusal};

/// The data of a payload of type 0x21, as a part of it.
pub fn addressing_read(payload: &[u8]) -> Result<&[u8], Refusal> {
    let a = raw::addressing_read(payload);
    accepted(a.refusal)?;
    // As the header says at `struct sfn_addressing`.
    Ok(&payload[2..2 + a.bytes as usize])
}

/// Writes a payload of type 0x21 around `data` to the front of `out` and gives its length.
pub fn addressing_write(data: &[u8], out: &mut [u8]) -> Result<usize, Refusal> {
    written(raw::addressing_write(data, out))
}

/// The functions of one transmitter in addressing data: those of its identifier and of broadcast, in order.
pub fn functions(data: &[u8], transmitter: u16) -> Functions<'_> {
    Functions {
        data,
        transmitter,
        place: Some(0),
    }
}

/// A walk through addressing data. It gives tags and bodies; data that is bad anywhere gives one refusal and no more.
pub struct Functions<'a> {
    data: &'a [u8],
    transmitter: u16,
    place: Option<u32>, // none once the walk has ended
}

impl<'a> Iterator for Functions<'a> {
    type Item = Result<(u8, &'a [u8]), Refusal>;

    fn next(&mut self) -> Option<Self::Item> {
        let step = raw::walk(self.data, self.transmitter, self.place?);
        self.place = None;
        if let Err(refusal) = accepted(step.refusal) {
            return Some(Err(refusal));
        }
        if step.given == 0 {
            return None;
        }
        self.place = Some(step.next);
        let start = step.start as usize;
        Some(Ok((
            step.tag,
            &self.data[start..start + step.body as usize],
        )))
    }
}

/// A function by its fields (01, the table of tags), each in the least type that holds its bits: a frequency offset has
/// 24, `reserved` and a bandwidth have 7. Bodies that are not read stay with the caller.
#[derive(Clone, Copy, Debug, PartialEq, Eq)]
pub enum Function<'a> {
    TimeOffset(i16),
    FrequencyOffset(i32),
    Power(u16),
    Private(&'a [u8]),
    Cell { id: u16, wait: bool, reserved: u8 },
    Enabled(&'a [u8]),
    Bandwidth { value: u8, wait: bool },
    Passed { tag: u8, body: &'a [u8] },
}

/// The fields of a body under its tag.
pub fn function_read(tag: u8, body: &[u8]) -> Result<Function<'_>, Refusal> {
    let f = raw::function_read(tag, body);
    accepted(f.refusal)?;
    let (value, wait, reserved) = (f.value, f.wait == 1, f.reserved);
    // No cast here loses a bit: the header has the range of each kind's value.
    Ok(match f.kind {
        raw::TIME_OFFSET => Function::TimeOffset(value as i16),
        raw::FREQUENCY_OFFSET => Function::FrequencyOffset(value),
        raw::POWER => Function::Power(value as u16),
        raw::PRIVATE => Function::Private(body),
        raw::CELL => {
            let id = value as u16;
            Function::Cell { id, wait, reserved }
        }
        raw::ENABLE => Function::Enabled(body),
        raw::BANDWIDTH => {
            let value = value as u8;
            Function::Bandwidth { value, wait }
        }
        _ => Function::Passed { tag, body },
    })
}

/// Writes a function's body, without tag and length, to the front of `out` and gives its length.
pub fn function_write(f: Function, out: &mut [u8]) -> Result<usize, Refusal> {
    let (kind, value, body): (u8, i32, &[u8]) = match f {
        Function::TimeOffset(value) => (raw::TIME_OFFSET, value.into(), &[]),
        Function::FrequencyOffset(value) => (raw::FREQUENCY_OFFSET, value, &[]),
        Function::Power(value) => (raw::POWER, value.into(), &[]),
        Function::Private(body) => (raw::PRIVATE, 0, body),
        Function::Cell { id, .. } => (raw::CELL, id.into(), &[]),
        Function::Enabled(body) => (raw::ENABLE, 0, body),
        Function::Bandwidth { value, .. } => (raw::BANDWIDTH, value.into(), &[]),
        Function::Passed { body, .. } => (raw::PASSED, 0, body),
    };
    let (wait, reserved) = match f {
        Function::Cell { wait, reserved, .. } => (wait, reserved),
        Function::Bandwidth { wait, .. } => (wait, 0),
        _ => (false, 0),
    };
    // The tag of the others is their kind.
    let tag = match f {
        Function::Passed { tag, .. } => tag,
        _ => kind,
    };
    let fields = raw::Function {
        refusal: 0,
        value,
        kind,
        tag,
        wait: u8::from(wait),
        reserved,
    };
    written(raw::function_write(fields, body, out))
}
