//! The proved library as `sfn.h` declares it, behind safe functions.
//!
//! Each wrapper lends copies of the caller's bytes between guards and gives back
//! the answer and all lent memory. The only `unsafe` of this program is here;
//! what makes it sound is what `sfn.h` asks: every pointer is valid for its
//! length, also of an empty slice, and no two lent slices overlap.

#![allow(unsafe_code)]

use crate::lent::{guarded, Told, GUARD};
#[allow(unused_imports)] // which ones are used depends on the groups switched on
use crate::model::answers::*;

/// One lent slice. Also an input is lent from memory that could be written, so
/// that a write into it would be seen and not be undefined.
struct Lent {
    memory: Vec<u8>,
}

impl Lent {
    fn new(contents: &[u8]) -> Lent {
        Lent {
            memory: guarded(contents),
        }
    }

    fn pointer(&mut self) -> *mut u8 {
        self.memory[GUARD..].as_mut_ptr()
    }

    fn len(&self) -> usize {
        self.memory.len() - 2 * GUARD
    }
}

/// The answer and the memory that the slices left behind.
fn told<A, const N: usize>(answer: A, slices: [Lent; N]) -> Told<A> {
    let memory = slices.into_iter().map(|slice| slice.memory).collect();
    Told { answer, memory }
}

#[cfg(feature = "packet")]
mod packet_group {
    use super::*;

    extern "C" {
        fn sfn_crc(bytes: *const u8, len: usize) -> u32;
        fn sfn_packet_length(bytes: *const u8, len: usize) -> u32;
        fn sfn_packet_read(slice: *const u8, len: usize) -> Packet;
        fn sfn_packet_write(
            packet_type: u8,
            count: u8,
            frame: u8,
            stream: u8,
            bits: u32,
            payload: *const u8,
            payload_len: usize,
            out: *mut u8,
            out_len: usize,
        ) -> Written;
    }

    pub fn crc(bytes: &[u8]) -> Told<u32> {
        let mut bytes = Lent::new(bytes);
        let register = unsafe { sfn_crc(bytes.pointer(), bytes.len()) };
        told(register, [bytes])
    }

    pub fn packet_length(bytes: &[u8]) -> Told<u32> {
        let mut bytes = Lent::new(bytes);
        let length = unsafe { sfn_packet_length(bytes.pointer(), bytes.len()) };
        told(length, [bytes])
    }

    pub fn packet_read(slice: &[u8]) -> Told<Packet> {
        let mut slice = Lent::new(slice);
        let answer = unsafe { sfn_packet_read(slice.pointer(), slice.len()) };
        told(answer, [slice])
    }

    pub fn packet_write(
        packet_type: u8,
        count: u8,
        frame: u8,
        stream: u8,
        bits: u32,
        payload: &[u8],
        out: &[u8],
    ) -> Told<Written> {
        let mut payload = Lent::new(payload);
        let mut out = Lent::new(out);
        let answer = unsafe {
            sfn_packet_write(
                packet_type,
                count,
                frame,
                stream,
                bits,
                payload.pointer(),
                payload.len(),
                out.pointer(),
                out.len(),
            )
        };
        told(answer, [payload, out])
    }
}

#[cfg(feature = "packet")]
pub use packet_group::*;

#[cfg(feature = "stamp")]
mod stamp_group {
    use super::*;

    extern "C" {
        fn sfn_stamp_read(payload: *const u8, len: usize) -> Stamp;
        fn sfn_stamp_write(
            bw: u8,
            seconds: u64,
            subseconds: u32,
            utco: u16,
            out: *mut u8,
            out_len: usize,
        ) -> Written;
    }

    pub fn stamp_read(payload: &[u8]) -> Told<Stamp> {
        let mut payload = Lent::new(payload);
        let answer = unsafe { sfn_stamp_read(payload.pointer(), payload.len()) };
        told(answer, [payload])
    }

    pub fn stamp_write(
        bw: u8,
        seconds: u64,
        subseconds: u32,
        utco: u16,
        out: &[u8],
    ) -> Told<Written> {
        let mut out = Lent::new(out);
        let answer =
            unsafe { sfn_stamp_write(bw, seconds, subseconds, utco, out.pointer(), out.len()) };
        told(answer, [out])
    }
}

#[cfg(feature = "stamp")]
pub use stamp_group::*;

#[cfg(feature = "addressing")]
mod addressing_group {
    use super::*;

    extern "C" {
        fn sfn_addressing_read(payload: *const u8, len: usize) -> Addressing;
        fn sfn_addressing_write(
            data: *const u8,
            len: usize,
            out: *mut u8,
            out_len: usize,
        ) -> Written;
        fn sfn_walk(data: *const u8, len: usize, transmitter: u16, place: u32) -> Walked;
        fn sfn_function_read(tag: u8, body: *const u8, len: usize) -> Function;
        fn sfn_function_write(
            kind: u8,
            tag: u8,
            value: i32,
            wait: u8,
            reserved: u8,
            bytes: *const u8,
            len: usize,
            out: *mut u8,
            out_len: usize,
        ) -> Written;
    }

    pub fn addressing_read(payload: &[u8]) -> Told<Addressing> {
        let mut payload = Lent::new(payload);
        let answer = unsafe { sfn_addressing_read(payload.pointer(), payload.len()) };
        told(answer, [payload])
    }

    pub fn addressing_write(data: &[u8], out: &[u8]) -> Told<Written> {
        let mut data = Lent::new(data);
        let mut out = Lent::new(out);
        let answer =
            unsafe { sfn_addressing_write(data.pointer(), data.len(), out.pointer(), out.len()) };
        told(answer, [data, out])
    }

    pub fn walk(data: &[u8], transmitter: u16, place: u32) -> Told<Walked> {
        let mut data = Lent::new(data);
        let answer = unsafe { sfn_walk(data.pointer(), data.len(), transmitter, place) };
        told(answer, [data])
    }

    pub fn function_read(tag: u8, body: &[u8]) -> Told<Function> {
        let mut body = Lent::new(body);
        let answer = unsafe { sfn_function_read(tag, body.pointer(), body.len()) };
        told(answer, [body])
    }

    pub fn function_write(
        kind: u8,
        tag: u8,
        value: i32,
        wait: u8,
        reserved: u8,
        bytes: &[u8],
        out: &[u8],
    ) -> Told<Written> {
        let mut bytes = Lent::new(bytes);
        let mut out = Lent::new(out);
        let answer = unsafe {
            sfn_function_write(
                kind,
                tag,
                value,
                wait,
                reserved,
                bytes.pointer(),
                bytes.len(),
                out.pointer(),
                out.len(),
            )
        };
        told(answer, [bytes, out])
    }
}

#[cfg(feature = "addressing")]
pub use addressing_group::*;

#[cfg(feature = "mip")]
mod mip_group {
    use super::*;

    extern "C" {
        fn sfn_mip_read(packet: *const u8, len: usize) -> Mip;
        fn sfn_mip_write(
            count: u8,
            pointer: u16,
            periodic: u8,
            future: u16,
            stamp: u32,
            delay: u32,
            tps: u32,
            addressing: *const u8,
            addressing_len: usize,
            out: *mut u8,
            out_len: usize,
        ) -> Written;
        fn sfn_emission(stamp: u32, delay: u32, offset: i32) -> Time;
        fn sfn_extra_delay(stamp: u32, delay: u32, offset: i32, reception: u32) -> Time;
    }

    pub fn mip_read(packet: &[u8]) -> Told<Mip> {
        let mut packet = Lent::new(packet);
        let answer = unsafe { sfn_mip_read(packet.pointer(), packet.len()) };
        told(answer, [packet])
    }

    pub fn mip_write(
        count: u8,
        pointer: u16,
        periodic: u8,
        future: u16,
        stamp: u32,
        delay: u32,
        tps: u32,
        addressing: &[u8],
        out: &[u8],
    ) -> Told<Written> {
        let mut addressing = Lent::new(addressing);
        let mut out = Lent::new(out);
        let answer = unsafe {
            sfn_mip_write(
                count,
                pointer,
                periodic,
                future,
                stamp,
                delay,
                tps,
                addressing.pointer(),
                addressing.len(),
                out.pointer(),
                out.len(),
            )
        };
        told(answer, [addressing, out])
    }

    pub fn emission(stamp: u32, delay: u32, offset: i32) -> Told<Time> {
        told(unsafe { sfn_emission(stamp, delay, offset) }, [])
    }

    pub fn extra_delay(stamp: u32, delay: u32, offset: i32, reception: u32) -> Told<Time> {
        let answer = unsafe { sfn_extra_delay(stamp, delay, offset, reception) };
        told(answer, [])
    }
}

#[cfg(feature = "mip")]
pub use mip_group::*;

#[cfg(feature = "carry")]
mod carry_group {
    use super::*;

    extern "C" {
        fn sfn_carry(
            pid: u16,
            first_count: u8,
            batch: *const u8,
            batch_len: usize,
            out: *mut u8,
            out_len: usize,
        ) -> Carried;
    }

    pub fn carry(pid: u16, first_count: u8, batch: &[u8], out: &[u8]) -> Told<Carried> {
        let mut batch = Lent::new(batch);
        let mut out = Lent::new(out);
        let answer = unsafe {
            sfn_carry(
                pid,
                first_count,
                batch.pointer(),
                batch.len(),
                out.pointer(),
                out.len(),
            )
        };
        told(answer, [batch, out])
    }
}

#[cfg(feature = "carry")]
pub use carry_group::*;

#[cfg(feature = "gather")]
mod gather_group {
    use super::*;

    extern "C" {
        fn sfn_start(pid: u16) -> Started;
        fn sfn_gather(
            reader: Reader,
            transport: *const u8,
            transport_len: usize,
            gathering: *mut u8,
            gathering_len: usize,
            out: *mut u8,
            out_len: usize,
        ) -> Gathered;
    }

    pub fn start(pid: u16) -> Told<Started> {
        told(unsafe { sfn_start(pid) }, [])
    }

    pub fn gather(
        reader: Reader,
        transport: &[u8],
        gathering: &[u8],
        out: &[u8],
    ) -> Told<Gathered> {
        let mut transport = Lent::new(transport);
        let mut gathering = Lent::new(gathering);
        let mut out = Lent::new(out);
        let answer = unsafe {
            sfn_gather(
                reader,
                transport.pointer(),
                transport.len(),
                gathering.pointer(),
                gathering.len(),
                out.pointer(),
                out.len(),
            )
        };
        told(answer, [transport, gathering, out])
    }
}

#[cfg(feature = "gather")]
pub use gather_group::*;
