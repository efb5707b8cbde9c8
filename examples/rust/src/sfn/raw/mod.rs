//! `include/sfn.h` as it stands, and a safe function over each of its own. The only `unsafe` of this crate is here.
//!
//! Why it is sound: a slice's pointer is never null and is good for the slice's length; a `&mut` slice overlaps
//! nothing; the library takes any bytes, keeps no pointer, and answers with plain numbers.

mod answers;
mod constants;

pub use answers::*;
pub use constants::*;

extern "C" {
    fn sfn_crc(bytes: *const u8, len: usize) -> u32;
    fn sfn_packet_length(bytes: *const u8, len: usize) -> u32;
    fn sfn_packet_read(slice: *const u8, len: usize) -> Packet;
    fn sfn_packet_write(
        kind: u8,
        count: u8,
        frame: u8,
        stream: u8,
        bits: u32,
        payload: *const u8,
        payload_len: usize,
        out: *mut u8,
        out_len: usize,
    ) -> Written;
    fn sfn_carry(
        pid: u16,
        first_count: u8,
        batch: *const u8,
        batch_len: usize,
        out: *mut u8,
        out_len: usize,
    ) -> Carried;
    fn sfn_start(pid: u16) -> Started;
    fn sfn_gather(
        reader: Reader,
        transport: *const u8,
        transport_len: usize,
        gathering: *mut u8,
        gathering_len: usize,
        out: *mut u8,
        out_len: usize,
    ) -> Gathered;
    fn sfn_stamp_read(payload: *const u8, len: usize) -> Stamp;
    fn sfn_stamp_write(
        bw: u8,
        seconds: u64,
        subseconds: u32,
        utco: u16,
        out: *mut u8,
        out_len: usize,
    ) -> Written;
    fn sfn_addressing_read(payload: *const u8, len: usize) -> Addressing;
    fn sfn_addressing_write(data: *const u8, len: usize, out: *mut u8, out_len: usize) -> Written;
    fn sfn_walk(data: *const u8, len: usize, transmitter: u16, place: u32) -> Walked;
    fn sfn_function_read(tag: u8, body: *const u8, len: usize) -> Function;
    fn sfn_function_write(
        kind: u8,
        tag: u8,
        value: i32,
        wait: u8,
        reserved: u8,
        bytes: *const u8,
        len: usize,
        out: *mut u8,
        out_len: usize,
    ) -> Written;
    fn sfn_mip_read(packet: *const u8, len: usize) -> Mip;
    fn sfn_mip_write(
        count: u8,
        pointer: u16,
        periodic: u8,
        future: u16,
        stamp: u32,
        delay: u32,
        tps: u32,
        addressing: *const u8,
        addressing_len: usize,
        out: *mut u8,
        out_len: usize,
    ) -> Written;
    fn sfn_emission(stamp: u32, delay: u32, offset: i32) -> Time;
    fn sfn_extra_delay(stamp: u32, delay: u32, offset: i32, reception: u32) -> Time;
}

pub fn crc(bytes: &[u8]) -> u32 {
    unsafe { sfn_crc(bytes.as_ptr(), bytes.len()) }
}

pub fn packet_length(bytes: &[u8]) -> u32 {
    unsafe { sfn_packet_length(bytes.as_ptr(), bytes.len()) }
}

pub fn packet_read(slice: &[u8]) -> Packet {
    unsafe { sfn_packet_read(slice.as_ptr(), slice.len()) }
}

/// `kind`, `count`, `frame` and `stream` in this order.
pub fn packet_write(fields: [u8; 4], bits: u32, payload: &[u8], out: &mut [u8]) -> Written {
    let [kind, count, frame, stream] = fields;
    let (p, n) = (payload.as_ptr(), payload.len());
    let (o, room) = (out.as_mut_ptr(), out.len());
    unsafe { sfn_packet_write(kind, count, frame, stream, bits, p, n, o, room) }
}

pub fn carry(pid: u16, first_count: u8, batch: &[u8], out: &mut [u8]) -> Carried {
    let (b, n) = (batch.as_ptr(), batch.len());
    unsafe { sfn_carry(pid, first_count, b, n, out.as_mut_ptr(), out.len()) }
}

pub fn start(pid: u16) -> Started {
    unsafe { sfn_start(pid) }
}

pub fn gather(reader: Reader, transport: &[u8], gathering: &mut [u8], out: &mut [u8]) -> Gathered {
    let (t, n) = (transport.as_ptr(), transport.len());
    let (g, held) = (gathering.as_mut_ptr(), gathering.len());
    unsafe { sfn_gather(reader, t, n, g, held, out.as_mut_ptr(), out.len()) }
}

pub fn stamp_read(payload: &[u8]) -> Stamp {
    unsafe { sfn_stamp_read(payload.as_ptr(), payload.len()) }
}

pub fn stamp_write(bw: u8, seconds: u64, subseconds: u32, utco: u16, out: &mut [u8]) -> Written {
    unsafe { sfn_stamp_write(bw, seconds, subseconds, utco, out.as_mut_ptr(), out.len()) }
}

pub fn addressing_read(payload: &[u8]) -> Addressing {
    unsafe { sfn_addressing_read(payload.as_ptr(), payload.len()) }
}

pub fn addressing_write(data: &[u8], out: &mut [u8]) -> Written {
    unsafe { sfn_addressing_write(data.as_ptr(), data.len(), out.as_mut_ptr(), out.len()) }
}

pub fn walk(data: &[u8], transmitter: u16, place: u32) -> Walked {
    unsafe { sfn_walk(data.as_ptr(), data.len(), transmitter, place) }
}

pub fn function_read(tag: u8, body: &[u8]) -> Function {
    unsafe { sfn_function_read(tag, body.as_ptr(), body.len()) }
}

/// The function's fields but for `refusal`, and the bytes of a body that is passed through.
pub fn function_write(f: Function, bytes: &[u8], out: &mut [u8]) -> Written {
    let (b, n) = (bytes.as_ptr(), bytes.len());
    let (o, room) = (out.as_mut_ptr(), out.len());
    unsafe { sfn_function_write(f.kind, f.tag, f.value, f.wait, f.reserved, b, n, o, room) }
}

pub fn mip_read(packet: &[u8]) -> Mip {
    unsafe { sfn_mip_read(packet.as_ptr(), packet.len()) }
}

/// The MIP's fields but for `refusal` and `addressing`.
pub fn mip_write(m: Mip, addressing: &[u8], out: &mut [u8]) -> Written {
    let (a, n) = (addressing.as_ptr(), addressing.len());
    let (o, room) = (out.as_mut_ptr(), out.len());
    unsafe {
        sfn_mip_write(
            m.count, m.pointer, m.periodic, m.future, m.stamp, m.delay, m.tps, a, n, o, room,
        )
    }
}

pub fn emission(stamp: u32, delay: u32, offset: i32) -> Time {
    unsafe { sfn_emission(stamp, delay, offset) }
}

pub fn extra_delay(stamp: u32, delay: u32, offset: i32, reception: u32) -> Time {
    unsafe { sfn_extra_delay(stamp, delay, offset, reception) }
}
