//! The structs of `include/sfn.h`, field by field.

use std::mem::{offset_of, size_of};

#[repr(C)]
pub struct Written {
    pub refusal: u32,
    pub bytes: u32,
}

#[repr(C)]
pub struct Packet {
    pub refusal: u32,
    pub bits: u32,
    pub kind: u8,
    pub count: u8,
    pub frame: u8,
    pub stream: u8,
}

#[repr(C)]
pub struct Carried {
    pub refusal: u32,
    pub packets: u32,
    pub next_count: u8,
}

#[repr(C)]
#[derive(Clone, Copy)]
pub struct Reader {
    pub pid: u16,
    pub last: u8,
    pub in_step: u8,
    pub waiting: u32,
}

#[repr(C)]
pub struct Started {
    pub refusal: u32,
    pub reader: Reader,
}

#[repr(C)]
pub struct Gathered {
    pub refusal: u32,
    pub reader: Reader,
    pub bytes: u32,
    pub packets: u32,
    pub loss: u8,
    pub misfit: u8,
    pub crc: u8,
}

#[repr(C)]
pub struct Stamp {
    pub seconds: u64,
    pub refusal: u32,
    pub subseconds: u32,
    pub utco: u16,
    pub bw: u8,
    pub kind: u8,
}

#[repr(C)]
pub struct Addressing {
    pub refusal: u32,
    pub bytes: u32,
}

#[repr(C)]
pub struct Walked {
    pub refusal: u32,
    pub start: u32,
    pub body: u32,
    pub next: u32,
    pub given: u8,
    pub tag: u8,
}

#[repr(C)]
pub struct Function {
    pub refusal: u32,
    pub value: i32,
    pub kind: u8,
    pub tag: u8,
    pub wait: u8,
    pub reserved: u8,
}

#[repr(C)]
pub struct Mip {
    pub refusal: u32,
    pub stamp: u32,
    pub delay: u32,
    pub tps: u32,
    pub addressing: u32,
    pub pointer: u16,
    pub future: u16,
    pub count: u8,
    pub periodic: u8,
}

#[repr(C)]
pub struct Time {
    pub refusal: u32,
    pub steps: u32,
}

// As tests/c/layout.c has them for C.
const _: () = {
    assert!(size_of::<Written>() == 8 && size_of::<Packet>() == 12 && size_of::<Carried>() == 12);
    assert!(size_of::<Reader>() == 8 && size_of::<Started>() == 12 && size_of::<Gathered>() == 24);
    assert!(size_of::<Stamp>() == 24 && size_of::<Addressing>() == 8 && size_of::<Walked>() == 20);
    assert!(size_of::<Function>() == 12 && size_of::<Mip>() == 28 && size_of::<Time>() == 8);
    assert!(offset_of!(Stamp, kind) == 19); // its size is the same without it
};
