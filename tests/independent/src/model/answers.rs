//! The results of `sfn.h`, field by field and in C's layout.
//!
//! Model and library answer in the same structs, so that a comparison is plain
//! equality. `refusal` is 0 or the number of 01; with a refusal every other
//! field is 0 (01, "Refusal numbers"), which `Default` gives.

/// `struct sfn_written`.
#[repr(C)]
#[derive(Clone, Copy, Debug, Default, PartialEq, Eq)]
pub struct Written {
    pub refusal: u32,
    pub bytes: u32,
}

/// `struct sfn_packet`.
#[repr(C)]
#[derive(Clone, Copy, Debug, Default, PartialEq, Eq)]
pub struct Packet {
    pub refusal: u32,
    pub bits: u32,
    pub packet_type: u8,
    pub count: u8,
    pub frame: u8,
    pub stream: u8,
}

/// `struct sfn_carried`.
#[repr(C)]
#[derive(Clone, Copy, Debug, Default, PartialEq, Eq)]
pub struct Carried {
    pub refusal: u32,
    pub packets: u32,
    pub next_count: u8,
}

/// `struct sfn_reader`: `last` is 255 where no count was taken yet.
#[repr(C)]
#[derive(Clone, Copy, Debug, Default, PartialEq, Eq)]
pub struct Reader {
    pub pid: u16,
    pub last: u8,
    pub in_step: u8,
    pub waiting: u32,
}

/// `struct sfn_started`.
#[repr(C)]
#[derive(Clone, Copy, Debug, Default, PartialEq, Eq)]
pub struct Started {
    pub refusal: u32,
    pub reader: Reader,
}

/// `struct sfn_gathered`.
#[repr(C)]
#[derive(Clone, Copy, Debug, Default, PartialEq, Eq)]
pub struct Gathered {
    pub refusal: u32,
    pub reader: Reader,
    pub bytes: u32,
    pub packets: u32,
    pub loss: u8,
    pub misfit: u8,
    pub crc: u8,
}

/// `struct sfn_stamp`.
#[repr(C)]
#[derive(Clone, Copy, Debug, Default, PartialEq, Eq)]
pub struct Stamp {
    pub seconds: u64,
    pub refusal: u32,
    pub subseconds: u32,
    pub utco: u16,
    pub bw: u8,
    pub kind: u8,
}

/// `struct sfn_addressing`.
#[repr(C)]
#[derive(Clone, Copy, Debug, Default, PartialEq, Eq)]
pub struct Addressing {
    pub refusal: u32,
    pub bytes: u32,
}

/// `struct sfn_walked`.
#[repr(C)]
#[derive(Clone, Copy, Debug, Default, PartialEq, Eq)]
pub struct Walked {
    pub refusal: u32,
    pub start: u32,
    pub body: u32,
    pub next: u32,
    pub given: u8,
    pub tag: u8,
}

/// `struct sfn_function`.
#[repr(C)]
#[derive(Clone, Copy, Debug, Default, PartialEq, Eq)]
pub struct Function {
    pub refusal: u32,
    pub value: i32,
    pub kind: u8,
    pub tag: u8,
    pub wait: u8,
    pub reserved: u8,
}

/// `struct sfn_mip`.
#[repr(C)]
#[derive(Clone, Copy, Debug, Default, PartialEq, Eq)]
pub struct Mip {
    pub refusal: u32,
    pub stamp: u32,
    pub delay: u32,
    pub tps: u32,
    pub addressing: u32,
    pub pointer: u16,
    pub future: u16,
    pub count: u8,
    pub periodic: u8,
}

/// `struct sfn_time`.
#[repr(C)]
#[derive(Clone, Copy, Debug, Default, PartialEq, Eq)]
pub struct Time {
    pub refusal: u32,
    pub steps: u32,
}

#[cfg(test)]
mod tests {
    use super::*;
    use std::mem::{offset_of, size_of};

    /// Counted by hand from `sfn.h` by C's rules of alignment.
    #[test]
    fn sizes_are_those_of_c() {
        assert_eq!(size_of::<Written>(), 8);
        assert_eq!(size_of::<Packet>(), 12);
        assert_eq!(size_of::<Carried>(), 12);
        assert_eq!(size_of::<Reader>(), 8);
        assert_eq!(size_of::<Started>(), 12);
        assert_eq!(size_of::<Gathered>(), 24);
        assert_eq!(size_of::<Stamp>(), 24);
        assert_eq!(size_of::<Addressing>(), 8);
        assert_eq!(size_of::<Walked>(), 20);
        assert_eq!(size_of::<Function>(), 12);
        assert_eq!(size_of::<Mip>(), 28);
        assert_eq!(size_of::<Time>(), 8);
    }

    /// The size is the same without it: behind `seconds` (8), two fields of four,
    /// `utco` (2) and `bw` (1).
    #[test]
    fn the_kind_of_a_stamp_fills_a_gap() {
        assert_eq!(offset_of!(Stamp, kind), 19);
    }
}
