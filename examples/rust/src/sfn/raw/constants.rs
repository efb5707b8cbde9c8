//! The constants of `include/sfn.h`, by the same names without `SFN_`. tests/names.rs compares the numbers.

pub const TRANSPORT: usize = 188;
pub const PACKET_MOST: usize = 8202;
pub const GATHERING: usize = 8202;
pub const OUTPUT: usize = 8385;
pub const BATCH_MOST: usize = 65536;

pub const STAMP_ABSOLUTE: u8 = 0;
pub const STAMP_RELATIVE: u8 = 1;
pub const STAMP_NULL: u8 = 2;

pub const TIME_OFFSET: u8 = 0;
pub const FREQUENCY_OFFSET: u8 = 1;
pub const POWER: u8 = 2;
pub const PRIVATE: u8 = 3;
pub const CELL: u8 = 4;
pub const ENABLE: u8 = 5;
pub const BANDWIDTH: u8 = 6;
pub const PASSED: u8 = 7;
