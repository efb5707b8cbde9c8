//! Refusals: the numbers of document 01, by the names that `include/sfn.h` has (without `SFN_REFUSED_`).

use std::fmt;

/// Why a call did nothing: the number of document 01.
#[derive(Clone, Copy, Debug, PartialEq, Eq)]
pub struct Refusal(pub u32);

/// All of them, in the order of the header; tests/names.rs compares the two lists.
impl Refusal {
    pub const TRANSPORT_NOT_188: Refusal = Refusal(1);
    pub const GATHERING_BUFFER_SHORT: Refusal = Refusal(2);
    pub const READER_OUTPUT_SHORT: Refusal = Refusal(3);
    pub const PID_OUT_OF_RANGE: Refusal = Refusal(4);
    pub const SYNC_BYTE_WRONG: Refusal = Refusal(5);
    pub const TRANSPORT_ERROR_MARKED: Refusal = Refusal(6);
    pub const ANOTHER_PID: Refusal = Refusal(7);
    pub const SCRAMBLED: Refusal = Refusal(8);
    pub const NO_PAYLOAD: Refusal = Refusal(9);
    pub const ADAPTATION_FIELD_LONG: Refusal = Refusal(10);
    pub const POINTER_BEYOND_PAYLOAD: Refusal = Refusal(11);
    pub const COUNT_REPEATED: Refusal = Refusal(12);
    pub const BATCH_CUT: Refusal = Refusal(13);
    pub const CRC_WRONG: Refusal = Refusal(14);
    pub const BATCH_LONG: Refusal = Refusal(15);
    pub const OUTPUT_SHORT: Refusal = Refusal(16);
    pub const FIRST_COUNT_OVER_15: Refusal = Refusal(17);
    pub const SLICE_UNDER_10: Refusal = Refusal(18);
    pub const LENGTH_UNLIKE_PAYLOAD_LEN: Refusal = Refusal(19);
    pub const RESERVED_BIT_SET: Refusal = Refusal(20);
    pub const RESERVED_TYPE: Refusal = Refusal(21);
    pub const PAD_BITS_SET: Refusal = Refusal(22);
    pub const PAYLOAD_SIZE_WRONG: Refusal = Refusal(23);
    pub const BANDWIDTH_CODE_OVER_5: Refusal = Refusal(24);
    pub const SUBSECONDS_OVER_A_SECOND: Refusal = Refusal(25);
    pub const GROUP_CUT: Refusal = Refusal(26);
    pub const FUNCTION_CUT: Refusal = Refusal(27);
    pub const FUNCTION_LENGTH_WRONG: Refusal = Refusal(28);
    pub const BANDWIDTH_VALUE_RESERVED: Refusal = Refusal(29);
    pub const MIP_HEADER_WRONG: Refusal = Refusal(30);
    pub const SYNCHRONIZATION_ID_WRONG: Refusal = Refusal(31);
    pub const SECTION_LENGTH_WRONG: Refusal = Refusal(32);
    pub const TIME_STAMP_OVER: Refusal = Refusal(33);
    pub const MAXIMUM_DELAY_OVER: Refusal = Refusal(34);
    pub const STUFFING_NOT_FF: Refusal = Refusal(35);
    pub const MIP_ADDRESSING_OVER_163: Refusal = Refusal(36);
    pub const RECEPTION_TIME_OVER: Refusal = Refusal(37);
    pub const TOO_WIDE_OR_UNFIT_STATE: Refusal = Refusal(38);
}

impl fmt::Display for Refusal {
    fn fmt(&self, f: &mut fmt::Formatter) -> fmt::Result {
        write!(f, "refused {}", self.0)
    }
}

impl std::error::Error for Refusal {}
