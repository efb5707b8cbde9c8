//! The check register of T2-MI packets (002, annex A) and of the MIP (000, annex A).

/// The exponents of 01 below 32, one bit each: 26, 23, 22, 16, 12, 11, 10, 8,
/// 7, 5, 4, 2, 1, 0.
const POLYNOMIAL: u32 = 1 << 26
    | 1 << 23
    | 1 << 22
    | 1 << 16
    | 1 << 12
    | 1 << 11
    | 1 << 10
    | 1 << 8
    | 1 << 7
    | 1 << 5
    | 1 << 4
    | 1 << 2
    | 1 << 1
    | 1;

/// One clock of the register: shift towards the top stage; where the stage that
/// falls out differs from the bit that comes in, the taps are loaded.
fn clock(register: u32, bit: u32) -> u32 {
    let falls_out = register >> 31;
    let shifted = register << 1;
    if falls_out != bit {
        shifted ^ POLYNOMIAL
    } else {
        shifted
    }
}

/// The register after all bytes, from all ones, top bit first, no final change.
/// Over bytes that end with their own CRC it is zero.
pub fn crc(bytes: &[u8]) -> u32 {
    let mut register = 0xFFFF_FFFF;
    for byte in bytes {
        for place in (0..8).rev() {
            register = clock(register, u32::from(byte >> place & 1));
        }
    }
    register
}

/// The bytes with their CRC behind them, top byte first.
pub fn with_crc(bytes: &[u8]) -> Vec<u8> {
    let mut whole = bytes.to_vec();
    whole.extend_from_slice(&crc(bytes).to_be_bytes());
    whole
}

#[cfg(test)]
mod tests {
    use super::*;

    /// The check value published for CRC-32/MPEG-2.
    #[test]
    fn published_check_value() {
        assert_eq!(crc(b"123456789"), 0x0376_E6E7);
    }

    /// No byte leaves the register as it starts.
    #[test]
    fn no_bytes() {
        assert_eq!(crc(&[]), 0xFFFF_FFFF);
    }

    /// The register's own four bytes lead it to zero: here the starting ones.
    #[test]
    fn own_bytes_end_at_zero() {
        assert_eq!(crc(&[0xFF; 4]), 0);
        assert_eq!(crc(&with_crc(b"123456789")), 0);
    }
}
