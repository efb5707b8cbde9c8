//! Which refusals each operation has: the orders of 01, "Refusal numbers".
//!
//! The model's functions hold the same numbers as they check; this list is for
//! the comparison, which fails where one of them was never seen.

/// An operation and the numbers of its list in 01, in the order of the list.
pub const LISTS: [(&str, &[u32]); 18] = [
    ("packet_read", &[18, 19, 14, 20, 21, 22]),
    ("packet_write", &[21, 38, 19, 22, 16]),
    ("stamp_read", &[23, 20, 24, 25]),
    ("stamp_write", &[24, 38, 25, 16]),
    ("addressing_read", &[23, 20, 26, 27, 28, 29]),
    ("addressing_write", &[38, 26, 27, 28, 29, 16]),
    ("walk", &[38, 26, 27, 28, 29]),
    ("function_read", &[38, 28, 29]),
    ("function_write", &[38, 29, 16]),
    (
        "mip_read",
        &[1, 5, 30, 31, 32, 14, 33, 34, 35, 26, 27, 28, 29],
    ),
    ("mip_write", &[36, 38, 33, 34, 26, 27, 28, 29, 16]),
    ("emission", &[38, 33, 34]),
    ("extra_delay", &[38, 33, 34, 37]),
    ("carry", &[4, 17, 15, 13, 14, 16]),
    ("start", &[4]),
    ("gather", &[38, 1, 2, 3, 5, 6, 7, 8, 9, 10, 11, 12]),
    ("crc", &[]),
    ("packet_length", &[]),
];

/// The numbers of one operation.
pub fn of(operation: &str) -> &'static [u32] {
    let found = LISTS.iter().find(|(name, _)| *name == operation);
    found.expect("an operation of the list").1
}

#[cfg(test)]
mod tests {
    use super::*;

    /// The table of 01 has no number that no operation gives.
    #[test]
    fn every_number_of_the_table_has_an_operation() {
        for number in 1..=38 {
            assert!(
                LISTS.iter().any(|(_, list)| list.contains(&number)),
                "{number}"
            );
        }
    }
}
