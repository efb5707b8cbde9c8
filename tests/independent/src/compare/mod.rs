//! Library and model on the same inputs: every field and every lent byte.

pub mod groups;
pub mod inputs;
pub mod listing;
pub mod tally;
pub mod ways;

#[cfg(feature = "addressing")]
pub mod addressing;
#[cfg(feature = "carry")]
pub mod carry;
#[cfg(feature = "gather")]
pub mod gather;
#[cfg(feature = "mip")]
pub mod mip;
#[cfg(feature = "packet")]
pub mod packet;
#[cfg(feature = "stamp")]
pub mod stamp;

use crate::lent::{Told, GUARD};
use crate::prng::Prng;
use std::fmt::Debug;
use std::time::{Duration, Instant};
use tally::{Counted, Tally};

/// Nothing, or the whole report of a mismatch.
pub type Outcome = Result<(), String>;

/// The comparisons of one feature.
struct Group {
    name: &'static str,
    operations: &'static [&'static str],
    run: fn(&mut Session, Instant) -> Outcome,
}

/// The groups that were switched on when this program was built.
const GROUPS: &[Group] = &[
    #[cfg(feature = "packet")]
    Group {
        name: "packet",
        operations: &["crc", "packet_length", "packet_read", "packet_write"],
        run: packet::run,
    },
    #[cfg(feature = "stamp")]
    Group {
        name: "stamp",
        operations: &["stamp_read", "stamp_write"],
        run: stamp::run,
    },
    #[cfg(feature = "addressing")]
    Group {
        name: "addressing",
        operations: &[
            "addressing_read",
            "addressing_write",
            "walk",
            "function_read",
            "function_write",
        ],
        run: addressing::run,
    },
    #[cfg(feature = "mip")]
    Group {
        name: "mip",
        operations: &["mip_read", "mip_write", "emission", "extra_delay"],
        run: mip::run,
    },
    #[cfg(feature = "carry")]
    Group {
        name: "carry",
        operations: &["carry"],
        run: carry::run,
    },
    #[cfg(feature = "gather")]
    Group {
        name: "gather",
        operations: &["start", "gather"],
        run: gather::run,
    },
];

/// What the comparisons of a run share.
pub struct Session {
    pub prng: Prng,
    seed: u64,
    tally: Tally,
}

impl Session {
    pub fn new(seed: u64) -> Session {
        Session {
            prng: Prng::new(seed),
            seed,
            tally: Tally::default(),
        }
    }

    /// Counts what an answer alone does not show.
    pub fn note(&mut self, operation: &'static str, facet: &'static str) {
        self.tally.note(operation, facet);
    }

    /// Compares the two answers and counts the model's. `inputs` is called for
    /// the report of a mismatch only.
    pub fn judge<A: Counted + PartialEq + Debug>(
        &mut self,
        operation: &'static str,
        model: Told<A>,
        library: Told<A>,
        inputs: impl Fn() -> String,
    ) -> Outcome {
        if let Some(difference) = difference(&model, &library) {
            let seed = self.seed;
            return Err(format!(
                "MISMATCH in {operation}, seed {seed}\n{}\n{difference}",
                inputs()
            ));
        }
        self.tally.count(operation, &model.answer);
        Ok(())
    }
}

/// What is unlike between two tellings of one call; none where they agree in
/// the answer and in all lent memory.
pub fn difference<A: PartialEq + Debug>(model: &Told<A>, library: &Told<A>) -> Option<String> {
    if model.answer != library.answer {
        return Some(format!(
            "model:   {:?}\nlibrary: {:?}",
            model.answer, library.answer
        ));
    }
    if model.memory.len() != library.memory.len() {
        return Some("model and library were not lent as many slices".to_string());
    }
    let pairs = model.memory.iter().zip(&library.memory).enumerate();
    for (slice, (expected, found)) in pairs {
        if let Some(at) = first_unlike(expected, found) {
            return Some(format!(
                "answer of both: {:?}\nlent slice {slice}, byte {}: model {:?}, library {:?}",
                model.answer,
                at as i64 - GUARD as i64,
                expected.get(at),
                found.get(at)
            ));
        }
    }
    None
}

/// The first place where two strings of bytes are unlike.
fn first_unlike(left: &[u8], right: &[u8]) -> Option<usize> {
    if left == right {
        return None;
    }
    let common = left.iter().zip(right).take_while(|(l, r)| l == r).count();
    Some(common)
}

/// An input of a report: its name, its length and its bytes.
pub fn hex(name: &str, bytes: &[u8]) -> String {
    let digits: String = bytes.iter().map(|byte| format!("{byte:02x}")).collect();
    format!("{name} ({} bytes): {digits}\n", bytes.len())
}

/// Whether a share of the time is used up.
pub fn over(until: Instant) -> bool {
    Instant::now() >= until
}

/// Runs each group for its share of the seconds. Gives the text of the counts,
/// or the report of the first mismatch or of what was never seen.
pub fn compare(seed: u64, seconds: u64) -> Result<String, String> {
    if GROUPS.is_empty() {
        return Err("no group is switched on: there is nothing to compare".to_string());
    }
    let share = Duration::from_secs(seconds) / GROUPS.len() as u32;
    let mut counts = String::new();
    let mut unseen = String::new();
    for group in GROUPS {
        // Each group begins anew from the seed, whichever others are on.
        let mut session = Session::new(seed);
        (group.run)(&mut session, Instant::now() + share)
            .map_err(|report| format!("group {}: {report}", group.name))?;
        for operation in group.operations {
            counts += &session.tally.line(operation);
            unseen += &session.tally.unseen(operation);
        }
    }
    if unseen.is_empty() {
        Ok(counts)
    } else {
        Err(format!("{counts}{unseen}"))
    }
}

#[cfg(test)]
mod tests {
    use super::*;
    use crate::model::answers::Written;

    fn told(refusal: u32, bytes: u32, input: &[u8], out: &[u8]) -> Told<Written> {
        Told::expected(Written { refusal, bytes }, &[input, out])
    }

    #[test]
    fn like_answers_pass() {
        let model = told(0, 2, &[1], &[2, 3]);
        assert!(difference(&model, &told(0, 2, &[1], &[2, 3])).is_none());
    }

    #[test]
    fn each_wrong_field_is_caught() {
        let model = told(0, 2, &[1], &[2, 3]);
        assert!(difference(&model, &told(16, 2, &[1], &[2, 3])).is_some());
        assert!(difference(&model, &told(0, 3, &[1], &[2, 3])).is_some());
    }

    #[test]
    fn a_wrong_byte_is_caught_in_input_output_and_guards() {
        let model = told(0, 2, &[1], &[2, 3]);
        for slice in 0..2 {
            for at in 0..model.memory[slice].len() {
                let mut library = told(0, 2, &[1], &[2, 3]);
                library.memory[slice][at] ^= 1;
                assert!(difference(&model, &library).is_some(), "{slice} {at}");
            }
        }
    }

    #[test]
    fn a_missing_slice_is_caught() {
        let model = told(0, 2, &[1], &[2, 3]);
        let mut library = told(0, 2, &[1], &[2, 3]);
        library.memory.pop();
        assert!(difference(&model, &library).is_some());
    }

    #[test]
    fn a_mismatch_is_reported_and_not_counted() {
        let mut session = Session::new(7);
        let model = told(0, 2, &[1], &[2, 3]);
        let library = told(0, 1, &[1], &[2, 3]);
        let outcome = session.judge("packet_write", model, library, || hex("input", &[1]));
        let report = outcome.unwrap_err();
        assert!(report.contains("packet_write, seed 7"));
        assert!(report.contains("input (1 bytes): 01"));
        assert!(report.contains("bytes: 2") && report.contains("bytes: 1"));
        assert_eq!(session.tally.line("packet_write"), "packet_write\n");
    }
}
