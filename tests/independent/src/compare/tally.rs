//! Counts of the answers, so that a check that never met a case can be seen.

use crate::model::answers::*;
use crate::model::refusals;
use std::collections::BTreeMap;

/// An answer's refusal, and names for what an accepted one may show.
pub trait Counted {
    fn refusal(&self) -> u32;

    /// Sorts of acceptance that must each be met: see `FACETS`.
    fn facets(&self) -> Vec<&'static str> {
        Vec::new()
    }
}

/// The register and the length of a packet have no refusal.
impl Counted for u32 {
    fn refusal(&self) -> u32 {
        0
    }
}

macro_rules! counted_by_refusal_alone {
    ($($answer:ty),*) => {
        $(impl Counted for $answer {
            fn refusal(&self) -> u32 {
                self.refusal
            }
        })*
    };
}

counted_by_refusal_alone!(Written, Packet, Started, Addressing, Mip, Time, Carried);

/// By the numbers of `sfn.h`.
const STAMPS: [&str; 3] = ["absolute", "relative", "null"];

impl Counted for Stamp {
    fn refusal(&self) -> u32 {
        self.refusal
    }

    fn facets(&self) -> Vec<&'static str> {
        match self.refusal {
            0 => vec![STAMPS[usize::from(self.kind)]],
            _ => vec![],
        }
    }
}

impl Counted for Walked {
    fn refusal(&self) -> u32 {
        self.refusal
    }

    fn facets(&self) -> Vec<&'static str> {
        match (self.refusal, self.given) {
            (0, 0) => vec!["none"],
            (0, _) => vec!["given"],
            _ => vec![],
        }
    }
}

const KINDS: [&str; 8] = [
    "kind-0", "kind-1", "kind-2", "kind-3", "kind-4", "kind-5", "kind-6", "kind-7",
];

impl Counted for Function {
    fn refusal(&self) -> u32 {
        self.refusal
    }

    fn facets(&self) -> Vec<&'static str> {
        match self.refusal {
            0 => vec![KINDS[usize::from(self.kind)]],
            _ => vec![],
        }
    }
}

impl Counted for Gathered {
    fn refusal(&self) -> u32 {
        self.refusal
    }

    fn facets(&self) -> Vec<&'static str> {
        if self.refusal != 0 {
            return vec![];
        }
        let shown = [
            ("loss", self.loss == 1),
            ("misfit", self.misfit == 1),
            ("crc", self.crc == 1),
            ("loss+crc", self.loss == 1 && self.crc == 1),
            ("misfit+crc", self.misfit == 1 && self.crc == 1),
            ("unmarked", self.loss + self.misfit + self.crc == 0),
            ("packet", self.packets == 1),
            ("packets", self.packets > 1),
            ("out-of-step", self.reader.in_step == 0),
            (
                "in-step",
                self.reader.in_step == 1 && self.reader.waiting == 0,
            ),
            ("waiting", self.reader.waiting > 0),
        ];
        let held = shown.into_iter().filter(|(_, holds)| *holds);
        held.map(|(facet, _)| facet).collect()
    }
}

/// The facets that each operation must show at least once. A packet is not whole
/// (`cut`), alone, or other bytes are `behind` it. For the walk, `long` and
/// `place` are the two causes of 38.
const FACETS: [(&str, &[&str]); 5] = [
    ("packet_length", &["cut", "alone", "behind"]),
    ("stamp_read", &STAMPS),
    ("walk", &["given", "none", "long", "place"]),
    ("function_read", &KINDS),
    (
        "gather",
        &[
            "loss",
            "misfit",
            "crc",
            "loss+crc",
            "misfit+crc",
            "unmarked",
            "packet",
            "packets",
            "out-of-step",
            "in-step",
            "waiting",
        ],
    ),
];

/// For each operation, how often each refusal (0 for an acceptance) and each
/// facet was seen.
#[derive(Default)]
pub struct Tally {
    refusals: BTreeMap<&'static str, BTreeMap<u32, u64>>,
    facets: BTreeMap<&'static str, BTreeMap<&'static str, u64>>,
}

impl Tally {
    pub fn count(&mut self, operation: &'static str, answer: &impl Counted) {
        let refusals = self.refusals.entry(operation).or_default();
        *refusals.entry(answer.refusal()).or_default() += 1;
        for facet in answer.facets() {
            self.note(operation, facet);
        }
    }

    /// Counts a facet that the answer alone does not show.
    pub fn note(&mut self, operation: &'static str, facet: &'static str) {
        let facets = self.facets.entry(operation).or_default();
        *facets.entry(facet).or_default() += 1;
    }

    /// `packet_read 0:1234 14:55 ...`
    pub fn line(&self, operation: &str) -> String {
        let mut line = operation.to_string();
        for (number, times) in self.refusals.get(operation).into_iter().flatten() {
            line += &format!(" {number}:{times}");
        }
        for (facet, times) in self.facets.get(operation).into_iter().flatten() {
            line += &format!(" {facet}:{times}");
        }
        line + "\n"
    }

    /// A line for each refusal of the operation's list in 01, for the
    /// acceptance and for each facet, that was never seen.
    pub fn unseen(&self, operation: &str) -> String {
        let mut lines = String::new();
        let refusals = self.refusals.get(operation);
        for number in [0].iter().chain(refusals::of(operation)) {
            if !refusals.is_some_and(|seen| seen.contains_key(number)) {
                lines += &format!("UNSEEN in {operation}: {number}\n");
            }
        }
        let facets = self.facets.get(operation);
        for facet in facets_of(operation) {
            if !facets.is_some_and(|seen| seen.contains_key(facet)) {
                lines += &format!("UNSEEN in {operation}: {facet}\n");
            }
        }
        lines
    }
}

fn facets_of(operation: &str) -> &'static [&'static str] {
    let found = FACETS.iter().find(|(name, _)| *name == operation);
    found.map_or(&[], |(_, facets)| facets)
}

#[cfg(test)]
mod tests {
    use super::*;

    fn written(refusal: u32) -> Written {
        Written { refusal, bytes: 0 }
    }

    #[test]
    fn what_was_never_seen_is_told() {
        let mut tally = Tally::default();
        for refusal in [21, 38, 38, 22, 16] {
            tally.count("packet_write", &written(refusal));
        }
        assert_eq!(
            tally.line("packet_write"),
            "packet_write 16:1 21:1 22:1 38:2\n"
        );
        let unseen = "UNSEEN in packet_write: 0\nUNSEEN in packet_write: 19\n";
        assert_eq!(tally.unseen("packet_write"), unseen);
    }

    /// A run in which no stamp was relative has not compared that kind.
    #[test]
    fn a_kind_that_never_came_is_told() {
        let mut tally = Tally::default();
        for kind in [0, 2] {
            let stamp = Stamp {
                kind,
                ..Stamp::default()
            };
            tally.count("stamp_read", &stamp);
        }
        for refusal in [23, 20, 24, 25] {
            let stamp = Stamp {
                refusal,
                ..Stamp::default()
            };
            tally.count("stamp_read", &stamp);
        }
        let unseen = "UNSEEN in stamp_read: relative\n";
        assert_eq!(tally.unseen("stamp_read"), unseen);
    }

    #[test]
    fn nothing_is_told_where_all_was_seen() {
        let mut tally = Tally::default();
        for refusal in [0, 21, 38, 19, 22, 16] {
            tally.count("packet_write", &written(refusal));
        }
        assert_eq!(tally.unseen("packet_write"), "");
    }
}
