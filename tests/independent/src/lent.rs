//! Memory as it is lent to the library: the contents between two guards.
//!
//! Contents and guards are one string of bytes, before and after the call. So a
//! byte written where none may be shows as a plain inequality.

/// Bytes of guard on each side.
pub const GUARD: usize = 32;

/// A pattern that differs from place to place, so that a guard copied onto
/// itself with a shift shows as well.
fn guard(side: u8) -> Vec<u8> {
    (0..GUARD as u8)
        .map(|at| at.wrapping_mul(37) ^ side)
        .collect()
}

/// Guard, contents, guard.
pub fn guarded(contents: &[u8]) -> Vec<u8> {
    let mut memory = guard(0xA5);
    memory.extend_from_slice(contents);
    memory.extend_from_slice(&guard(0x5A));
    memory
}

/// An answer and all lent memory after the call, in the order of the arguments.
pub struct Told<A> {
    pub answer: A,
    pub memory: Vec<Vec<u8>>,
}

impl<A> Told<A> {
    /// What the model expects: these contents, and both guards whole.
    pub fn expected(answer: A, contents: &[&[u8]]) -> Told<A> {
        let memory = contents.iter().map(|each| guarded(each)).collect();
        Told { answer, memory }
    }
}
