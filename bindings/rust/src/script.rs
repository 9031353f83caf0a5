//! Scripts.
use crate::raw;

/// How the run of a script ended.
#[derive(Debug, Clone, Copy, PartialEq, Eq)]
pub enum Outcome {
    /// It was read to its end.
    Whole,
    /// The line of that number, counted from 1, is not of the language. What stands before it was run.
    BadLine(u64),
    /// No memory was left outside a command.
    NoMemory,
}

/// Runs a script of `docs/SCRIPT.md`, and answers what it prints and how it ended.
///
/// ```
/// let (printed, outcome) = p2p_simulated::run(b"limit 0 1 1000 -\nenqueue 0 1 2 7 500 0 1\nnext\n");
/// assert_eq!(printed, b"next 500000000\n");
/// assert_eq!(outcome, p2p_simulated::Outcome::Whole);
/// ```
pub fn run(script: &[u8]) -> (Vec<u8>, Outcome) {
    let mut out = vec![0; script.len().saturating_mul(2).max(4096)];
    loop {
        let (mut printed, mut bad_line) = (0, 0);
        // SAFETY: each pointer and its length are those of one slice, and all is lent for the call alone.
        let status = unsafe {
            raw::p2p_run(
                script.as_ptr(),
                script.len(),
                out.as_mut_ptr(),
                out.len(),
                &mut printed,
                &mut bad_line,
            )
        };
        if printed > out.len() {
            out = vec![0; printed];
            continue;
        }
        out.truncate(printed);
        let outcome = match status {
            0 => Outcome::Whole,
            2 => Outcome::BadLine(bad_line),
            _ => Outcome::NoMemory,
        };
        return (out, outcome);
    }
}
