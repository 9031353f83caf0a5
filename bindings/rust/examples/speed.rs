//! Calls a second: messages under a cap, one after another.
use p2p_simulated::{Error, State, Zeros};
use std::time::Instant;

const MESSAGES: u64 = 200_000;

fn main() -> Result<(), Error> {
    let mut state = State::new([1u64, 2])?;
    state.limit(0, &1, Some(1000), None)?;
    let from = Instant::now();
    let mut now = 0;
    for _ in 0..MESSAGES {
        state.enqueue(now, &1, &2, 3, Zeros(1000), 0, true)?;
        now = state.next().expect("a message is in flight");
        state.advance(now)?;
    }
    println!(
        "rust: {:.0} calls a second",
        3.0 * MESSAGES as f64 / from.elapsed().as_secs_f64()
    );
    Ok(())
}
