//! Why a call was refused.
use std::fmt;

/// Why a call was refused. The scheduler is then as it was.
#[derive(Debug, Clone, Copy, PartialEq, Eq)]
pub enum Error {
    /// No memory was left.
    OutOfMemory,
    /// A rate is no fraction of two numbers below 2^128. Only the planner answers it.
    NumberTooLarge,
    /// A message would arrive past the last moment, 18446744073709551615 nanoseconds.
    MomentTooLate,
    /// A message would start, and no flow id is left for it.
    FlowIdsUsedUp,
    /// The peer is none of those that the scheduler was made with. Nothing was asked of it.
    UnknownPeer,
    /// The call is out of turn, and the scheduler is strict. Nothing was asked of it.
    OutOfTurn(Turn),
}

/// Why a call is out of turn.
#[derive(Debug, Clone, Copy, PartialEq, Eq)]
pub enum Turn {
    /// An event is due at that moment, which has come: advance to it first.
    EventDue(u64),
    /// The last call that was made was at that moment, which is later.
    GoneBy(u64),
}

impl fmt::Display for Error {
    fn fmt(&self, f: &mut fmt::Formatter<'_>) -> fmt::Result {
        f.write_str(match self {
            Error::OutOfMemory => "out of memory",
            Error::NumberTooLarge => "number too large",
            Error::MomentTooLate => "moment too late",
            Error::FlowIdsUsedUp => "flow ids used up",
            Error::UnknownPeer => "unknown peer",
            Error::OutOfTurn(turn) => return write!(f, "out of turn: {turn}"),
        })
    }
}

impl fmt::Display for Turn {
    fn fmt(&self, f: &mut fmt::Formatter<'_>) -> fmt::Result {
        match self {
            Turn::EventDue(moment) => write!(f, "an event is due at {moment}"),
            Turn::GoneBy(moment) => write!(f, "the last call was at {moment}"),
        }
    }
}

impl std::error::Error for Error {}

/// What a status of the library says.
pub(crate) fn result_of(status: u32) -> Result<(), Error> {
    match status {
        0 => Ok(()),
        1 => Err(Error::OutOfMemory),
        2 => Err(Error::NumberTooLarge),
        3 => Err(Error::MomentTooLate),
        4 => Err(Error::FlowIdsUsedUp),
        _ => unreachable!("a scheduler of this crate is open as long as it lives"),
    }
}
