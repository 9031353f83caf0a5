//! A simulated link scheduler, and the max-min fair rates behind it, over a library whose every
//! function is proved to meet its contract.
//!
//! - [`State`] schedules messages between capped peers, and tells when each arrives.
//! - [`allocate`] and [`allocate_linked`] plan: who sends how fast. [`allocate_routes`] does so over any
//!   network, and [`allocate_weighted_routes`] by weight.
//! - [`run`] runs a script, as the program `linkrun` does.
//!
//! The proofs end where C begins. This crate upholds what is owed there: each pointer goes with the
//! length of its slice, none is kept, and one call at a time uses a scheduler.
#![warn(missing_docs)]

mod bandwidth;
mod error;
mod held;
mod payload;
mod ratio;
mod raw;
mod routes;
mod script;
mod transmitter;

pub use bandwidth::{
    allocate, allocate_counted, allocate_linked, allocate_linked_counted, duration, transfer, Flow,
    Rate,
};
pub use error::{Error, Turn};
pub use payload::{Payload, Zeros};
pub use ratio::Ratio;
pub use routes::{allocate_routes, allocate_weighted_routes, RouteError};
pub use script::{run, Outcome};
pub use transmitter::{Completion, InFlight, Outgoing, Reading, State};
