//! The scheduler with the types of the crate that it follows. What is refused is a panic.
#![cfg_attr(rustfmt, rustfmt_skip)]
use p2p_simulated::{Error, State};
use std::{sync::Arc, time::{Duration, SystemTime}};

type Body = Arc<[u8]>;
type Answer<P> = Result<Vec<p2p_simulated::Completion<P, Body>>, Error>;

/// What became of a message.
#[derive(Debug, Clone, PartialEq, Eq)]
pub struct Completion<P> {
    pub origin: P,
    pub recipient: P,
    pub channel: u64,
    pub message: Body,
    pub deliver_at: Option<SystemTime>,
}

pub struct Transmitter<P> {
    state: State<P, Body>,
    start: SystemTime,
}

impl<P: Ord + Copy + Into<u64>> Transmitter<P> {
    pub fn new(start: SystemTime) -> Self { Self { state: State::numbered().expect("memory"), start } }

    pub fn limit(
        &mut self, now: SystemTime, peer: &P, egress: Option<usize>, ingress: Option<usize>,
    ) -> Vec<Completion<P>> {
        let done = self.state.limit(self.since_start(now), peer, egress, ingress);
        self.completions(done)
    }

    #[allow(clippy::too_many_arguments)]
    pub fn enqueue(
        &mut self, now: SystemTime, origin: P, recipient: P, channel: u64, message: Body, latency: Duration, kept: bool,
    ) -> Vec<Completion<P>> {
        let (at, latency) = (self.since_start(now), latency.as_nanos() as u64);
        let done = self.state.enqueue(at, &origin, &recipient, channel, message, latency, kept);
        self.completions(done)
    }

    pub fn advance(&mut self, now: SystemTime) -> Vec<Completion<P>> {
        let done = self.state.advance(self.since_start(now));
        self.completions(done)
    }

    pub fn next(&self) -> Option<SystemTime> {
        self.state.next().map(|at| self.start + Duration::from_nanos(at))
    }

    fn since_start(&self, moment: SystemTime) -> u64 {
        moment.duration_since(self.start).expect("no moment before the start").as_nanos() as u64
    }

    fn completions(&self, done: Answer<P>) -> Vec<Completion<P>> {
        let at = |at| self.start + Duration::from_nanos(at);
        done.unwrap_or_else(|why| panic!("{why}")).into_iter().map(|it| Completion {
            deliver_at: it.deliver_at.map(at),
            origin: it.origin, recipient: it.recipient, channel: it.channel, message: it.message,
        }).collect()
    }
}

fn main() {
    let (start, mut state) = (SystemTime::UNIX_EPOCH, Transmitter::new(SystemTime::UNIX_EPOCH));
    state.limit(start, &1u64, Some(1000), None);
    state.enqueue(start, 1, 2, 7, Arc::from([0; 500]), Duration::ZERO, true);
    println!("{:?}", state.advance(state.next().unwrap())[0].deliver_at);
}
