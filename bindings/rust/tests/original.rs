//! What the original is tested for, through the types of the original.
#[allow(dead_code)]
#[path = "../examples/original.rs"]
mod original;

use original::{Completion, Transmitter};
use std::sync::Arc;
use std::time::{Duration, SystemTime};

const START: SystemTime = SystemTime::UNIX_EPOCH;

fn at(milliseconds: u64) -> SystemTime {
    START + Duration::from_millis(milliseconds)
}

fn bytes(length: usize) -> Arc<[u8]> {
    Arc::from(vec![7; length])
}

fn send(
    state: &mut Transmitter<u64>,
    now: SystemTime,
    (origin, recipient): (u64, u64),
    length: usize,
    latency: u64,
) -> Vec<Completion<u64>> {
    let latency = Duration::from_millis(latency);
    state.enqueue(now, origin, recipient, 0, bytes(length), latency, true)
}

/// Advances event by event, and answers who receives when, in milliseconds.
fn arrivals(state: &mut Transmitter<u64>) -> Vec<(u64, Option<u128>)> {
    let mut found = Vec::new();
    while let Some(now) = state.next() {
        for done in state.advance(now) {
            let since = |at: SystemTime| at.duration_since(START).unwrap().as_millis();
            found.push((done.recipient, done.deliver_at.map(since)));
        }
    }
    found
}

#[test]
fn without_caps_a_message_takes_its_latency() {
    let mut state = Transmitter::new(START);
    let done = send(&mut state, at(3), (1, 2), 1000, 20);
    assert_eq!((done.len(), done[0].deliver_at), (1, Some(at(23))));
    assert_eq!(done[0].message, bytes(1000));
    let sooner = send(&mut state, at(4), (1, 2), 1, 5);
    assert_eq!(sooner[0].deliver_at, Some(at(23))); // not before the one that was sent first
    assert_eq!(state.next(), None);
}

#[test]
fn messages_of_a_pair_go_one_after_another() {
    let mut state = Transmitter::new(START);
    state.limit(START, &1, Some(1000), None);
    for length in [1000, 500, 250] {
        assert!(send(&mut state, START, (1, 2), length, 10).is_empty());
    }
    let wanted = [(2, Some(1010)), (2, Some(1510)), (2, Some(1760))];
    assert_eq!(arrivals(&mut state), wanted);
}

#[test]
fn messages_to_several_peers_share_what_their_origin_may_send() {
    let mut state = Transmitter::new(START);
    state.limit(START, &1, Some(3000), None);
    for recipient in [2, 3, 4] {
        send(&mut state, START, (1, recipient), 1000, 0);
    }
    let wanted = [(2, Some(1000)), (3, Some(1000)), (4, Some(1000))];
    assert_eq!(arrivals(&mut state), wanted);
}

#[test]
fn what_a_slow_recipient_leaves_goes_to_the_others() {
    let mut state = Transmitter::new(START);
    state.limit(START, &1, Some(1000), None);
    state.limit(START, &2, None, Some(100));
    send(&mut state, START, (1, 2), 100, 0);
    send(&mut state, START, (1, 3), 900, 0);
    assert_eq!(arrivals(&mut state), [(2, Some(1000)), (3, Some(1000))]);
}

#[test]
fn a_cap_that_changes_counts_from_then_on() {
    let mut state = Transmitter::new(START);
    state.limit(START, &1, Some(1000), None);
    send(&mut state, START, (1, 2), 1000, 0);
    assert!(state.advance(at(500)).is_empty());
    state.limit(at(500), &1, Some(250), None);
    assert_eq!(state.next(), Some(at(2500)));
    let freed = state.limit(at(600), &1, None, None);
    assert_eq!(freed[0].deliver_at, Some(at(600)));
}

#[test]
fn a_cap_of_zero_holds_until_it_is_raised() {
    let mut state = Transmitter::new(START);
    state.limit(START, &1, Some(0), None);
    send(&mut state, START, (1, 2), 10, 0);
    assert_eq!(state.next(), None);
    state.limit(at(1000), &1, Some(10), None);
    assert_eq!(arrivals(&mut state), [(2, Some(2000))]);
}

#[test]
fn a_dropped_message_takes_its_part_and_does_not_arrive() {
    let mut state = Transmitter::new(START);
    state.limit(START, &1, Some(1000), None);
    state.limit(START, &2, None, Some(100));
    state.enqueue(START, 1, 2, 9, bytes(500), Duration::ZERO, false);
    send(&mut state, START, (1, 3), 500, 0);
    assert_eq!(arrivals(&mut state), [(2, None), (3, Some(1000))]);
}

#[test]
fn a_later_message_does_not_overtake_an_earlier_one() {
    let mut state = Transmitter::new(START);
    state.limit(START, &1, Some(1000), None);
    send(&mut state, START, (1, 2), 100, 1000);
    send(&mut state, START, (1, 2), 100, 0);
    assert_eq!(arrivals(&mut state), [(2, Some(1100)), (2, Some(1200))]); // it starts at 1100
}

#[test]
fn the_same_calls_answer_the_same() {
    let run = || {
        let mut state = Transmitter::new(START);
        for peer in 0..5 {
            state.limit(START, &peer, Some(1000 + peer as usize), Some(700));
        }
        for pair in 0..25 {
            send(
                &mut state,
                START,
                (pair % 5, pair / 5),
                100 + pair as usize,
                pair,
            );
        }
        arrivals(&mut state)
    };
    let first = run();
    assert_eq!((first.len(), &first), (25, &run()));
}
