//! What the scheduler, the planner and scripts answer through the crate.
use p2p_simulated::{
    allocate, allocate_counted, allocate_linked, duration, run, transfer, Error, Flow, Outcome,
    Outgoing, Payload, Rate, Ratio, State, Turn, Zeros,
};
use std::sync::Arc;
use std::thread;

fn whole(n: u128) -> Rate {
    Rate::Finite(Ratio::from_whole(n))
}

fn ratio(numerator: u128, denominator: u128) -> Ratio {
    Ratio::new(numerator, denominator).unwrap()
}

#[test]
fn two_messages_share_a_cap() {
    let mut state = State::new([3u64, 1, 2, 2]).unwrap();
    assert_eq!(state.limit(0, &1, Some(1000), None), Ok(vec![]));
    assert_eq!(
        state.enqueue(0, &1, &2, 7, vec![1; 1000], 500_000_000, true),
        Ok(vec![])
    );
    assert_eq!(
        state.enqueue(0, &1, &3, 7, vec![2; 500], 0, true),
        Ok(vec![])
    );
    assert_eq!(state.next(), Some(1_000_000_000));
    let done = state.advance(1_000_000_000).unwrap();
    assert_eq!(
        (done.len(), done[0].recipient, done[0].deliver_at),
        (1, 3, Some(1_000_000_000))
    );
    assert_eq!(done[0].message, [2; 500]);
    let (done, events) = state.advance_counted(1_500_000_000).unwrap();
    assert_eq!(
        (done.len(), done[0].recipient, done[0].deliver_at, events),
        (1, 2, Some(2_000_000_000), 1)
    );
    assert_eq!(done[0].done_at, 1_500_000_000);
    assert_eq!(state.next(), None);
}

#[test]
fn a_refused_call_changes_nothing() {
    let mut state = State::with_first_id(["a", "b"], u64::MAX).unwrap();
    assert_eq!(
        state.enqueue(1, &"a", &"b", 0, Zeros(5), u64::MAX, true),
        Err(Error::MomentTooLate)
    );
    assert_eq!(state.limit(0, &"c", None, None), Err(Error::UnknownPeer));
    state.limit_link(0, &"a", &"b", Some(1)).unwrap();
    assert_eq!(
        state.enqueue(1, &"a", &"b", 0, Zeros(0), 0, true),
        Err(Error::FlowIdsUsedUp)
    );
    assert_eq!(state.next(), None);
}

#[test]
fn a_call_out_of_turn_is_refused() {
    let mut state = State::numbered().unwrap();
    state.limit(5, &1u64, Some(1000), None).unwrap();
    state.enqueue(5, &1, &2, 7, Zeros(1000), 3, true).unwrap();
    let due = Error::OutOfTurn(Turn::EventDue(1_000_000_005));
    let gone = Error::OutOfTurn(Turn::GoneBy(5));
    assert_eq!(
        due.to_string(),
        "out of turn: an event is due at 1000000005"
    );
    assert_eq!(gone.to_string(), "out of turn: the last call was at 5");
    let late = 1_000_000_005;
    assert_eq!(state.limit(late, &1, None, None), Err(due));
    assert_eq!(state.limit_link(late, &1, &2, None), Err(due));
    assert_eq!(state.enqueue(late, &1, &2, 7, Zeros(1), 0, true), Err(due));
    assert_eq!(state.advance(4), Err(gone));
    assert_eq!(state.advance_counted(4), Err(gone));
    assert_eq!(state.limit(4, &1, None, None), Err(gone));
    assert_eq!(
        state.enqueue(6, &1, &2, 7, Zeros(1), u64::MAX - 5, true),
        Err(Error::MomentTooLate)
    );
    assert_eq!(
        state.enqueue(6, &1, &2, 8, Zeros(1), u64::MAX, false),
        Ok(vec![])
    );
    assert_eq!(state.in_turn(late - 1, true), Ok(()));
    assert_eq!(state.in_turn(late, true), Err(Turn::EventDue(late)));
    assert_eq!(state.in_turn(late, false), Ok(()));
    assert_eq!(state.in_turn(5, false), Err(Turn::GoneBy(6)));
    assert_eq!(state.advance(late).unwrap()[0].deliver_at, Some(late + 3));
    state.set_strict(false);
    assert_eq!(state.limit(4, &1, None, None).unwrap()[0].channel, 8);
    assert_eq!(
        state.enqueue(3, &1, &2, 7, Zeros(1), u64::MAX, true),
        Err(Error::MomentTooLate)
    );
}

#[test]
fn a_broadcast_shares_its_message() {
    let mut state = State::new(0u64..10).unwrap();
    let block = Arc::new(vec![7u8; 1000]);
    state.limit(0, &0, Some(9000), None).unwrap();
    for to in 1..10 {
        let sent = state.enqueue(0, &0, &to, to, block.clone(), 1, to != 9);
        assert_eq!(sent, Ok(vec![]));
    }
    let done = state.advance(1_000_000_000).unwrap();
    assert_eq!(Arc::strong_count(&block), 10);
    for (done, to) in done.iter().zip(1..) {
        assert!(Arc::ptr_eq(&done.message, &block));
        assert_eq!((done.recipient, done.channel), (to, to));
        assert_eq!(done.done_at, 1_000_000_000);
        assert_eq!(done.deliver_at, (to != 9).then_some(1_000_000_001));
    }
    drop(done);
    let strange = state.enqueue(1_000_000_000, &1, &77, 0, block.clone(), 0, true);
    assert_eq!(strange, Err(Error::UnknownPeer));
    assert_eq!((state.next(), Arc::strong_count(&block)), (None, 1));
}

#[test]
fn many_messages_go_by_one_call() {
    let mut state = State::new(["a", "b", "c"]).unwrap();
    let block = Arc::new(vec![7u8; 1000]);
    let to = |recipient, channel, latency| Outgoing {
        origin: "a",
        recipient,
        channel,
        message: block.clone(),
        latency,
        should_deliver: recipient != "c",
    };
    state.limit(0, &"a", Some(2000), None).unwrap();
    let sent = state.enqueue_all(3, [to("b", 7, 5), to("c", 8, 0)]);
    assert_eq!(sent, Ok(vec![]));
    for (wrong, why) in [
        (to("d", 7, 0), Error::UnknownPeer),
        (to("b", 7, u64::MAX - 3), Error::MomentTooLate),
    ] {
        assert_eq!(state.enqueue_all(4, [to("b", 9, 0), wrong]), Err(why));
    }
    let gone = Error::OutOfTurn(Turn::GoneBy(3));
    assert_eq!(state.enqueue_all(2, [to("b", 9, 0)]), Err(gone));
    assert_eq!(Arc::strong_count(&block), 3);
    let done = state.advance(1_000_000_003).unwrap();
    let told = |at: usize| (done[at].recipient, done[at].channel, done[at].deliver_at);
    assert_eq!((done.len(), told(0)), (2, ("b", 7, Some(1_000_000_008))));
    assert_eq!(told(1), ("c", 8, None));
    assert!(Arc::ptr_eq(&done[0].message, &block));
    assert_eq!(state.enqueue_all(1_000_000_003, []), Ok(vec![]));
}

#[test]
fn what_is_in_flight_is_told() {
    let mut state = State::new([1u64, 2, 3]).unwrap();
    assert_eq!(state.in_flight(), Ok(vec![]));
    state.limit(0, &1, Some(1000), None).unwrap();
    for (to, channel, length) in [(2, 7, 1000), (3, 8, 500), (3, 9, 700)] {
        let sent = state.enqueue(0, &1, &to, channel, Zeros(length), 0, true);
        assert_eq!(sent, Ok(vec![]));
    }
    assert_eq!(state.rated_anew(), 2);
    state.limit(400_000_001, &1, Some(1001), None).unwrap();
    let flights = state.in_flight().unwrap();
    let left = [
        ratio(1_599_999_999, 2_000_000),
        ratio(599_999_999, 2_000_000),
    ];
    assert_eq!(flights.len(), 2);
    for (at, flight) in flights.iter().enumerate() {
        let known = (*flight.origin, *flight.recipient, flight.channel);
        assert_eq!(known, (1, at as u64 + 2, at as u64 + 7));
        assert_eq!(flight.message.length(), [1000, 500][at]);
        assert_eq!((flight.left.amount, flight.left.is_exact), (left[at], true));
        assert_eq!(
            (flight.rate.amount, flight.since),
            (ratio(1001, 2), 400_000_001)
        );
    }
    let done = state.advance(999_500_000).unwrap();
    assert_eq!((done.len(), done[0].channel), (1, 8));
    // this one comes after it, though it is held where the one that is done was
    let sent = state.enqueue(999_500_000, &1, &3, 10, Zeros(5), 0, true);
    assert_eq!(sent, Ok(vec![]));
    let behind = state.in_flight().unwrap().pop().unwrap();
    assert_eq!((behind.channel, *behind.message), (9, Zeros(700)));
    let mut state = State::numbered().unwrap();
    state.limit(0, &1u64, Some(1_000_000_000), None).unwrap();
    for place in 0..100 {
        let sent = state.enqueue(place, &1, &(place + 2), 7, Zeros(1_000_000), 0, true);
        assert_eq!(sent, Ok(vec![]));
    }
    let flights = state.in_flight().unwrap();
    assert_eq!((flights.len(), *flights[99].recipient), (100, 101));
    assert_eq!(flights[0].left.amount, Ratio::from_whole(999_994));
    assert!(!flights[0].left.is_exact && flights[0].rate.is_exact);
}

#[test]
fn peers_go_by_what_a_function_says() {
    let mut state = State::by(|peer: &&str| peer.as_bytes()[0].into()).unwrap();
    state.limit(0, &"lima", Some(1000), None).unwrap();
    for to in ["oslo", "rome"] {
        state
            .enqueue(0, &"lima", &to, 0, Zeros(500), 0, true)
            .unwrap();
    }
    let done = state.advance(1_000_000_000).unwrap();
    assert_eq!((done[0].recipient, done[1].recipient), ("oslo", "rome"));
}

#[test]
fn a_message_is_what_has_a_length() {
    struct Block {
        height: u64,
    }
    impl Payload for Block {
        fn length(&self) -> usize {
            1 << 20
        }
    }
    let mut state = State::numbered().unwrap();
    state.limit(0, &1u32, Some(1 << 20), None).unwrap();
    state
        .enqueue(0, &1, &2, 0, Block { height: 7 }, 0, true)
        .unwrap();
    assert_eq!(state.advance(1_000_000_000).unwrap()[0].message.height, 7);
    let mut state = State::numbered().unwrap();
    let endless = state.enqueue(0, &1u8, &2, 0, Zeros(usize::MAX), 0, true);
    assert_eq!(endless.unwrap()[0].message, Zeros(usize::MAX));
}

#[test]
fn fractions_are_reckoned_exactly() {
    assert_eq!(ratio(1, 3).checked_add(ratio(1, 6)), Some(ratio(1, 2)));
    assert_eq!(ratio(1, 3).checked_sub(ratio(1, 2)), None);
    assert_eq!(ratio(u128::MAX, 1).checked_mul(ratio(2, 1)), None);
    assert_eq!(
        ratio(u128::MAX, 2).checked_mul(ratio(2, 3)),
        Some(ratio(u128::MAX / 3, 1))
    );
    assert_eq!(
        (ratio(1, 2).checked_div(Ratio::zero()), Ratio::new(1, 0)),
        (None, None)
    );
    assert!(ratio(u128::MAX, u128::MAX - 1) < ratio(u128::MAX - 1, u128::MAX - 2));
    assert!(ratio(7, 3) > ratio(2, 1) && ratio(2, 1) > ratio(5, 3) && ratio(0, 9) == Ratio::zero());
    assert_eq!((ratio(7, 3).ceil(), ratio(6, 3).ceil()), (3, 2));
    let third = Rate::Finite(ratio(1, 3));
    assert_eq!(
        duration(&third, &Ratio::from_whole(1)),
        Ok(Some(3_000_000_000))
    );
    assert_eq!(
        duration(&Rate::Unlimited, &Ratio::from_whole(1)),
        Ok(Some(0))
    );
    assert_eq!(duration(&whole(0), &Ratio::zero()), Ok(None));
    assert_eq!(
        duration(&whole(1), &Ratio::from_whole(u128::MAX)),
        Err(Error::NumberTooLarge)
    );
    assert_eq!(
        transfer(&third, 1_000_000_000, Ratio::from_whole(1)),
        Ok(ratio(2, 3))
    );
    assert_eq!(
        transfer(&third, 4_000_000_000, Ratio::from_whole(1)),
        Ok(Ratio::zero())
    );
    assert_eq!(
        transfer(&Rate::Unlimited, 0, Ratio::from_whole(1)),
        Ok(Ratio::zero())
    );
}

#[test]
fn a_dropped_message_does_not_arrive() {
    let mut state = State::new(["a", "b"]).unwrap();
    let done = state
        .enqueue(4, &"a", &"b", 3, "dropped", 9, false)
        .unwrap();
    assert_eq!((done[0].message, done[0].deliver_at), ("dropped", None));
    assert_eq!(done[0].done_at, 4);
}

#[test]
fn rates_are_max_min_fair() {
    let flow = |id, origin, recipient| Flow {
        id,
        origin,
        recipient,
        delivered: true,
    };
    let flows = [flow(1, "a", "b"), flow(2, "a", "c"), flow(3, "d", "e")];
    let egress = |peer: &&str| (*peer == "a").then_some(50000);
    let rates = allocate(&flows, egress, |peer| (*peer == "b").then_some(1000)).unwrap();
    assert_eq!(
        rates.into_iter().collect::<Vec<_>>(),
        [(1, whole(1000)), (2, whole(49000)), (3, Rate::Unlimited)]
    );
    let rates = allocate_linked(
        &flows,
        egress,
        |_| None,
        |_, recipient| (*recipient == "c").then_some(1),
    )
    .unwrap();
    assert_eq!((rates[&1], rates[&2]), (whole(49999), whole(1)));
    let (rates, rounds) = allocate_counted(&flows, |_| Some(u128::MAX), |_| None).unwrap();
    assert_eq!((rates[&3], rounds), (whole(u128::MAX), 2));
    let all: Vec<_> = (0..200).map(|id| flow(id, "a", "b")).collect();
    let one_third = allocate(&all[..3], |_| Some(1), |_| None).unwrap();
    assert_eq!(one_third[&0], Rate::Finite(ratio(1, 3)));
}

#[test]
fn a_scheduler_moves_between_threads() {
    let mut state = State::new([1u64, 2]).unwrap();
    state.limit(0, &1, Some(10), None).unwrap();
    let state = thread::spawn(move || {
        state.enqueue(0, &1, &2, 0, Zeros(10), 0, true).unwrap();
        state
    })
    .join()
    .unwrap();
    assert_eq!(state.next(), Some(1_000_000_000));
}

#[test]
fn a_script_ends_as_linkrun_does() {
    assert_eq!(
        run(b"next\nnext 1\n"),
        (b"next -\n".to_vec(), Outcome::BadLine(2))
    );
    let (printed, outcome) = run("flow 1 1 2 1\nrates\n".repeat(1000).as_bytes());
    assert_eq!((printed.len(), outcome), (17 * 1000, Outcome::Whole));
}
