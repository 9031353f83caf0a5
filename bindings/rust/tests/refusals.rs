//! Each allocation of each call is refused in turn: the call says so, what comes next is as it was, and
//! the call then goes through. It needs the memory of `bindings/c/refusing_heap.c`.
use p2p_simulated::{allocate, Error, Flow, Outgoing, State};
use std::sync::Arc;

extern "C" {
    static mut p2p_test_until_refusal: i64;
    static p2p_test_blocks: i64;
}

/// Makes the call with its first allocation refused, then with its second, and so on until it goes
/// through. Answers with what, and how many were refused.
fn each<T>(mut call: impl FnMut() -> Result<T, Error>) -> (T, i64) {
    for refused in 0.. {
        // SAFETY: this is the only test of the program, so no other thread is in the library.
        unsafe { p2p_test_until_refusal = refused };
        let answer = call();
        // SAFETY: as above.
        unsafe { p2p_test_until_refusal = -1 };
        match answer {
            Ok(answer) => return (answer, refused),
            Err(why) => assert_eq!(why, Error::OutOfMemory),
        }
    }
    unreachable!("there are not so many allocations")
}

#[test]
fn refused_calls_change_nothing() {
    let block = Arc::new(vec![7u8; 100]);
    let (mut state, mut refusals) = each(|| State::new(0u64..4));
    let (mut now, mut sent, mut done) = (0, 0, 0);
    for peer in 0..4 {
        refusals += each(|| state.limit(now, &peer, Some(1000), Some(700))).1;
    }
    refusals += each(|| state.limit_link(now, &0, &1, Some(300))).1;
    for turn in 0..10 {
        for peer in 0..4 {
            let next = state.next();
            let (completed, refused) = each(|| {
                assert_eq!(state.next(), next);
                let to = (peer + turn) % 4;
                state.enqueue(now, &peer, &to, 7, block.clone(), 5, turn % 5 != 0)
            });
            sent += 1;
            done += completed.len();
            refusals += refused;
            assert_eq!(Arc::strong_count(&block), 1 + sent - done + completed.len());
        }
        let to = |recipient, should_deliver| Outgoing {
            origin: turn % 4,
            recipient,
            channel: 8,
            message: block.clone(),
            latency: 5,
            should_deliver,
        };
        let (completed, refused) =
            each(|| state.enqueue_all(now, [to(1, true), to(2, false), to(1, true)]));
        sent += 3;
        done += completed.len();
        refusals += refused;
        drop(completed);
        assert_eq!(Arc::strong_count(&block), 1 + sent - done);
        let (flights, refused) = each(|| state.in_flight().map(|flights| flights.len()));
        assert!(flights <= sent - done);
        refusals += refused;
        now += 50_000_000;
        let (completed, refused) = each(|| state.advance(now));
        done += completed.len();
        refusals += refused;
    }
    done += each(|| state.advance(now + 1_000_000_000_000)).0.len();
    drop(state);
    assert_eq!((sent, Arc::strong_count(&block)), (done, 1));
    let flow = |id| Flow {
        id,
        origin: 1,
        recipient: id,
        delivered: true,
    };
    let flows = [flow(2), flow(3)];
    refusals += each(|| allocate(&flows, |_| Some(10), |_| None)).1;
    // SAFETY: as above.
    assert_eq!(unsafe { p2p_test_blocks }, 0);
    assert!(refusals > 100);
}
