//! When each message arrives.
use crate::error::{result_of, Error, Turn};
use crate::held::{Held, Message};
use crate::payload::Payload;
use crate::ratio::Ratio;
use crate::raw;
use std::ptr;

/// What became of a message.
#[derive(Debug, Clone, PartialEq, Eq)]
pub struct Completion<P, M = Vec<u8>> {
    /// Who sent it.
    pub origin: P,
    /// To whom.
    pub recipient: P,
    /// The channel that was given with it.
    pub channel: u64,
    /// What was sent.
    pub message: M,
    /// The moment at which it was done, all of it sent, in nanoseconds since the start: of a dropped message, too.
    pub done_at: u64,
    /// The moment at which it arrives, in nanoseconds since the start, or `None` for a dropped message.
    pub deliver_at: Option<u64>,
}

/// A message to send with others, by [`State::enqueue_all`]. Its parts are the arguments of
/// [`State::enqueue`].
#[derive(Debug, Clone, PartialEq, Eq)]
pub struct Outgoing<P, M = Vec<u8>> {
    /// Who sends.
    pub origin: P,
    /// Who is to receive. It may be the origin.
    pub recipient: P,
    /// It comes back with the completion.
    pub channel: u64,
    /// What is sent, which comes back with the completion.
    pub message: M,
    /// From when it is done to its arrival, in nanoseconds.
    pub latency: u64,
    /// Whether it arrives; else it is dropped.
    pub should_deliver: bool,
}

/// An amount of bytes, or of bytes a second, as it is read.
#[derive(Debug, Clone, Copy, PartialEq, Eq)]
pub struct Reading {
    /// The amount itself where the reading is exact, and else the greatest whole number of 128 bits that
    /// is not above it.
    pub amount: Ratio,
    /// Whether the amount is a fraction of two numbers of 128 bits, and so is read as it is.
    pub is_exact: bool,
}

/// A message in flight, as it is read.
#[derive(Debug, Clone, Copy, PartialEq, Eq)]
pub struct InFlight<'a, P, M = Vec<u8>> {
    /// Who sends it.
    pub origin: &'a P,
    /// To whom.
    pub recipient: &'a P,
    /// The channel that was given with it.
    pub channel: u64,
    /// What is sent.
    pub message: &'a M,
    /// What was left of it at the moment `since`, in bytes.
    pub left: Reading,
    /// What it has sent since then, in bytes a second.
    pub rate: Reading,
    /// In nanoseconds since the start.
    pub since: u64,
}

/// How peers are numbered, in their order.
enum Numbering<P> {
    Listed(Vec<P>),
    By(Box<dyn Fn(&P) -> u64 + Send + Sync>),
}

/// A scheduler of messages between capped peers: it tells when each is done and when it arrives.
///
/// It has no clock. Each call but `next` says its moment, in nanoseconds since the start, and
/// answers what completes, in order. Let time go on to a moment by `advance` first, and then change
/// caps and send messages at it. A call out of turn, which goes back in time, or which changes caps or
/// sends where an event is due, is refused: see [`State::set_strict`].
///
/// The peers are those of a list, numbers, or what a function makes numbers of: see [`State::new`],
/// [`State::numbered`] and [`State::by`]. A message is anything with a length: see [`Payload`]. A call
/// that is refused leaves the scheduler as it was, and lets go of the message that it was given.
///
/// ```
/// use p2p_simulated::State;
///
/// let mut state = State::new(["berlin", "lima", "osaka"])?;
/// state.limit(0, &"lima", Some(1000), None)?;
/// state.enqueue(0, &"lima", &"osaka", 7, vec![0; 500], 1_000_000, true)?;
/// assert_eq!(state.next(), Some(500_000_000));
/// let done = state.advance(500_000_000)?;
/// assert_eq!(done[0].recipient, "osaka");
/// assert_eq!(done[0].done_at, 500_000_000);
/// assert_eq!(done[0].deliver_at, Some(501_000_000));
/// # Ok::<(), p2p_simulated::Error>(())
/// ```
pub struct State<P, M = Vec<u8>> {
    numbering: Numbering<P>,
    held: Held<P, M>,
    handle: raw::Scheduler,
    /// The next event, as the last call left it.
    next: Option<u64>,
    is_strict: bool,
}

// SAFETY: the library's own handle is proved to be `Send`, and nothing else here is shared.
unsafe impl<P: Send, M: Send> Send for State<P, M> {}

// SAFETY: what takes `&self` reads fields of this crate alone, and makes no call of the library.
unsafe impl<P: Sync, M: Sync> Sync for State<P, M> {}

/// An amount, as the library answers it.
fn reading_of(amount: raw::Amount) -> Reading {
    Reading {
        amount: Ratio::of(amount.numerator, amount.denominator),
        is_exact: amount.is_exact != 0,
    }
}

fn cap_of(cap: Option<usize>) -> raw::Cap {
    raw::Cap {
        bytes: cap.unwrap_or(0),
        is_some: cap.is_some().into(),
    }
}

impl<P: Ord + Clone, M: Payload> State<P, M> {
    /// A scheduler at moment 0, without caps and with nothing sent, between these peers. A call with a
    /// peer that is not in the list is refused with `UnknownPeer`. Pairs are taken in the order of the
    /// peers' type.
    ///
    /// # Errors
    ///
    /// `OutOfMemory` where no memory was left.
    pub fn new(peers: impl IntoIterator<Item = P>) -> Result<State<P, M>, Error> {
        State::with_first_id(peers, 0)
    }

    /// As `new`, with flow ids from `first`. Each message that starts under caps takes the next.
    ///
    /// # Errors
    ///
    /// `OutOfMemory` where no memory was left.
    pub fn with_first_id(
        peers: impl IntoIterator<Item = P>,
        first: u64,
    ) -> Result<State<P, M>, Error> {
        let mut peers: Vec<P> = peers.into_iter().collect();
        peers.sort();
        peers.dedup_by(|a, b| (*a).cmp(b).is_eq());
        State::open(Numbering::Listed(peers), first)
    }

    /// A scheduler of peers that are numbers, whichever come.
    ///
    /// # Errors
    ///
    /// `OutOfMemory` where no memory was left.
    pub fn numbered() -> Result<State<P, M>, Error>
    where
        P: Copy + Into<u64>,
    {
        State::by(|peer: &P| (*peer).into())
    }

    /// A scheduler of peers that go by the number that a function answers for each, whichever come. It
    /// has to keep their order: a lesser peer has a lesser number, the same peer always the same.
    ///
    /// # Errors
    ///
    /// `OutOfMemory` where no memory was left.
    pub fn by(number: impl Fn(&P) -> u64 + Send + Sync + 'static) -> Result<State<P, M>, Error> {
        State::open(Numbering::By(Box::new(number)), 0)
    }

    fn open(numbering: Numbering<P>, first: u64) -> Result<State<P, M>, Error> {
        let mut state = State {
            numbering,
            held: Held::new(),
            handle: raw::Scheduler {
                place: ptr::null_mut(),
                is_open: 0,
            },
            next: None,
            is_strict: true,
        };
        // SAFETY: the handle is not open, and is lent for the call alone.
        result_of(unsafe { raw::p2p_open(&mut state.handle, first) })?;
        Ok(state)
    }

    /// Whether calls out of turn are refused, as they are from the start. Otherwise they are made, by
    /// the rule from event to event, and no longer do what the simulation does. And a strict scheduler
    /// refuses at once what could only arrive past the last moment. Else such a message is refused
    /// when it would be done, and with it each call that comes to that moment.
    pub fn set_strict(&mut self, is_strict: bool) {
        self.is_strict = is_strict;
    }

    /// Sets what a peer may send and what it may receive in all from `now` on, in bytes a second.
    /// `None` is no cap.
    ///
    /// # Errors
    ///
    /// The scheduler then stays as it was.
    ///
    /// - `OutOfTurn` where it is strict, and an event is due or `now` is before the last call.
    /// - `UnknownPeer` where there is a list of peers, and this one is not in it.
    /// - `OutOfMemory` where no memory was left.
    /// - `MomentTooLate` where a message completes and would arrive past the last moment.
    /// - `FlowIdsUsedUp` where a message would start and no flow id is left.
    pub fn limit(
        &mut self,
        now: u64,
        peer: &P,
        egress: Option<usize>,
        ingress: Option<usize>,
    ) -> Result<Vec<Completion<P, M>>, Error> {
        let peer = self.number(peer)?;
        let (egress, ingress) = (cap_of(egress), cap_of(ingress));
        self.call(now, true, |handle, count| unsafe {
            raw::p2p_limit(handle, now, peer, egress, ingress, count)
        })
    }

    /// Sets what may go from one peer to another from `now` on, in bytes a second.
    ///
    /// # Errors
    ///
    /// Those of [`State::limit`].
    pub fn limit_link(
        &mut self,
        now: u64,
        origin: &P,
        recipient: &P,
        cap: Option<usize>,
    ) -> Result<Vec<Completion<P, M>>, Error> {
        let (origin, recipient) = (self.number(origin)?, self.number(recipient)?);
        self.call(now, true, |handle, count| unsafe {
            raw::p2p_limit_link(handle, now, origin, recipient, cap_of(cap), count)
        })
    }

    /// Sends a message at `now`. Where `should_deliver` is false it is dropped: it takes of what its
    /// origin may send, and does not arrive. `latency` is in nanoseconds.
    ///
    /// # Errors
    ///
    /// Those of [`State::limit`], and `MomentTooLate` also where the scheduler is strict and the
    /// message would arrive too late even if it were done at once.
    #[allow(clippy::too_many_arguments)]
    pub fn enqueue(
        &mut self,
        now: u64,
        origin: &P,
        recipient: &P,
        channel: u64,
        message: M,
        latency: u64,
        should_deliver: bool,
    ) -> Result<Vec<Completion<P, M>>, Error> {
        self.check_arrival(now, latency, should_deliver)?;
        let (from, to) = (self.number(origin)?, self.number(recipient)?);
        let length = message.length();
        let number = self.held.put(Message {
            origin: origin.clone(),
            recipient: recipient.clone(),
            channel,
            payload: message,
        });
        let flag = should_deliver.into();
        let done = self.call(now, true, |handle, count| unsafe {
            raw::p2p_enqueue_zeros(handle, now, from, to, number, length, latency, flag, count)
        });
        if done.is_err() {
            self.held.take(number);
        }
        done
    }

    /// Sends messages at `now`, one after another, as a whole or not at all. It does and answers what as
    /// many calls of `enqueue` would, in far less time.
    ///
    /// # Errors
    ///
    /// Those of [`State::enqueue`], where one of the messages would have it. None of them is then sent.
    pub fn enqueue_all(
        &mut self,
        now: u64,
        messages: impl IntoIterator<Item = Outgoing<P, M>>,
    ) -> Result<Vec<Completion<P, M>>, Error> {
        let messages: Vec<_> = messages.into_iter().collect();
        let parcels: Result<Vec<_>, Error> =
            messages.iter().map(|one| self.parcel(now, one)).collect();
        let mut parcels = parcels?;
        for (parcel, one) in parcels.iter_mut().zip(messages) {
            parcel.channel = self.held.put(Message {
                origin: one.origin,
                recipient: one.recipient,
                channel: one.channel,
                payload: one.message,
            });
        }
        let (list, many, none) = (parcels.as_ptr(), parcels.len(), [0u8; 0]);
        let done = self.call(now, true, |handle, count| unsafe {
            raw::p2p_enqueue_all(handle, now, list, many, none.as_ptr(), 0, count)
        });
        if done.is_err() {
            for parcel in parcels {
                self.held.take(parcel.channel);
            }
        }
        done
    }

    /// What the library is told of a message of a list.
    fn parcel(&self, now: u64, one: &Outgoing<P, M>) -> Result<raw::Parcel, Error> {
        self.check_arrival(now, one.latency, one.should_deliver)?;
        Ok(raw::Parcel {
            origin: self.number(&one.origin)?,
            recipient: self.number(&one.recipient)?,
            channel: 0,
            from: 0,
            length: one.message.length(),
            latency: one.latency,
            should_deliver: one.should_deliver.into(),
        })
    }

    /// Lets time go on to `now`, and answers what completes up to then and at it, in order.
    ///
    /// # Errors
    ///
    /// Those of [`State::limit`] but `UnknownPeer`; an advance is out of turn only before the last call.
    pub fn advance(&mut self, now: u64) -> Result<Vec<Completion<P, M>>, Error> {
        self.call(now, false, |handle, count| unsafe {
            raw::p2p_advance(handle, now, count)
        })
    }

    /// As `advance`, with the number of events on the way: finishes and starts of messages.
    ///
    /// # Errors
    ///
    /// Those of [`State::advance`].
    #[allow(clippy::type_complexity)]
    pub fn advance_counted(&mut self, now: u64) -> Result<(Vec<Completion<P, M>>, u128), Error> {
        let mut events = raw::Wide::of(0);
        let done = self.call(now, false, |handle, count| unsafe {
            raw::p2p_advance_counted(handle, now, count, &mut events)
        })?;
        Ok((done, events.get()))
    }

    /// The moment of the next event, unless a cap changes or a message is sent before.
    pub fn next(&self) -> Option<u64> {
        self.next
    }

    /// Whether a call at `now` would come in its turn; `acts` says whether it sets caps or sends.
    ///
    /// # Errors
    ///
    /// Why it would not.
    pub fn in_turn(&mut self, now: u64, acts: bool) -> Result<(), Turn> {
        let mut at = 0;
        // SAFETY: as in `call`. The scheduler is open.
        match unsafe { raw::p2p_in_turn(&mut self.handle, now, acts.into(), &mut at) } {
            raw::GONE_BY => Err(Turn::GoneBy(at)),
            raw::EVENT_DUE => Err(Turn::EventDue(at)),
            _ => Ok(()),
        }
    }

    /// What is in flight, in order of start. At most one message of each ordered pair is.
    ///
    /// # Errors
    ///
    /// `OutOfMemory` where no memory was left.
    pub fn in_flight(&mut self) -> Result<Vec<InFlight<'_, P, M>>, Error> {
        let mut flights = vec![raw::Flight::none(); 16];
        loop {
            let (out, room, mut count) = (flights.as_mut_ptr(), flights.len(), 0);
            // SAFETY: as in `call`; the pointer and the length are those of one list.
            result_of(unsafe { raw::p2p_in_flight(&mut self.handle, out, room, &mut count) })?;
            let is_all = count <= room;
            flights.resize(count, raw::Flight::none());
            if is_all {
                break;
            }
        }
        let read = flights.iter().map(|flight| {
            let message = self.held.get(flight.channel);
            InFlight {
                origin: &message.origin,
                recipient: &message.recipient,
                channel: message.channel,
                message: &message.payload,
                left: reading_of(flight.left),
                rate: reading_of(flight.rate),
                since: flight.since,
            }
        });
        Ok(read.collect())
    }

    /// How many of the messages in flight got their rate anew when rates were last given. It counts
    /// work, and has no part in what is answered.
    pub fn rated_anew(&mut self) -> usize {
        // SAFETY: as in `call`.
        unsafe { raw::p2p_rated_anew(&mut self.handle) }
    }

    /// Whether a message could still arrive, where that matters.
    fn check_arrival(&self, now: u64, latency: u64, should_deliver: bool) -> Result<(), Error> {
        if self.is_strict && should_deliver && now.checked_add(latency).is_none() {
            return Err(Error::MomentTooLate);
        }
        Ok(())
    }

    /// The number of a peer: its place in the order of its type, or what the function says.
    fn number(&self, peer: &P) -> Result<u64, Error> {
        match &self.numbering {
            Numbering::By(number) => Ok(number(peer)),
            Numbering::Listed(peers) => peers
                .binary_search(peer)
                .map(|place| place as u64)
                .map_err(|_| Error::UnknownPeer),
        }
    }

    /// Makes a call in its turn, and answers what it completed.
    fn call(
        &mut self,
        now: u64,
        acts: bool,
        make: impl FnOnce(*mut raw::Scheduler, *mut usize) -> u32,
    ) -> Result<Vec<Completion<P, M>>, Error> {
        if self.is_strict {
            self.in_turn(now, acts).map_err(Error::OutOfTurn)?;
        }
        let mut count = 0;
        // SAFETY: the handle is as the last call left it, and it and `count` are lent for the call
        // alone, as are the slices of the caller, each with its length.
        result_of(make(&mut self.handle, &mut count))?;
        let mut next = raw::Moment { at: 0, is_some: 0 };
        // SAFETY: as above. The scheduler is open, so the status says nothing.
        let _open = unsafe { raw::p2p_next(&mut self.handle, &mut next) };
        self.next = (next.is_some != 0).then_some(next.at);
        Ok(self.completions(count))
    }

    /// What the last call that was made completed.
    fn completions(&mut self, count: usize) -> Vec<Completion<P, M>> {
        let mut all = Vec::with_capacity(count);
        let mut records = [raw::Done::none(); 16];
        while all.len() < count {
            // SAFETY: as in `call`; the pointer and the length are those of one array.
            let written = unsafe {
                raw::p2p_completions(
                    &mut self.handle,
                    all.len(),
                    records.as_mut_ptr(),
                    records.len(),
                )
            };
            if written == 0 {
                break;
            }
            for record in &records[..written] {
                let message = self.held.take(record.channel);
                all.push(Completion {
                    origin: message.origin,
                    recipient: message.recipient,
                    channel: message.channel,
                    message: message.payload,
                    done_at: record.done_at,
                    deliver_at: (record.deliver_at.is_some != 0).then_some(record.deliver_at.at),
                });
            }
        }
        all
    }
}

impl<P, M> Drop for State<P, M> {
    fn drop(&mut self) {
        // SAFETY: the handle is as the last call left it; closing one that is not open does nothing.
        unsafe { raw::p2p_close(&mut self.handle) }
    }
}
