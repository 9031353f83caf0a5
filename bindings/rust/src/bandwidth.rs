//! Who sends how fast.
use crate::error::{result_of, Error};
use crate::ratio::Ratio;
use crate::raw;
use std::collections::BTreeMap;

/// Something that goes from one peer to another.
#[derive(Debug, Clone, PartialEq, Eq)]
pub struct Flow<P> {
    /// The name under which its rate is answered. Of flows with one id the last decides.
    pub id: u64,
    /// Who sends.
    pub origin: P,
    /// Who is to receive.
    pub recipient: P,
    /// Whether it arrives. One that does not takes nothing of what its recipient may receive.
    pub delivered: bool,
}

/// How fast a flow may send.
#[derive(Debug, Clone, Copy, PartialEq, Eq, Hash)]
pub enum Rate {
    /// No cap holds for it.
    Unlimited,
    /// So many bytes a second.
    Finite(Ratio),
}

/// The max-min fair rate of each flow, by its id, under the caps of the peers.
///
/// The closures answer a peer's cap in bytes a second, or `None` where it has none, and are called
/// once for each peer.
///
/// # Errors
///
/// `NumberTooLarge` where a rate is no fraction of 128 bits, for which there have to be more than
/// sixteen flows or a cap of 2^64 or more. `OutOfMemory` where no memory was left.
///
/// ```
/// use p2p_simulated::{allocate, Flow, Rate, Ratio};
///
/// let flows = [
///     Flow { id: 1, origin: "lima", recipient: "oslo", delivered: true },
///     Flow { id: 2, origin: "lima", recipient: "rome", delivered: true },
/// ];
/// let egress = |peer: &&str| if *peer == "lima" { Some(50000) } else { None };
/// let ingress = |peer: &&str| if *peer == "oslo" { Some(1000) } else { None };
/// let rates = allocate(&flows, egress, ingress)?;
/// assert_eq!(rates[&2], Rate::Finite(Ratio::from_whole(49000)));
/// # Ok::<(), p2p_simulated::Error>(())
/// ```
pub fn allocate<P: Ord + Clone>(
    flows: &[Flow<P>],
    egress_cap: impl FnMut(&P) -> Option<u128>,
    ingress_cap: impl FnMut(&P) -> Option<u128>,
) -> Result<BTreeMap<u64, Rate>, Error> {
    allocate_linked(flows, egress_cap, ingress_cap, |_, _| None)
}

/// As [`allocate`], with caps on what goes from one peer to another.
///
/// # Errors
///
/// Those of [`allocate`].
pub fn allocate_linked<P: Ord + Clone>(
    flows: &[Flow<P>],
    egress_cap: impl FnMut(&P) -> Option<u128>,
    ingress_cap: impl FnMut(&P) -> Option<u128>,
    link_cap: impl FnMut(&P, &P) -> Option<u128>,
) -> Result<BTreeMap<u64, Rate>, Error> {
    let (rates, _rounds) = allocate_linked_counted(flows, egress_cap, ingress_cap, link_cap)?;
    Ok(rates)
}

/// As [`allocate`], with the number of rounds of filling: how many different finite rates there are.
///
/// # Errors
///
/// Those of [`allocate`].
pub fn allocate_counted<P: Ord + Clone>(
    flows: &[Flow<P>],
    egress_cap: impl FnMut(&P) -> Option<u128>,
    ingress_cap: impl FnMut(&P) -> Option<u128>,
) -> Result<(BTreeMap<u64, Rate>, u128), Error> {
    allocate_linked_counted(flows, egress_cap, ingress_cap, |_, _| None)
}

/// As [`allocate_linked`], with the number of rounds of filling.
///
/// # Errors
///
/// Those of [`allocate`].
pub fn allocate_linked_counted<P: Ord + Clone>(
    flows: &[Flow<P>],
    egress_cap: impl FnMut(&P) -> Option<u128>,
    ingress_cap: impl FnMut(&P) -> Option<u128>,
    mut link_cap: impl FnMut(&P, &P) -> Option<u128>,
) -> Result<(BTreeMap<u64, Rate>, u128), Error> {
    let peers = peers_of(flows);
    let listed = listed(flows, &peers);
    let egress = caps_of(&peers, egress_cap);
    let ingress = caps_of(&peers, ingress_cap);
    let links = links_of(&listed, |origin, recipient| {
        link_cap(peers[origin], peers[recipient])
    });
    let unlimited = raw::Rate {
        numerator: raw::Wide::of(0),
        denominator: raw::Wide::of(1),
        is_limited: 0,
    };
    let mut rates = vec![unlimited; listed.len()];
    let mut rounds = raw::Wide::of(0);
    // SAFETY: each pointer and its length are those of one vector, and all is lent for the call alone.
    result_of(unsafe {
        raw::p2p_allocate(
            listed.as_ptr(),
            listed.len(),
            egress.as_ptr(),
            egress.len(),
            ingress.as_ptr(),
            ingress.len(),
            links.as_ptr(),
            links.len(),
            rates.as_mut_ptr(),
            rates.len(),
            &mut rounds,
        )
    })?;
    let by_id = listed
        .iter()
        .zip(&rates)
        .map(|(flow, rate)| (flow.id, rate_of(rate)))
        .collect();
    Ok((by_id, rounds.get()))
}

/// The peers of the flows, each once, in order. A peer goes by its place.
fn peers_of<P: Ord>(flows: &[Flow<P>]) -> Vec<&P> {
    let mut peers: Vec<&P> = flows
        .iter()
        .flat_map(|flow| [&flow.origin, &flow.recipient])
        .collect();
    peers.sort();
    peers.dedup_by(|a, b| (*a).cmp(b).is_eq());
    peers
}

fn listed<P: Ord>(flows: &[Flow<P>], peers: &[&P]) -> Vec<raw::Flow> {
    let number = |peer: &P| {
        peers
            .binary_search(&peer)
            .expect("each peer of a flow is listed") as u64
    };
    flows
        .iter()
        .map(|flow| raw::Flow {
            id: flow.id,
            origin: number(&flow.origin),
            recipient: number(&flow.recipient),
            delivered: flow.delivered.into(),
        })
        .collect()
}

fn caps_of<P>(peers: &[&P], mut cap: impl FnMut(&P) -> Option<u128>) -> Vec<raw::PeerCap> {
    (0..)
        .zip(peers)
        .filter_map(|(number, peer)| {
            Some(raw::PeerCap {
                peer: number,
                cap: raw::Wide::of(cap(peer)?),
            })
        })
        .collect()
}

/// The cap of each pair of peers that has flows, asked for once.
fn links_of(
    flows: &[raw::Flow],
    mut cap: impl FnMut(usize, usize) -> Option<u128>,
) -> Vec<raw::LinkCap> {
    let mut pairs: Vec<(u64, u64)> = flows
        .iter()
        .map(|flow| (flow.origin, flow.recipient))
        .collect();
    pairs.sort_unstable();
    pairs.dedup();
    pairs
        .into_iter()
        .filter_map(|(origin, recipient)| {
            Some(raw::LinkCap {
                origin,
                recipient,
                cap: raw::Wide::of(cap(origin as usize, recipient as usize)?),
            })
        })
        .collect()
}

pub(crate) fn rate_of(rate: &raw::Rate) -> Rate {
    if rate.is_limited == 0 {
        return Rate::Unlimited;
    }
    Rate::Finite(Ratio::of(rate.numerator, rate.denominator))
}

/// Nanoseconds in a second.
const BILLION: u128 = 1_000_000_000;

/// In how many whole nanoseconds nothing of `remaining` bytes is left: the least number of them. At no
/// limit that is zero. `None` stands for never, as at rate zero always, and for a time of 2^64 or more.
///
/// # Errors
///
/// `NumberTooLarge` where the time in seconds or in nanoseconds is no fraction of 128 bits.
pub fn duration(rate: &Rate, remaining: &Ratio) -> Result<Option<u64>, Error> {
    match *rate {
        Rate::Unlimited => Ok(Some(0)),
        Rate::Finite(rate) if rate.is_zero() => Ok(None),
        Rate::Finite(rate) => {
            let seconds = remaining.checked_div(rate).ok_or(Error::NumberTooLarge)?;
            let time = seconds.checked_mul(Ratio::from_whole(BILLION));
            Ok(u64::try_from(time.ok_or(Error::NumberTooLarge)?.ceil()).ok())
        }
    }
}

/// What is left of `remaining` bytes after `elapsed` nanoseconds at the rate, exactly. At no limit
/// nothing is left, also after no time.
///
/// # Errors
///
/// `NumberTooLarge` where what is taken is no fraction of 128 bits, or cannot be taken off.
pub fn transfer(rate: &Rate, elapsed: u64, remaining: Ratio) -> Result<Ratio, Error> {
    let rate = match *rate {
        Rate::Unlimited => return Ok(Ratio::zero()),
        Rate::Finite(rate) => rate,
    };
    if remaining.is_zero() || rate.is_zero() || elapsed == 0 {
        return Ok(remaining);
    }
    let taken = Ratio::new(elapsed.into(), BILLION)
        .and_then(|seconds| rate.checked_mul(seconds))
        .ok_or(Error::NumberTooLarge)?;
    if remaining <= taken {
        return Ok(Ratio::zero());
    }
    remaining.checked_sub(taken).ok_or(Error::NumberTooLarge)
}
