//! Who sends how fast over any network: each flow has a route, a list of links.
use crate::bandwidth::{rate_of, Rate};
use crate::error::{result_of, Error};
use crate::raw;
use std::fmt;

/// Why flows over routes were refused.
#[derive(Debug, Clone, Copy, PartialEq, Eq)]
pub enum RouteError {
    /// For memory or for a number: `OutOfMemory` or `NumberTooLarge`.
    Refused(Error),
    /// The flow at that place uses a link that has no entry in the list of caps.
    NoSuchLink {
        /// The place of the flow in the list of routes.
        flow: usize,
        /// The number of the link.
        link: usize,
    },
    /// There are not as many weights as flows.
    OtherCount {
        /// How many flows there are.
        flows: usize,
        /// How many weights.
        weights: usize,
    },
    /// The weight of the flow at that place is zero.
    NoWeight {
        /// The place of the flow in the list of routes.
        flow: usize,
    },
    /// The flows that use some link with a cap have a weight of 2^64 or more together.
    TooMuchWeight,
}

impl fmt::Display for RouteError {
    fn fmt(&self, f: &mut fmt::Formatter<'_>) -> fmt::Result {
        match self {
            RouteError::Refused(error) => error.fmt(f),
            RouteError::NoSuchLink { flow, link } => write!(
                f,
                "flow {flow} uses link {link}, which has no entry in the list of caps"
            ),
            RouteError::OtherCount { flows, weights } => {
                write!(f, "{flows} flows have {weights} weights")
            }
            RouteError::NoWeight { flow } => write!(f, "flow {flow} has weight 0"),
            RouteError::TooMuchWeight => {
                f.write_str("the flows of a link have a weight of 2^64 or more together")
            }
        }
    }
}

impl std::error::Error for RouteError {}

/// The max-min fair rate of each flow over its route, in the order of the flows.
///
/// `routes[i]` lists the links that flow `i` uses, by number, in any order; a link that stands there more
/// than once counts once. `caps[j]` is the cap of link `j` in bytes a second, on all flows that use it
/// together, and `None` stands for no cap.
///
/// # Errors
///
/// `NoSuchLink` where the number of a link is that of no cap, `Refused(NumberTooLarge)` where a rate is no
/// fraction of 128 bits, and `Refused(OutOfMemory)` where no memory was left.
///
/// ```
/// use p2p_simulated::{allocate_routes, Rate, Ratio};
///
/// // two flows share link 0, and link 1 holds the first of them
/// let rates = allocate_routes(&[vec![0, 1], vec![0]], &[Some(10), Some(4)])?;
/// assert_eq!(rates[1], Rate::Finite(Ratio::from_whole(6)));
/// # Ok::<(), p2p_simulated::RouteError>(())
/// ```
pub fn allocate_routes<R: AsRef<[usize]>>(
    routes: &[R],
    caps: &[Option<u128>],
) -> Result<Vec<Rate>, RouteError> {
    allocate_weighted_routes(routes, &vec![1; routes.len()], caps)
}

/// The same by weight: a flow of weight `w` gets what `w` flows of weight one over its route get together.
///
/// # Errors
///
/// Those of [`allocate_routes`], `OtherCount` where there are not as many weights as flows, `NoWeight` where
/// one is zero, and `TooMuchWeight` where the flows of a link have a weight of 2^64 or more together.
pub fn allocate_weighted_routes<R: AsRef<[usize]>>(
    routes: &[R],
    weights: &[u64],
    caps: &[Option<u128>],
) -> Result<Vec<Rate>, RouteError> {
    if weights.len() != routes.len() {
        return Err(RouteError::OtherCount {
            flows: routes.len(),
            weights: weights.len(),
        });
    }
    let hops = hops_of(routes);
    let caps: Vec<raw::RouteCap> = caps.iter().map(|cap| cap_of(*cap)).collect();
    let unlimited = raw::Rate {
        numerator: raw::Wide::of(0),
        denominator: raw::Wide::of(1),
        is_limited: 0,
    };
    let mut rates = vec![unlimited; weights.len()];
    let mut fault = raw::Hop { flow: 0, link: 0 };
    // SAFETY: each pointer and its length are those of one vector, and all is lent for the call alone.
    let status = unsafe {
        raw::p2p_allocate_routes(
            weights.as_ptr(),
            weights.len(),
            hops.as_ptr(),
            hops.len(),
            caps.as_ptr(),
            caps.len(),
            rates.as_mut_ptr(),
            rates.len(),
            &mut fault,
        )
    };
    made(status, fault)?;
    Ok(rates.iter().map(rate_of).collect())
}

fn hops_of<R: AsRef<[usize]>>(routes: &[R]) -> Vec<raw::Hop> {
    routes
        .iter()
        .enumerate()
        .flat_map(|(flow, route)| {
            let links = route.as_ref().iter();
            links.map(move |link| raw::Hop { flow, link: *link })
        })
        .collect()
}

fn cap_of(cap: Option<u128>) -> raw::RouteCap {
    raw::RouteCap {
        bytes: raw::Wide::of(cap.unwrap_or(0)),
        is_some: cap.is_some().into(),
    }
}

/// What a status of the planner over routes says.
fn made(status: u32, fault: raw::Hop) -> Result<(), RouteError> {
    let raw::Hop { flow, link } = fault;
    match status {
        8 => Err(RouteError::NoSuchLink { flow, link }),
        10 => Err(RouteError::NoWeight { flow }),
        11 => Err(RouteError::TooMuchWeight),
        _ => result_of(status).map_err(RouteError::Refused),
    }
}
