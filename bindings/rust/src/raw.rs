//! The declarations of `bindings/c/p2p_simulated.h`.
use std::ffi::c_void;
use std::mem::size_of;

#[repr(C)]
pub struct Scheduler {
    pub place: *mut c_void,
    pub is_open: u8,
}

#[repr(C)]
#[derive(Clone, Copy)]
pub struct Cap {
    pub bytes: usize,
    pub is_some: u8,
}

#[repr(C)]
#[derive(Clone, Copy)]
pub struct Moment {
    pub at: u64,
    pub is_some: u8,
}

#[repr(C)]
#[derive(Clone, Copy)]
pub struct Wide {
    pub low: u64,
    pub high: u64,
}

#[repr(C)]
#[derive(Clone, Copy)]
pub struct Parcel {
    pub origin: u64,
    pub recipient: u64,
    pub channel: u64,
    pub from: usize,
    pub length: usize,
    pub latency: u64,
    pub should_deliver: u8,
}

#[repr(C)]
#[derive(Clone, Copy)]
pub struct Amount {
    pub numerator: Wide,
    pub denominator: Wide,
    pub is_exact: u8,
}

#[repr(C)]
#[derive(Clone, Copy)]
pub struct Flight {
    pub origin: u64,
    pub recipient: u64,
    pub channel: u64,
    pub left: Amount,
    pub rate: Amount,
    pub since: u64,
}

#[repr(C)]
#[derive(Clone, Copy)]
pub struct Done {
    pub origin: u64,
    pub recipient: u64,
    pub channel: u64,
    pub length: usize,
    pub done_at: u64,
    pub deliver_at: Moment,
}

#[repr(C)]
#[derive(Clone, Copy)]
pub struct Flow {
    pub id: u64,
    pub origin: u64,
    pub recipient: u64,
    pub delivered: u8,
}

#[repr(C)]
#[derive(Clone, Copy)]
pub struct PeerCap {
    pub peer: u64,
    pub cap: Wide,
}

#[repr(C)]
#[derive(Clone, Copy)]
pub struct LinkCap {
    pub origin: u64,
    pub recipient: u64,
    pub cap: Wide,
}

#[repr(C)]
#[derive(Clone, Copy)]
pub struct Hop {
    pub flow: usize,
    pub link: usize,
}

#[repr(C)]
#[derive(Clone, Copy)]
pub struct RouteCap {
    pub bytes: Wide,
    pub is_some: u8,
}

#[repr(C)]
#[derive(Clone, Copy)]
pub struct Rate {
    pub numerator: Wide,
    pub denominator: Wide,
    pub is_limited: u8,
}

/// The last call that was made was at a later moment.
pub const GONE_BY: u32 = 6;

/// The call sets caps or sends, and an event is due.
pub const EVENT_DUE: u32 = 7;

impl Flight {
    pub fn none() -> Flight {
        let nothing = Amount {
            numerator: Wide::of(0),
            denominator: Wide::of(1),
            is_exact: 1,
        };
        Flight {
            origin: 0,
            recipient: 0,
            channel: 0,
            left: nothing,
            rate: nothing,
            since: 0,
        }
    }
}

impl Done {
    pub fn none() -> Done {
        Done {
            origin: 0,
            recipient: 0,
            channel: 0,
            length: 0,
            done_at: 0,
            deliver_at: Moment { at: 0, is_some: 0 },
        }
    }
}

impl Wide {
    pub fn of(value: u128) -> Wide {
        Wide {
            low: value as u64,
            high: (value >> 64) as u64,
        }
    }

    pub fn get(self) -> u128 {
        u128::from(self.high) << 64 | u128::from(self.low)
    }
}

const _: () = assert!(size_of::<usize>() == 8);
const _: () = assert!(size_of::<Scheduler>() == 16);
const _: () = assert!(size_of::<Cap>() == 16);
const _: () = assert!(size_of::<Moment>() == 16);
const _: () = assert!(size_of::<Wide>() == 16);
const _: () = assert!(size_of::<Parcel>() == 56);
const _: () = assert!(size_of::<Amount>() == 40);
const _: () = assert!(size_of::<Flight>() == 112);
const _: () = assert!(size_of::<Done>() == 56);
const _: () = assert!(size_of::<Flow>() == 32);
const _: () = assert!(size_of::<PeerCap>() == 24);
const _: () = assert!(size_of::<LinkCap>() == 32);
const _: () = assert!(size_of::<Hop>() == 16);
const _: () = assert!(size_of::<RouteCap>() == 24);
const _: () = assert!(size_of::<Rate>() == 40);

extern "C" {
    pub fn p2p_open(scheduler: *mut Scheduler, first_id: u64) -> u32;
    pub fn p2p_close(scheduler: *mut Scheduler);
    pub fn p2p_limit(
        scheduler: *mut Scheduler,
        now: u64,
        peer: u64,
        egress: Cap,
        ingress: Cap,
        count: *mut usize,
    ) -> u32;
    pub fn p2p_limit_link(
        scheduler: *mut Scheduler,
        now: u64,
        origin: u64,
        recipient: u64,
        cap: Cap,
        count: *mut usize,
    ) -> u32;
    pub fn p2p_enqueue_zeros(
        scheduler: *mut Scheduler,
        now: u64,
        origin: u64,
        recipient: u64,
        channel: u64,
        length: usize,
        latency: u64,
        should_deliver: u8,
        count: *mut usize,
    ) -> u32;
    pub fn p2p_enqueue_all(
        scheduler: *mut Scheduler,
        now: u64,
        parcels: *const Parcel,
        parcel_count: usize,
        bytes: *const u8,
        length: usize,
        count: *mut usize,
    ) -> u32;
    pub fn p2p_advance(scheduler: *mut Scheduler, now: u64, count: *mut usize) -> u32;
    pub fn p2p_advance_counted(
        scheduler: *mut Scheduler,
        now: u64,
        count: *mut usize,
        events: *mut Wide,
    ) -> u32;
    pub fn p2p_next(scheduler: *mut Scheduler, next: *mut Moment) -> u32;
    pub fn p2p_in_turn(scheduler: *mut Scheduler, now: u64, acts: u8, at: *mut u64) -> u32;
    pub fn p2p_in_flight(
        scheduler: *mut Scheduler,
        out: *mut Flight,
        room: usize,
        count: *mut usize,
    ) -> u32;
    pub fn p2p_rated_anew(scheduler: *mut Scheduler) -> usize;
    pub fn p2p_completions(
        scheduler: *mut Scheduler,
        first: usize,
        out: *mut Done,
        room: usize,
    ) -> usize;
    pub fn p2p_allocate(
        flows: *const Flow,
        flow_count: usize,
        egress: *const PeerCap,
        egress_count: usize,
        ingress: *const PeerCap,
        ingress_count: usize,
        links: *const LinkCap,
        link_count: usize,
        rates: *mut Rate,
        room: usize,
        rounds: *mut Wide,
    ) -> u32;
    pub fn p2p_allocate_routes(
        weights: *const u64,
        flow_count: usize,
        hops: *const Hop,
        hop_count: usize,
        caps: *const RouteCap,
        link_count: usize,
        rates: *mut Rate,
        room: usize,
        fault: *mut Hop,
    ) -> u32;
    pub fn p2p_run(
        script: *const u8,
        length: usize,
        out: *mut u8,
        room: usize,
        printed: *mut usize,
        bad_line: *mut u64,
    ) -> u32;
}
