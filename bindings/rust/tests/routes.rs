//! What the planner over routes answers through the crate.
use p2p_simulated::{allocate_routes, allocate_weighted_routes, Error, Rate, Ratio, RouteError};

fn whole(n: u128) -> Rate {
    Rate::Finite(Ratio::from_whole(n))
}

#[test]
fn a_link_is_shared() {
    let rates = allocate_routes(
        &[vec![0, 1], vec![0, 0], vec![2], vec![]],
        &[Some(10), Some(4), None],
    );
    assert_eq!(
        rates,
        Ok(vec![whole(4), whole(6), Rate::Unlimited, Rate::Unlimited])
    );
    assert_eq!(allocate_routes::<[usize; 0]>(&[], &[]), Ok(vec![]));
}

#[test]
fn weights_count() {
    let third = |n| Rate::Finite(Ratio::new(n, 3).unwrap());
    assert_eq!(
        allocate_weighted_routes(&[[0], [0]], &[1, 2], &[Some(10)]),
        Ok(vec![third(10), third(20)])
    );
    assert_eq!(
        allocate_weighted_routes(
            &[vec![0, 1], vec![0], vec![0]],
            &[5, 1, 2],
            &[Some(12), Some(3)]
        ),
        Ok(vec![whole(3), whole(3), whole(6)])
    );
    assert_eq!(
        allocate_weighted_routes(&[[0], [0]], &[u64::MAX - 1, 1], &[Some(u128::MAX)]),
        Ok(vec![
            whole((u128::from(u64::MAX) - 1) * ((1 << 64) + 1)),
            whole((1 << 64) + 1)
        ])
    );
}

#[test]
fn what_is_none_is_told() {
    assert_eq!(
        allocate_routes(&[vec![0], vec![0, 7]], &[Some(1)]),
        Err(RouteError::NoSuchLink { flow: 1, link: 7 })
    );
    assert_eq!(
        allocate_weighted_routes(&[[0], [0]], &[1], &[Some(1)]),
        Err(RouteError::OtherCount {
            flows: 2,
            weights: 1
        })
    );
    assert_eq!(
        allocate_weighted_routes(&[[0], [0]], &[1, 0], &[Some(1)]),
        Err(RouteError::NoWeight { flow: 1 })
    );
    assert_eq!(
        allocate_weighted_routes(&[[0], [0]], &[1, u64::MAX], &[Some(1)]),
        Err(RouteError::TooMuchWeight)
    );
    let routes = [vec![0, 1], vec![1], vec![0, 2], vec![2], vec![2], vec![0]];
    let caps = [Some(u128::MAX), Some((1 << 127) + 1), Some((1 << 127) + 2)];
    assert_eq!(
        allocate_routes(&routes, &caps),
        Err(RouteError::Refused(Error::NumberTooLarge))
    );
    assert_eq!(
        RouteError::NoWeight { flow: 3 }.to_string(),
        "flow 3 has weight 0"
    );
}
