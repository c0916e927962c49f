//! `can_take_now` is what the proved table grants: on drawn gateways, each station is given points until one is refused.

mod drawn;

use drawn::Numbers;
use khuvelter::{types, Fault, Gateway, Point, Station};

/// A drawn gateway with a valid plan and drawn points; points that are refused stay out.
fn drawn_gateway(numbers: &mut Numbers) -> Gateway {
    let capacity = 1 + numbers.below(24);
    let mut unsold = capacity;
    let stations: Vec<_> = (1..=1 + numbers.below(5))
        .map(|ca| {
            let reservation = numbers.below(unsold + 1) / 2;
            unsold -= reservation;
            let ceiling = reservation + numbers.below(capacity - reservation + 1);
            Station::new(ca as u16, reservation as u16, ceiling as u16)
        })
        .collect();
    let mut gateway = Gateway::open(capacity, &stations).unwrap();
    for ioa in 0..numbers.below(2 * capacity) {
        let ca = 1 + numbers.below(stations.len() as u32) as u16;
        let _ = gateway.register(&Point::new(ca, ioa, types::M_SP_NA_1, [0x00]));
    }
    gateway
}

/// The points that a station is granted before one is refused, and why that one is.
fn granted(mut gateway: Gateway, ca: u16) -> (u32, Fault) {
    for taken in 0.. {
        if let Err(refusal) = gateway.register(&Point::new(ca, 1_000_000 + taken, types::M_SP_NA_1, [0x00])) {
            return (taken, refusal.fault());
        }
    }
    unreachable!("a gateway is finite")
}

#[test]
fn can_take_now_is_what_is_granted() {
    let mut numbers = Numbers(0xD1B5_4A32_D192_ED03);
    let mut seen = [0; 4];
    for _ in 0..2000 {
        let gateway = drawn_gateway(&mut numbers);
        let shares = gateway.shares().unwrap();
        let held: u32 = shares.iter().map(|share| share.held).sum();
        let unmet: u32 = shares.iter().map(|share| share.own_unmet()).sum();
        for share in &shares {
            assert_eq!((share.free, share.unmet), (gateway.capacity() - held, unmet));
            let (taken, fault) = granted(gateway.clone(), share.ca);
            assert_eq!(share.can_take_now(), taken, "{gateway:?} {share:?}");
            let full = share.held + taken == share.ceiling;
            assert_eq!(fault, if full { Fault::CeilingReached } else { Fault::NotAdmitted });
            seen[usize::from(taken == 0) + 2 * usize::from(full)] += 1;
        }
    }
    assert!(seen.iter().all(|&cases| cases > 100), "{seen:?}");
}
