//! What `plan::faults` says agrees with what the proved entry takes: nothing is wrong exactly if the plan opens.

mod drawn;

use drawn::Numbers;
use khuvelter::{plan, Gateway, Station};

/// Whether the sentences and the entry agree on a plan.
fn agree(capacity: u32, stations: &[Station]) -> bool {
    let opened = Gateway::open(capacity, stations);
    let faults = plan::faults(capacity, stations);
    assert_eq!(opened.is_ok(), faults.is_empty(), "capacity {capacity}, {stations:?}: {faults:?}");
    assert!(faults.iter().all(|fault| fault.to_string().ends_with('.')));
    opened.is_ok()
}

#[test]
fn drawn_plans() {
    let mut numbers = Numbers(0x9E37_79B9_7F4A_7C15);
    let mut valid = 0;
    for _ in 0..20_000 {
        let capacity = numbers.below(12);
        let mut ca = 0;
        let stations: Vec<_> = (0..numbers.below(4))
            .map(|_| {
                ca = (ca + numbers.below(4) as u16).saturating_sub(u16::from(numbers.below(8) == 0));
                Station::new(ca, numbers.below(5) as u16, numbers.below(8) as u16)
            })
            .collect();
        valid += u32::from(agree(capacity, &stations));
    }
    assert!((1000..19_000).contains(&valid), "{valid} of 20,000 are valid");
}

#[test]
fn plans_at_the_edges() {
    let many = |count: u16, reservation, ceiling| -> Vec<Station> {
        (1..=count).map(|ca| Station::new(ca, reservation, ceiling)).collect()
    };
    assert!(agree(4096, &many(64, 64, 4096)));
    assert!(!agree(4096, &many(65, 0, 0)));
    assert!(!agree(4095, &many(64, 64, 64)));
    assert!(!agree(4096, &many(64, 65, 65)));
    assert!(!agree(4097, &many(1, 0, 0)));
    assert!(!agree(u32::MAX, &many(64, u16::MAX, u16::MAX)));
    assert!(agree(1, &[Station::new(65_534, 1, 1)]));
    assert!(!agree(1, &[Station::new(65_535, 1, 1)]));
    assert!(agree(1, &many(64, 0, 0)));
}
