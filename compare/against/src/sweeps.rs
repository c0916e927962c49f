//! Histories that go through every case of something: control octets, qualifiers, types, lengths, the boundaries of packing.

use original::{Point, Proposal};

use crate::{
    history::{Call, History, Station},
    random::{POINT_TYPES, PROCESS_TYPES, SYSTEM_TYPES},
    rules::{element, process_element, system_element},
};

/// The point at IOA 3 of document 01's gateway on paper.
pub const POINT_AT_THREE: Point = Point { ca: 7, ioa: 3, type_id: 1, octets: [0; 12], interrogation_group: None, counter_group: None };

/// The points of document 01's gateway on paper.
pub fn paper() -> Vec<Point> {
    let counter = Point { ioa: 5, type_id: 15, octets: [0x2A, 0, 0, 0, 3, 0, 0, 0, 0, 0, 0, 0], counter_group: Some(1), ..POINT_AT_THREE };
    let mut single = Point { ioa: 10, interrogation_group: Some(1), ..POINT_AT_THREE };
    single.octets[0] = 1;
    vec![single, POINT_AT_THREE, counter]
}

/// Two stations with plenty of room.
fn plan(capacity: u32) -> Vec<Station> {
    [7, 300].map(|ca| Station { ca, reservation: 1, ceiling: capacity as u16 }).to_vec()
}

fn point(ca: u16, ioa: u32, type_id: u8) -> Point {
    let octets = std::array::from_fn(|i| (ioa as u8).wrapping_mul(31).wrapping_add(type_id).wrapping_add(17 * i as u8));
    Point { ca, ioa, type_id, octets, interrogation_group: None, counter_group: None }
}

/// Both stations have a point of every type in some group; counters in every group. Half of the IOAs stand in both stations.
pub fn every_type() -> Vec<Point> {
    let mut points = Vec::new();
    for (i, type_id) in POINT_TYPES.into_iter().enumerate() {
        for (ca, ioa) in [(7, 100 + i), (300, 115 + i)] {
            let group = (i % 20) as u8;
            points.push(Point { interrogation_group: (1..=16).contains(&group).then_some(group), ..point(ca, ioa as u32, type_id) });
        }
    }
    for i in 0..10 {
        let type_id = if i % 2 == 0 { 15 } else { 37 };
        let group = (i / 2) as u8;
        points.push(Point { counter_group: (0 < group).then_some(group), ..point(7, 1000 + i, type_id) });
        points.push(Point { counter_group: (0 < group).then_some(group), ..point(300, 1000 + i, type_id) });
    }
    points
}

pub fn system(asdu: Vec<u8>) -> Call {
    Call::System { asdu, short: None }
}

pub fn process(asdu: Vec<u8>, proposal: Proposal) -> Call {
    Call::Process { asdu, proposal, short: None, spontaneous_short: None }
}

/// A command with so many objects, their IOAs from 100 up, every octet of their elements being `octet`.
pub fn command(type_id: u8, octets: usize, control: u8, ca: u16, count: usize, octet: u8) -> Vec<u8> {
    let [low, high] = ca.to_le_bytes();
    let mut asdu = vec![type_id, count as u8, control, 0x11, low, high];
    for i in 0..count {
        asdu.extend_from_slice(&(100 + i as u32).to_le_bytes()[..3]);
        asdu.extend(std::iter::repeat_n(octet, octets));
    }
    asdu
}

fn over_every_type(calls: Vec<Call>) -> History {
    let calls = [vec![Call::RegisterAll(every_type())], calls].concat();
    History { capacity: 200, plan: plan(200), calls }
}

/// Every control octet, on every command, with no, one and two objects.
fn control_octets() -> History {
    let mut calls = Vec::new();
    for control in 0..=255 {
        for count in 0..=2 {
            for type_id in SYSTEM_TYPES {
                calls.push(system(command(type_id, system_element(type_id).unwrap(), control, 7, count, 20)));
            }
            for type_id in PROCESS_TYPES {
                let updates = vec![point(7, 100 + count as u32, POINT_TYPES[count])];
                let proposal = Proposal { negative: control & 1 == 1, reply_type: type_id, reply: Vec::new(), updates };
                calls.push(process(command(type_id, process_element(type_id).unwrap(), control, 7, count, 1), proposal));
            }
        }
    }
    over_every_type(calls)
}

/// Every qualifier of interrogations and counter commands, to one station, to all, and to one that is not there; before each counter
/// command an update gives a counter a value again.
fn qualifiers() -> History {
    let mut calls = Vec::new();
    for ca in [7, 300, 65535, 9, 0] {
        for qualifier in 0..=255 {
            calls.push(system(command(100, 1, 6, ca, 1, qualifier)));
            let updates = (0..10).map(|i| point(if i < 5 { 7 } else { 300 }, 1000 + i, if i % 2 == 0 { 15 } else { 37 })).collect();
            calls.push(process(command(45, 1, 6, 7, 1, 0), Proposal { reply_type: 45, updates, ..Proposal::default() }));
            calls.push(system(command(101, 1, 6, ca, 1, qualifier)));
        }
    }
    over_every_type(calls)
}

/// Every type octet with every element size, on both entries.
fn types() -> History {
    let mut calls = Vec::new();
    for type_id in 0..=255 {
        for octets in 0..=12 {
            let asdu = command(type_id, octets, 6, 7, 1, 20);
            calls.push(system(asdu.clone()));
            calls.push(process(asdu, Proposal { reply_type: 45, ..Proposal::default() }));
        }
    }
    over_every_type(calls)
}

/// Every length up to 260 octets with every count that could fit it, and the sequence flag.
fn lengths() -> History {
    let mut calls = Vec::new();
    for type_id in SYSTEM_TYPES.into_iter().chain(PROCESS_TYPES) {
        let octets = system_element(type_id).or(process_element(type_id)).unwrap();
        for length in 0..=260usize {
            let fits = length.saturating_sub(6) / (3 + octets);
            for count in [0, fits, fits + 1, fits | 0x80] {
                let mut asdu = command(type_id, octets, 6, 7, fits, 20);
                asdu.resize(length, 0);
                if 1 < length {
                    asdu[1] = count as u8;
                }
                calls.push(system(asdu.clone()));
                calls.push(process(asdu, Proposal { reply_type: type_id, ..Proposal::default() }));
            }
        }
    }
    over_every_type(calls)
}

/// Runs of every type just below, at and above one, two and three full ASDUs.
fn packing() -> Vec<History> {
    let mut histories = Vec::new();
    for type_id in POINT_TYPES {
        let most = (243 / (3 + element(type_id).unwrap())).min(127);
        for count in [1, most - 1, most, most + 1, 2 * most - 1, 2 * most, 2 * most + 1, 3 * most] {
            let capacity = 2 * count as u32 + 2;
            let counter = matches!(type_id, 15 | 37).then_some(2);
            let run = |ca| {
                (0..count).map(move |i| Point {
                    interrogation_group: Some(3),
                    counter_group: counter,
                    ..point(ca, 65530 + i as u32, type_id)
                })
            };
            let mut calls = vec![Call::RegisterAll(run(7).rev().collect()), Call::RegisterAll(run(300).collect())];
            for ca in [7, 65535] {
                for (type_id, qualifier) in [(100, 20), (100, 23), (101, 5), (101, 2), (101, 0x82), (100, 20)] {
                    calls.push(Call::System { asdu: command(type_id, 1, 6, ca, 1, qualifier), short: Some(0) });
                }
            }
            histories.push(History { capacity, plan: plan(capacity), calls });
        }
    }
    histories
}

/// A full table of the largest capacity.
fn full() -> History {
    let batch = |ca, from: u32| Call::RegisterAll((0..2048).map(|i| point(ca, from + i, POINT_TYPES[i as usize % 30])).collect());
    let ask = |ca, type_id, qualifier| system(command(type_id, 1, 6, ca, 1, qualifier));
    let over = Call::Register(point(7, 1, 1));
    let calls = vec![
        batch(300, 5000),
        batch(7, 6000),
        over,
        ask(7, 100, 20),
        ask(300, 100, 20),
        ask(65535, 100, 20),
        ask(65535, 101, 0xC5),
        ask(65535, 100, 20),
    ];
    History { capacity: 4096, plan: plan(4096), calls }
}

/// Some of all this, for the recorded list; under CA 65,535 no two points of a type have the same IOA.
pub fn sample() -> Vec<History> {
    let apart = |point: &mut Point| {
        if point.ca == 300 {
            point.ioa += 10_000;
        }
    };
    let mut every_call: Vec<Call> = [(control_octets(), 23), (qualifiers(), 7), (types(), 37), (lengths(), 97)]
        .into_iter()
        .flat_map(|(h, step)| h.calls.into_iter().skip(1).step_by(step))
        .collect();
    for call in &mut every_call {
        if let Call::Process { proposal, .. } = call {
            proposal.updates.iter_mut().for_each(apart);
        }
    }
    let mut history = over_every_type(every_call);
    if let Call::RegisterAll(points) = &mut history.calls[0] {
        points.iter_mut().for_each(apart);
    }
    let mut histories = vec![history];
    histories.extend(packing().into_iter().skip(3).step_by(8).map(|mut history| {
        history.calls.iter_mut().for_each(|call| {
            if let Call::RegisterAll(points) = call {
                points.iter_mut().for_each(apart)
            }
        });
        history
    }));
    histories
}

pub fn sweeps() -> Vec<(&'static str, Vec<History>)> {
    vec![
        ("every control octet on every command", vec![control_octets()]),
        ("every qualifier of interrogation and counters", vec![qualifiers()]),
        ("every type octet with every element size", vec![types()]),
        ("every length to 260 octets", vec![lengths()]),
        ("boundaries of packing of all 30 types", packing()),
        ("a full table", vec![full()]),
    ]
}
