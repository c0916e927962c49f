//! The table's octets as the original's answers ask for them: its points read back through interrogations, laid out as DESIGN.md, section 3.

use std::collections::BTreeMap;

use original::{Original, Point};

use crate::{history::Station, rules::element};

/// The objects of data ASDUs, between the confirmation and the termination.
pub fn objects(sent: &[Vec<u8>]) -> impl Iterator<Item = (u8, u32, &[u8])> {
    let data = sent.iter().filter(|asdu| element(asdu[0]).is_some());
    data.flat_map(|asdu| {
        let size = 3 + element(asdu[0]).expect("a point type");
        asdu[6..].chunks(size).map(|o| (asdu[0], u32::from_le_bytes([o[0], o[1], o[2], 0]), &o[3..]))
    })
}

/// Asks for the points of a station: all, then those of each group.
pub fn points(original: &mut Original, ca: u16) -> BTreeMap<u32, Point> {
    let [low, high] = ca.to_le_bytes();
    let mut ask =
        |type_id: u8, qualifier: u8| original.system_command(&[type_id, 1, 6, 0, low, high, 0, 0, 0, qualifier]).expect("an ASDU").sent;
    let mut points = BTreeMap::new();
    for (type_id, ioa, octets) in objects(&ask(100, 20)) {
        let mut value = [0; 12];
        value[..octets.len()].copy_from_slice(octets);
        let point = Point { ca, ioa, type_id, octets: value, interrogation_group: None, counter_group: None };
        assert!(points.insert(ioa, point).is_none(), "the original reports a point once");
    }
    if points.is_empty() {
        return points;
    }
    for group in 1..=16 {
        for (_, ioa, _) in objects(&ask(100, 20 + group)) {
            let before = points.get_mut(&ioa).expect("a point in a group").interrogation_group.replace(group);
            assert!(before.is_none(), "a point is in one group");
        }
    }
    for group in 1..=4 {
        for (_, ioa, _) in objects(&ask(101, group)) {
            let before = points.get_mut(&ioa).expect("a point in a group").counter_group.replace(group);
            assert!(before.is_none(), "a point is in one counter group");
        }
    }
    points
}

/// The memory of a table that holds what the original holds.
pub fn image(capacity: u32, plan: &[Station], original: &mut Original) -> Vec<u8> {
    let stations: Vec<_> = plan.iter().map(|s| points(original, s.ca)).collect();
    let all: usize = stations.iter().map(BTreeMap::len).sum();
    let mut table = vec![0; 64 + 48 * capacity as usize + 8 * plan.len()];
    table[..4].copy_from_slice(&[0x4B, 0x48, 0x56, 0x01]);
    table[4..6].copy_from_slice(&(capacity as u16).to_le_bytes());
    table[6..8].copy_from_slice(&(plan.len() as u16).to_le_bytes());
    table[8..10].copy_from_slice(&(all as u16).to_le_bytes());
    for (point, place) in stations.iter().flat_map(BTreeMap::values).zip(table[64..].chunks_mut(48)) {
        place[0] = point.type_id;
        place[1..3].copy_from_slice(&point.ca.to_le_bytes());
        place[3..6].copy_from_slice(&point.ioa.to_le_bytes()[..3]);
        place[6] = point.interrogation_group.unwrap_or(0);
        place[8] = point.counter_group.unwrap_or(0);
        place[10..22].copy_from_slice(&point.octets);
    }
    let heads = 64 + 48 * capacity as usize;
    for ((s, points), head) in plan.iter().zip(&stations).zip(table[heads..].chunks_mut(8)) {
        head[..2].copy_from_slice(&s.ca.to_le_bytes());
        head[2..4].copy_from_slice(&s.reservation.to_le_bytes());
        head[4..6].copy_from_slice(&s.ceiling.to_le_bytes());
        head[6..].copy_from_slice(&(points.len() as u16).to_le_bytes());
    }
    table
}
