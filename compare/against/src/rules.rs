//! What the port adds and the original cannot say: the numbers marked + in document 01, calculated from the document alone.

use original::{Point, Proposal};

use crate::history::Station;

/// Octets of the element of each point type; `None`: no point type.
pub fn element(type_id: u8) -> Option<usize> {
    Some(match type_id {
        1 | 3 => 1,
        5 | 21 => 2,
        9 | 11 => 3,
        2 | 4 => 4,
        6 | 7 | 13 | 15 | 20 => 5,
        10 | 12 | 17 => 6,
        18 | 19 => 7,
        14 | 30 | 31 => 8,
        32 => 9,
        34 | 35 | 38 => 10,
        39 | 40 => 11,
        33 | 36 | 37 => 12,
        _ => return None,
    })
}

/// Octets of the element of each system type.
pub fn system_element(type_id: u8) -> Option<usize> {
    Some(match type_id {
        102 => 0,
        100 | 101 | 105 => 1,
        104 => 2,
        103 => 7,
        107 => 9,
        _ => return None,
    })
}

/// Octets of the element of each process type.
pub fn process_element(type_id: u8) -> Option<usize> {
    Some(match type_id {
        45..=47 => 1,
        48 | 49 => 3,
        50 => 5,
        51 => 4,
        58..=60 => 8,
        61 | 62 => 10,
        63 => 12,
        64 => 11,
        _ => return None,
    })
}

/// 2 for a malformed ASDU, 1 for a type that the entry does not serve, else `None`.
pub fn refused_asdu(asdu: &[u8], element: fn(u8) -> Option<usize>) -> Option<u32> {
    if asdu.len() < 6 || 249 < asdu.len() {
        return Some(2);
    }
    let Some(octets) = element(asdu[0]) else {
        return Some(1);
    };
    let count = (asdu[1] & 0x7F) as usize;
    (asdu[1] & 0x80 != 0 || asdu.len() != 6 + count * (3 + octets)).then_some(2)
}

/// Whether a proposal is bad (6).
pub fn bad_proposal(proposal: &Proposal) -> bool {
    match process_element(proposal.reply_type) {
        None => true,
        Some(octets) => 243 < proposal.reply.len() || proposal.reply.len() % (3 + octets) != 0,
    }
}

/// 11 or 12 for a point that the original's types or plan cannot name.
pub fn refused_point(plan: &[Station], point: &Point) -> Option<u32> {
    if element(point.type_id).is_none() || 0xFF_FFFF < point.ioa {
        return Some(11);
    }
    plan.iter().all(|s| s.ca != point.ca).then_some(12)
}

/// 19 or 20, and the place, for points that pass every other test.
pub fn refused_for_room(capacity: u32, plan: &[Station], held: &[usize], points: &[Point]) -> Option<(u32, usize)> {
    let mut held = held.to_vec();
    for (place, point) in points.iter().enumerate() {
        let s = plan.iter().position(|s| s.ca == point.ca).expect("a planned station");
        let free = capacity as usize - held.iter().sum::<usize>();
        let unmet: usize = plan.iter().zip(&held).map(|(s, held)| (s.reservation as usize).saturating_sub(*held)).sum();
        if held[s] == plan[s].ceiling as usize {
            return Some((19, place));
        }
        if (plan[s].reservation as usize) <= held[s] && free <= unmet {
            return Some((20, place));
        }
        held[s] += 1;
    }
    None
}
