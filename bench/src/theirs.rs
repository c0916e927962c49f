//! The original's side: its own actor over compare's stand-ins, driven call by call.

use original::{Batch, Original, Point as Theirs, Proposal};

use crate::work::Point;

/// A point as the original's driver takes it.
pub fn typed(p: &Point) -> Theirs {
    Theirs { ca: p.ca, ioa: p.ioa, type_id: p.type_id, octets: p.value, interrogation_group: p.group, counter_group: p.counter_group }
}

/// A batch with its typed values made beforehand.
pub fn batch(points: &[Point]) -> Batch {
    let points: Vec<Theirs> = points.iter().map(typed).collect();
    Batch::new(&points)
}

pub fn loaded(points: &[Point]) -> Original {
    let mut original = Original::default();
    original.register_batch(batch(points)).expect("the original takes the batch");
    original
}

fn octets(asdus: &[Vec<u8>]) -> usize {
    asdus.iter().map(Vec::len).sum()
}

pub fn system(original: &mut Original, asdu: &[u8]) -> usize {
    octets(&original.system_command(asdu).expect("an ASDU").sent)
}

pub fn process(original: &mut Original, asdu: &[u8], point: &Point) -> usize {
    let proposal = Proposal { negative: false, reply_type: asdu[0], reply: asdu[6..].to_vec(), updates: vec![typed(point)] };
    let answer = original.process_command(asdu, proposal).expect("an ASDU");
    octets(&answer.sent) + octets(&answer.broadcast)
}

pub fn started(original: &mut Original) -> usize {
    octets(&original.connection_started().sent)
}
