//! Makes a history that disagrees smaller for as long as it still disagrees.

use crate::{
    compare::{Counts, Fault, run},
    history::{Call, History, Station},
};

fn disagreement(history: &History, fault: Option<Fault>) -> Option<(usize, String)> {
    run(history, 1, fault, &mut Counts::default()).err()
}

/// Leaves out parts of a list, large ones first, for as long as `bad` holds of what is left.
fn fewer<T: Clone>(list: &mut Vec<T>, mut bad: impl FnMut(&[T]) -> bool) {
    let mut size = list.len().div_ceil(2).max(1);
    loop {
        let mut at = 0;
        while at < list.len() {
            let mut less = list.clone();
            less.drain(at..(at + size).min(less.len()));
            if bad(&less) { *list = less } else { at += size }
        }
        if size == 1 {
            return;
        }
        size = size.div_ceil(2);
    }
}

/// Smaller forms of one call, most shortened first.
fn smaller(call: &Call) -> Vec<Call> {
    match call {
        Call::RegisterAll(points) => (0..points.len())
            .map(|i| {
                let mut less = points.clone();
                less.remove(i);
                Call::RegisterAll(less)
            })
            .chain(points.len().eq(&1).then(|| Call::Register(points[0].clone())))
            .collect(),
        Call::Register(point) => {
            let mut plain = point.clone();
            plain.octets = [0; 12];
            let mut low = point.clone();
            low.ioa = low.ioa.min(1);
            let [mut no_group, mut no_counter] = [point.clone(), point.clone()];
            (no_group.interrogation_group, no_counter.counter_group) = (None, None);
            [plain, low, no_group, no_counter].into_iter().filter(|p| p != point).map(Call::Register).collect()
        }
        Call::Started { short: Some(_) } => vec![Call::Started { short: None }],
        Call::System { asdu, short: Some(_) } => vec![Call::System { asdu: asdu.clone(), short: None }],
        Call::System { asdu, short } => zeroed(asdu).into_iter().map(|asdu| Call::System { asdu, short: *short }).collect(),
        Call::Process { asdu, proposal, short, spontaneous_short } => {
            let with = |proposal: &original::Proposal, asdu: &[u8]| Call::Process {
                asdu: asdu.to_vec(),
                proposal: proposal.clone(),
                short: None,
                spontaneous_short: None,
            };
            let mut calls = Vec::new();
            if short.is_some() || spontaneous_short.is_some() {
                calls.push(with(proposal, asdu));
            }
            for i in 0..proposal.updates.len() {
                let mut less = proposal.clone();
                less.updates.remove(i);
                calls.push(with(&less, asdu));
            }
            if !proposal.reply.is_empty() {
                calls.push(with(&original::Proposal { reply: Vec::new(), ..proposal.clone() }, asdu));
            }
            calls.extend(zeroed(asdu).iter().map(|asdu| with(proposal, asdu)));
            calls
        }
        _ => Vec::new(),
    }
}

/// An ASDU without its last object, and with one octet zero.
fn zeroed(asdu: &[u8]) -> Vec<Vec<u8>> {
    let mut forms = Vec::new();
    let size = asdu.first().and_then(|t| crate::rules::system_element(*t).or(crate::rules::process_element(*t)));
    if let Some(size) = size.filter(|size| 6 + 3 + size <= asdu.len() && 1 < asdu[1] & 0x7F) {
        let mut less = asdu[..asdu.len() - 3 - size].to_vec();
        less[1] -= 1;
        forms.push(less);
    }
    for i in (2..asdu.len()).filter(|i| asdu[*i] != 0) {
        let mut less = asdu.to_vec();
        less[i] = 0;
        forms.push(less);
    }
    forms
}

/// Leaves out stations, and gives those that are left no reservation and the whole capacity as ceiling.
fn fewer_stations(history: &mut History, fault: Option<Fault>) {
    let disagrees = |plan: &[Station]| disagreement(&History { plan: plan.to_vec(), ..history.clone() }, fault).is_some();
    let mut plan = history.plan.clone();
    fewer(&mut plan, |plan| !plan.is_empty() && disagrees(plan));
    for i in 0..plan.len() {
        let mut plain = plan.clone();
        (plain[i].reservation, plain[i].ceiling) = (0, history.capacity as u16);
        if disagrees(&plain) {
            plan = plain;
        }
    }
    history.plan = plan;
}

/// The smallest history found that disagrees, and why.
pub fn shrink(history: &History, at: usize, fault: Option<Fault>) -> (History, String) {
    let mut small = history.clone();
    small.calls.truncate(at + 1);
    loop {
        let before = small.clone();
        fewer(&mut small.calls, |calls| disagreement(&History { calls: calls.to_vec(), ..before.clone() }, fault).is_some());
        for i in 0..small.calls.len() {
            while let Some(call) = smaller(&small.calls[i]).into_iter().find(|call| {
                let mut less = small.clone();
                less.calls[i] = call.clone();
                disagreement(&less, fault).is_some()
            }) {
                small.calls[i] = call;
            }
        }
        fewer_stations(&mut small, fault);
        if small == before {
            break;
        }
    }
    let (_, why) = disagreement(&small, fault).expect("the smallest history disagrees");
    (small, why)
}
