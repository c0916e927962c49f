//! Makes each call on the original and on the proved library, and compares everything that is said and kept.

use std::collections::BTreeMap;

use crate::{
    history::{Call, History},
    image::objects,
    oracle::{Expected, Oracle},
    ours::{ANSWER_FILL, Ours, Reply, SPONTANEOUS_FILL},
};

/// What a run met: how often each kind of call gave each number, and how many objects of each type were sent and told.
#[derive(Default)]
pub struct Counts {
    pub numbers: BTreeMap<String, BTreeMap<u32, u64>>,
    pub sent: BTreeMap<u8, u64>,
    pub told: BTreeMap<u8, u64>,
}

impl Counts {
    /// All calls.
    pub fn calls(&self) -> u64 {
        self.numbers.values().flat_map(|numbers| numbers.values()).sum()
    }
}

/// A fault laid into our side's answers, to see that it is found and shrunk.
pub type Fault = fn(&Call, &mut Ours, &mut Reply);

pub struct Pair {
    oracle: Oracle,
    ours: Ours,
    fault: Option<Fault>,
}

/// The ASDUs of an answer under CA 65,535 with the objects of a type brought into one order: by IOA, then octets.
fn as_collection(asdus: &[Vec<u8>]) -> Vec<Vec<u8>> {
    let mut all: Vec<_> = objects(asdus).map(|(type_id, ioa, octets)| (type_id, ioa, octets.to_vec())).collect();
    let in_order = all.is_sorted_by_key(|(type_id, ioa, _)| (*type_id, *ioa));
    all.sort();
    let heads = asdus.iter().map(|asdu| if asdu[0] < 45 { asdu[..6].to_vec() } else { asdu.clone() });
    let objects = all.into_iter().map(|(type_id, ioa, octets)| [&[type_id][..], &ioa.to_le_bytes(), &octets].concat());
    heads.chain([vec![in_order as u8]]).chain(objects).collect()
}

/// Cuts an answer into ASDUs as long as those expected; what is left over is one more.
fn cut<'a>(mut octets: &'a [u8], like: &[Vec<u8>]) -> Vec<Vec<u8>> {
    let mut asdus = Vec::new();
    for asdu in like {
        let (first, rest): (&'a [u8], &'a [u8]) = octets.split_at(asdu.len().min(octets.len()));
        asdus.push(first.to_vec());
        octets = rest;
    }
    if !octets.is_empty() {
        asdus.push(octets.to_vec());
    }
    asdus
}

/// Whether memory holds these ASDUs one after another and beyond them what it was filled with.
fn holds(memory: &[u8], octets: usize, fill: u8, expected: &[Vec<u8>], collection: bool) -> Result<(), String> {
    let (written, beyond) = memory.split_at_checked(octets).ok_or(format!("{octets} octets reported in {}", memory.len()))?;
    if beyond.iter().any(|octet| *octet != fill) {
        return Err("memory past the reported octets changed".into());
    }
    if written == expected.concat() {
        return Ok(());
    }
    let lengths_agree = written.len() == expected.iter().map(Vec::len).sum::<usize>();
    let written = cut(written, expected);
    if collection
        && lengths_agree
        && written.iter().zip(expected).all(|(w, e)| w[..6] == e[..6])
        && as_collection(&written) == as_collection(expected)
    {
        return Ok(());
    }
    Err(format!("ours {written:02x?}, the original {expected:02x?}"))
}

impl Pair {
    pub fn new(history: &History, fault: Option<Fault>) -> Self {
        Self { oracle: Oracle::new(history), ours: Ours::open(history.capacity, &history.flat_plan()), fault }
    }

    /// Makes a call on both; the numbers that were given, or what disagrees.
    pub fn call(&mut self, call: &Call, counts: &mut Counts) -> Result<Vec<u32>, String> {
        let mut numbers = Vec::new();
        let before = (self.ours.table.clone(), self.ours.clock);
        let expected = self.oracle.call(call);
        objects(&expected.said.sent).for_each(|(type_id, ..)| *counts.sent.entry(type_id).or_default() += 1);
        objects(&expected.said.broadcast).for_each(|(type_id, ..)| *counts.told.entry(type_id).or_default() += 1);
        let [sent, broadcast] = [&expected.said.sent, &expected.said.broadcast].map(|asdus| asdus.iter().map(Vec::len).sum::<usize>());
        if expected.number == 0 {
            for (number, room, spontaneous_room) in too_little(call, sent, broadcast) {
                let reply = self.on_ours(call, room, spontaneous_room);
                self.unchanged(number, reply, &before).map_err(|why| format!("memory of {room} and {spontaneous_room} octets: {why}"))?;
                numbers.push(number);
            }
        }
        let more = if short(call) { 0 } else { 7 };
        let reply = self.on_ours(call, sent + more, broadcast + more);
        if expected.number != 0 {
            self.unchanged(expected.number, reply, &before)?;
        } else {
            self.answered(call, reply, &expected)?;
        }
        let place = if let Call::Register(_) = call { 0 } else { expected.place };
        if reply.place != place {
            return Err(format!("number {}, ours names place {}, the original {place}", reply.number, reply.place));
        }
        if self.ours.clock != self.oracle.clock() {
            return Err(format!("ours remembers the clock {:02x?}, the original {:02x?}", self.ours.clock, self.oracle.clock()));
        }
        numbers.push(reply.number);
        Ok(numbers)
    }

    /// A refusal: just its number, and nothing changes.
    fn unchanged(&self, number: u32, reply: Reply, before: &(Vec<u8>, [u8; 8])) -> Result<(), String> {
        if reply.number != number || reply.octets != 0 || reply.spontaneous != 0 {
            return Err(format!("ours gives {reply:?}, expected is number {number}"));
        }
        let silent = self.ours.answer.iter().all(|o| *o == ANSWER_FILL) && self.ours.spontaneous.iter().all(|o| *o == SPONTANEOUS_FILL);
        if !silent || self.ours.table != before.0 || self.ours.clock != before.1 {
            return Err(format!("number {number} changed memory"));
        }
        Ok(())
    }

    fn answered(&self, call: &Call, reply: Reply, expected: &Expected) -> Result<(), String> {
        if reply.number != 0 {
            return Err(format!("ours gives number {}, the original says {:02x?}", reply.number, expected.said));
        }
        let collection = matches!(call, Call::System { asdu, .. } if asdu[4..6] == [0xFF, 0xFF]);
        holds(&self.ours.answer, reply.octets as usize, ANSWER_FILL, &expected.said.sent, collection)
            .map_err(|why| format!("answer: {why}"))?;
        holds(&self.ours.spontaneous, reply.spontaneous as usize, SPONTANEOUS_FILL, &expected.said.broadcast, false)
            .map_err(|why| format!("spontaneous: {why}"))
    }

    fn on_ours(&mut self, call: &Call, room: usize, spontaneous_room: usize) -> Reply {
        let ours = &mut self.ours;
        (ours.answer, ours.spontaneous) = (Vec::new(), Vec::new());
        let mut reply = match call {
            Call::Register(point) => ours.register(point),
            Call::RegisterAll(points) => ours.register_all(points),
            Call::Unregister { ca, ioa } => ours.unregister(*ca, *ioa),
            Call::UnregisterAll => ours.unregister_all(),
            Call::Started { .. } => ours.connection_started(room),
            Call::System { asdu, .. } => ours.system_command(asdu, room),
            Call::Process { asdu, proposal, .. } => ours.process_command(asdu, proposal, room, spontaneous_room),
        };
        if let Some(fault) = self.fault {
            fault(call, ours, &mut reply);
        }
        reply
    }

    /// Compares the whole table with what the original's interrogations tell, and the shares with the points that it holds.
    pub fn tables_agree(&mut self) -> Result<(), String> {
        for (ca, share) in self.oracle.shares() {
            if self.ours.share(ca) != share {
                return Err(format!("the share of {ca}: ours {:?}, expected {share:?}", self.ours.share(ca)));
            }
        }
        let expected = self.oracle.table();
        match self.ours.table.iter().zip(&expected).position(|(ours, original)| ours != original) {
            None => Ok(()),
            Some(at) => {
                let from = if at < 64 { 0 } else { 64 + (at - 64) / 48 * 48 };
                let place = |table: &[u8]| table[from..(from + 48).min(table.len())].to_vec();
                Err(format!(
                    "the tables differ at octet {at}: ours {:02x?}, the original's {:02x?}",
                    place(&self.ours.table),
                    place(&expected)
                ))
            }
        }
    }
}

fn short(call: &Call) -> bool {
    match call {
        Call::Started { short } | Call::System { short, .. } => short.is_some(),
        Call::Process { short, spontaneous_short, .. } => short.is_some() || spontaneous_short.is_some(),
        _ => false,
    }
}

/// The memories that are too short for an answer, with the number that each must give.
pub fn too_little(call: &Call, sent: usize, broadcast: usize) -> Vec<(u32, usize, usize)> {
    let less = |octets: usize, short: Option<usize>| short.filter(|_| 0 < octets).map(|short| octets - 1 - short % octets);
    match call {
        Call::Started { short } | Call::System { short, .. } => less(sent, *short).map(|room| (4, room, 0)).into_iter().collect(),
        Call::Process { short, spontaneous_short, .. } => {
            let answer = less(sent, *short);
            let spontaneous = less(broadcast, *spontaneous_short);
            let both = spontaneous.map(|room| (5, answer.unwrap_or(sent), room));
            both.into_iter().chain(answer.map(|room| (4, room, broadcast))).collect()
        }
        _ => Vec::new(),
    }
}

/// Runs a history; the place of the first call that disagrees, and why. The tables are compared after every `every` calls and at the end.
pub fn run(history: &History, every: usize, fault: Option<Fault>, counts: &mut Counts) -> Result<(), (usize, String)> {
    let mut pair = Pair::new(history, fault);
    for (i, call) in history.calls.iter().enumerate() {
        for number in pair.call(call, counts).map_err(|why| (i, why))? {
            *counts.numbers.entry(call.kind()).or_default().entry(number).or_default() += 1;
        }
        if i % every == every - 1 || i + 1 == history.calls.len() {
            pair.tables_agree().map_err(|why| (i, why))?;
        }
    }
    Ok(())
}
