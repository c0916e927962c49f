//! Writes a list of calls and what the original says to them, in the form that crates/replay replays (reference/script.py): all that a line
//! holds comes from the original and from document 01's rules, nothing from the proved library.

use std::{fs, path::Path};

use crate::{
    compare::too_little,
    history::{Call, History},
    oracle::Oracle,
    ours::{ANSWER_FILL, SPONTANEOUS_FILL, record, update},
    random::Draw,
    sweeps,
};

const TABLE_FILL: u8 = 0xA5;

/// The checksum over all memory, as reference/script.py defines it.
fn checksum(memories: [&[u8]; 4]) -> u64 {
    memories.concat().iter().fold(0, |sum, octet| (sum * 16_777_619 + *octet as u64 + 1) % 4_294_967_291)
}

struct Recorder {
    script: Vec<u8>,
    lines: String,
}

/// All memory as it must stand after a call.
struct Memory {
    table: Vec<u8>,
    clock: [u8; 8],
    answer: Vec<u8>,
    spontaneous: Vec<u8>,
}

fn low_first(number: usize, octets: usize) -> Vec<u8> {
    number.to_le_bytes()[..octets].to_vec()
}

/// An ASDU in a script: its length, and its octets without the zeros at its end.
fn lengthened(asdu: &[u8]) -> Vec<u8> {
    let given = asdu.iter().rposition(|octet| *octet != 0).map_or(0, |last| last + 1);
    [&low_first(asdu.len(), 2), &low_first(given, 2), &asdu[..given]].concat()
}

/// A call's step in a script.
fn step(call: &Call) -> Vec<u8> {
    match call {
        Call::Register(point) => [b"r", &record(point)[..]].concat(),
        Call::RegisterAll(points) => {
            let records = points.iter().flat_map(record).collect::<Vec<u8>>();
            [b"b", &low_first(records.len(), 4)[..], &records].concat()
        }
        Call::Unregister { ca, ioa } => [b"u", &ca.to_le_bytes()[..], &ioa.to_le_bytes()].concat(),
        Call::UnregisterAll => b"x".to_vec(),
        Call::Started { .. } => b"c".to_vec(),
        Call::System { asdu, .. } => [b"s", &lengthened(asdu)[..]].concat(),
        Call::Process { asdu, proposal, .. } => {
            let updates = proposal.updates.iter().flat_map(update).collect::<Vec<u8>>();
            [
                b"p",
                &lengthened(asdu)[..],
                &[proposal.negative as u8, proposal.reply_type],
                &low_first(proposal.reply.len(), 2),
                &proposal.reply,
                &low_first(updates.len(), 4),
                &updates,
            ]
            .concat()
        }
    }
}

/// The step that lends the answer or the spontaneous memory.
fn lend(letter: u8, length: usize, fill: u8) -> Vec<u8> {
    [&[letter][..], &low_first(length, 4), &[fill]].concat()
}

impl Recorder {
    fn line(&mut self, name: &str, numbers: [usize; 4], memory: &Memory) {
        let [number, place, octets, spontaneous] = numbers;
        let sum = checksum([&memory.table, &memory.clock, &memory.answer, &memory.spontaneous]);
        self.lines += &format!("{name} {number} {place} {octets} {spontaneous} {sum}\n");
    }

    /// Lends both memories anew.
    fn lend(&mut self, memory: &mut Memory, room: usize, spontaneous_room: usize) {
        self.script.extend(lend(b'A', room, ANSWER_FILL));
        self.script.extend(lend(b'S', spontaneous_room, SPONTANEOUS_FILL));
        memory.answer = vec![ANSWER_FILL; room];
        memory.spontaneous = vec![SPONTANEOUS_FILL; spontaneous_room];
    }

    fn call(&mut self, oracle: &mut Oracle, memory: &mut Memory, call: &Call) {
        let expected = oracle.call(call);
        let [sent, broadcast] = [expected.said.sent.concat(), expected.said.broadcast.concat()];
        if expected.number == 0 {
            for (number, room, spontaneous_room) in too_little(call, sent.len(), broadcast.len()) {
                self.lend(memory, room, spontaneous_room);
                self.script.extend(step(call));
                self.line(call.name(), [number as usize, 0, 0, 0], memory);
            }
        }
        if matches!(call, Call::Started { .. } | Call::System { .. } | Call::Process { .. }) {
            self.lend(memory, sent.len() + 3, broadcast.len() + 3);
        }
        self.script.extend(step(call));
        if expected.number == 0 {
            memory.answer.splice(..sent.len(), sent.iter().copied());
            memory.spontaneous.splice(..broadcast.len(), broadcast.iter().copied());
            memory.table = oracle.table();
            memory.clock = oracle.clock();
        }
        let place = if let Call::Register(_) = call { 0 } else { expected.place };
        self.line(call.name(), [expected.number as usize, place as usize, sent.len(), broadcast.len()], memory);
    }

    fn history(&mut self, history: &History) {
        let mut oracle = Oracle::new(history);
        let table = oracle.table();
        self.script.extend(lend(b'T', table.len(), TABLE_FILL));
        self.script.extend([b"C".to_vec(), vec![0; 8]].concat());
        let mut memory = Memory { table, clock: [0; 8], answer: Vec::new(), spontaneous: Vec::new() };
        self.lend(&mut memory, 0, 0);
        let plan = history.flat_plan();
        self.script.push(b'o');
        self.script.extend([low_first(history.capacity as usize, 4), low_first(plan.len(), 2)].concat());
        self.script.extend(plan.iter().flat_map(|number| number.to_le_bytes()));
        self.line("open", [0; 4], &memory);
        for call in &history.calls {
            self.call(&mut oracle, &mut memory, call);
        }
    }
}

/// Some thousand calls of every kind: random histories, no IOA in two stations, and a part of the sweeps. The script goes to the file
/// `recorded` of the folder, the lines to its file `lines`.
pub fn record_into(folder: &Path) -> std::io::Result<usize> {
    let mut recorder = Recorder { script: Vec::new(), lines: String::new() };
    for history in sweeps::sample() {
        recorder.history(&history);
    }
    for seed in 0..32 {
        let draw = Draw::small(9_000 + seed);
        recorder.history(&draw.history(100));
    }
    fs::write(folder.join("recorded"), &recorder.script)?;
    fs::write(folder.join("lines"), &recorder.lines)?;
    Ok(recorder.lines.lines().count())
}
