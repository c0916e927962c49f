//! Replays every list of `crates/replay` on the library as Rust links it, and holds every call to its line.
//!
//! The lines are made by `reference/`, an independent calculation (`reference/script.py` says what a script is). So what is proved of
//! the entries is seen again behind the C interface: numbers, octets, and every octet of every lent memory. A further list is found by
//! its word in `crates/replay/args`.

use std::collections::VecDeque;
use std::fs;
use std::path::Path;
use std::thread;

use khuvelter_sys::{self as sys, Proposal, Reply, CLOCK, RECORD};

/// The checksum's multiplier and its modulus.
const MULTIPLIER: u64 = 16_777_619;
const MODULUS: u64 = 4_294_967_291;

/// The memories of a script, and what of it has not been read.
struct Machine {
    script: VecDeque<u8>,
    table: Vec<u8>,
    lent: usize,
    kept: Vec<u8>,
    answer: Vec<u8>,
    spontaneous: Vec<u8>,
    clock: [u8; CLOCK],
    lines: Vec<String>,
}

impl Machine {
    /// A number of so many octets, low first.
    fn number(&mut self, octets: usize) -> usize {
        self.octets(octets).iter().rev().fold(0, |number, octet| number << 8 | usize::from(*octet))
    }

    /// So many octets.
    fn octets(&mut self, count: usize) -> Vec<u8> {
        self.script.drain(..count).collect()
    }

    /// The record of a point.
    fn record(&mut self) -> [u8; RECORD] {
        self.octets(RECORD).try_into().expect("a record has 24 octets")
    }

    /// An ASDU: length, how many octets are given, these; the rest is zeros.
    fn asdu(&mut self) -> Vec<u8> {
        let (length, given) = (self.number(2), self.number(2));
        let mut asdu = self.octets(given);
        asdu.resize(length, 0);
        asdu
    }

    /// Memory of a length, filled with an octet.
    fn filled(&mut self) -> Vec<u8> {
        let length = self.number(4);
        vec![self.number(1) as u8; length]
    }

    /// Writes the line of a call: its name, what it gave back, the checksum of all memories.
    fn line(&mut self, name: &str, numbers: &[u32]) {
        let memories = self.table[..self.lent].iter().chain(&self.clock).chain(&self.answer).chain(&self.spontaneous);
        let sum = memories.fold(0, |sum, octet| (sum * MULTIPLIER + u64::from(*octet) + 1) % MODULUS);
        let numbers: Vec<_> = numbers.iter().map(u32::to_string).collect();
        self.lines.push(format!("{name} {} {sum}", numbers.join(" ")));
    }

    /// Writes the line of a call that gives a reply.
    fn replied(&mut self, name: &str, reply: Reply) {
        self.line(name, &[reply.number, reply.place, reply.octets, reply.spontaneous]);
    }

    /// A step that sets memory; false if the letter is a call's.
    fn set(&mut self, letter: u8) -> bool {
        match letter {
            b'T' => {
                let table = self.filled();
                self.lent = table.len();
                self.table[..table.len()].copy_from_slice(&table);
            }
            b'L' => self.lent = self.number(4),
            b'A' => self.answer = self.filled(),
            b'S' => self.spontaneous = self.filled(),
            b'C' => self.clock = self.octets(CLOCK).try_into().expect("a clock has 8 octets"),
            b'P' => {
                let at = self.number(4);
                self.table[at] = self.number(1) as u8;
            }
            b'K' => self.kept[..self.lent].copy_from_slice(&self.table[..self.lent]),
            b'B' => self.table[..self.lent].copy_from_slice(&self.kept[..self.lent]),
            _ => return false,
        }
        true
    }

    /// A step that calls; the two forms over records are calls like others here.
    fn call(&mut self, letter: u8) {
        let lent = self.lent;
        match letter {
            b'o' => {
                let (capacity, count) = (self.number(4) as u32, self.number(2));
                let plan: Vec<_> = (0..count).map(|_| self.number(2) as u16).collect();
                let reply = sys::open(&mut self.table[..lent], capacity, &plan);
                self.replied("open", reply);
            }
            b'r' => {
                let record = self.record();
                let reply = sys::register_point(&mut self.table[..lent], &record);
                self.replied("register", reply);
            }
            b'b' | b'l' => {
                let length = self.number(4);
                let records = self.octets(length);
                let reply = sys::register_points(&mut self.table[..lent], &records);
                self.replied("batch", reply);
            }
            b'n' => {
                let count = self.number(2) as u32;
                let records = series(count, self.record());
                let reply = sys::register_points(&mut self.table[..lent], &records);
                self.replied("batch", reply);
            }
            b'u' => {
                let (ca, ioa) = (self.number(2) as u16, self.number(4) as u32);
                let reply = sys::unregister_point(&mut self.table[..lent], ca, ioa);
                self.replied("unregister", reply);
            }
            b'x' => {
                let reply = sys::unregister_all(&mut self.table[..lent]);
                self.replied("clear", reply);
            }
            b'h' => {
                let ca = self.number(2) as u16;
                let s = sys::share(&self.table[..lent], ca);
                self.line("share", &[s.number, s.reservation, s.ceiling, s.held, s.free, s.unmet]);
            }
            b'c' => {
                let reply = sys::connection_started(&self.table[..lent], &mut self.answer);
                self.replied("started", reply);
            }
            b's' | b'k' => {
                let asdu = self.asdu();
                let reply = sys::system_command(&mut self.table[..lent], &mut self.clock, &asdu, &mut self.answer);
                self.replied("system", reply);
            }
            b'p' => self.process(),
            other => panic!("no step has the letter {}", char::from(other)),
        }
    }

    /// A process command.
    fn process(&mut self) {
        let asdu = self.asdu();
        let (negative, reply_type) = (self.number(1) as u8, self.number(1) as u8);
        let length = self.number(2);
        let reply = self.octets(length);
        let length = self.number(4);
        let updates = self.octets(length);
        let proposal = Proposal { negative, reply_type, reply: &reply, updates: &updates };
        let table = &mut self.table[..self.lent];
        let reply = sys::process_command(table, &asdu, proposal, &mut self.answer, &mut self.spontaneous);
        self.replied("process", reply);
    }
}

/// A batch of records like the one given: to the IOA and to each octet of the value the record's place in the batch is added.
fn series(count: u32, record: [u8; RECORD]) -> Vec<u8> {
    let [_, _, a, b, c, d, ..] = record;
    let ioa = u32::from_le_bytes([a, b, c, d]);
    let mut records = Vec::new();
    for i in 0..count {
        let mut next = record;
        next[2..6].copy_from_slice(&ioa.wrapping_add(i).to_le_bytes());
        next[12..].iter_mut().for_each(|octet| *octet = octet.wrapping_add(i as u8));
        records.extend(next);
    }
    records
}

/// Replays the list of a name and gives back the lines of its calls.
fn replay(folder: &Path, name: &str) -> Vec<String> {
    let script = fs::read(folder.join("data").join(name)).expect("the script");
    let room = vec![0; 200_000];
    let mut machine = Machine {
        script: script.into(),
        table: room.clone(),
        lent: 0,
        kept: room,
        answer: Vec::new(),
        spontaneous: Vec::new(),
        clock: [0; CLOCK],
        lines: Vec::new(),
    };
    while !machine.script.is_empty() {
        let letter = machine.number(1) as u8;
        if !machine.set(letter) {
            machine.call(letter);
        }
    }
    machine.lines
}

#[test]
fn every_list() {
    let folder = Path::new(env!("CARGO_MANIFEST_DIR")).join("../../crates/replay");
    let read = |file: &str| fs::read_to_string(folder.join(file)).expect("a file of the runner");
    let (names, expected) = (read("args"), read("stdout"));
    let mut expected = expected.lines();
    thread::scope(|scope| {
        let replays: Vec<_> = names.lines().map(|name| (name, scope.spawn(|| replay(&folder, name)))).collect();
        for (name, replayed) in replays {
            assert_eq!(expected.next(), Some(format!("list {name}").as_str()));
            for (at, line) in replayed.join().expect("a replay").iter().enumerate() {
                assert_eq!(expected.next(), Some(line.as_str()), "call {at} of {name}, counted from 0");
            }
        }
    });
    assert_eq!(expected.next(), None);
}
