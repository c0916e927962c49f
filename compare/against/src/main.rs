//! Holds the proved library against the original: random histories, sweeps through every case; faults laid in; a list recorded.

mod ask;
mod compare;
mod differences;
mod history;
mod image;
mod oracle;
mod ours;
mod random;
mod record;
mod rules;
mod shrink;
mod sweeps;

use std::{collections::BTreeMap, process::ExitCode};

use compare::{Counts, Fault, run};
use history::{Call, History};
use random::Draw;

fn print(history: &History, why: &str) {
    println!("a disagreement; the smallest input found (octets and numbers of calls in hex):");
    println!("  K {}, plan {:?}", history.capacity, history.plan);
    for call in &history.calls {
        println!("  {call:02x?}");
    }
    println!("  {why}");
}

/// Runs histories until so many calls were made, then one of a tenth as many; gives what was met, or the first disagreement.
fn histories(calls: u64, seed: u64, fault: Option<Fault>) -> Result<(Counts, u64), (History, String)> {
    let mut counts = Counts::default();
    let (mut made, mut number) = (0, 0);
    let last = calls / 10;
    while made < calls + last {
        let mut draw = Draw::new(seed.wrapping_mul(1_000_003).wrapping_add(number), false);
        let long = calls <= made;
        let length = if long { last } else { 20 + draw.random.below(300) as u64 };
        let history = draw.history(length as usize);
        run(&history, if long { 100 } else { 10 }, fault, &mut counts).map_err(|(at, _)| shrink::shrink(&history, at, fault))?;
        made += length;
        number += 1;
    }
    Ok((counts, number))
}

fn list<K: std::fmt::Display>(counts: &BTreeMap<K, u64>) -> String {
    counts.iter().map(|(key, times)| format!("{key}: {times}")).collect::<Vec<_>>().join(", ")
}

fn random(calls: u64, seed: u64) -> ExitCode {
    match histories(calls, seed, None) {
        Ok((counts, histories)) => {
            println!("each kind of call, and how often it gave each number:");
            counts.numbers.iter().for_each(|(kind, numbers)| println!("  {kind:28} {}", list(numbers)));
            println!("objects sent, by type: {}", list(&counts.sent));
            println!("objects told, by type: {}", list(&counts.told));
            println!("{} calls in {histories} histories from seed {seed}: the proved library and the original agree", counts.calls());
            ExitCode::SUCCESS
        }
        Err((history, why)) => {
            print(&history, &why);
            ExitCode::FAILURE
        }
    }
}

/// Goes through every case.
fn sweeps() -> ExitCode {
    for (name, histories) in sweeps::sweeps() {
        let mut counts = Counts::default();
        for history in &histories {
            let every = if history.calls.len() < 100 { 1 } else { 20 };
            if let Err((at, _)) = run(history, every, None, &mut counts) {
                let (history, why) = shrink::shrink(history, at, None);
                print(&history, &why);
                return ExitCode::FAILURE;
            }
        }
        println!("{name}: {} calls agree", counts.calls());
    }
    ExitCode::SUCCESS
}

/// Faults laid into our side's answers; each must be found.
const FAULTS: [(&str, Fault); 5] = [
    ("a negative confirmation loses its bit", |call, ours, reply| {
        if let (Call::System { .. }, true) = (call, reply.octets >= 6) {
            ours.answer[2] &= !0x40;
        }
    }),
    ("the last octet of a report of two ASDUs is one more", |call, ours, reply| {
        if let (Call::System { asdu, .. }, true) = (call, reply.octets > 300) {
            if asdu[0] == 100 {
                ours.answer[reply.octets as usize - 11] ^= 1;
            }
        }
    }),
    ("a reset keeps the counters", |call, ours, reply| {
        if let (Call::System { asdu, .. }, 0) = (call, reply.number) {
            if asdu[0] == 101 && ours.table[64] == 15 {
                ours.table[64 + 10] |= 1;
            }
        }
    }),
    ("a spontaneous ASDU is said to be longer", |call, _, reply| {
        if let (Call::Process { .. }, true) = (call, reply.spontaneous > 0) {
            reply.spontaneous += 1;
        }
    }),
    ("a removed point stays in its group", |call, ours, reply| {
        if let (Call::Unregister { .. }, 0, true) = (call, reply.number, ours.table[64] != 0) {
            ours.table[64 + 6] ^= 1;
        }
    }),
];

/// Sees that each fault is found, and prints the smallest input.
fn faults() -> ExitCode {
    for (name, fault) in FAULTS {
        println!("laid in: {name}");
        match histories(100_000, 1, Some(fault)) {
            Ok(_) => {
                println!("NOT FOUND");
                return ExitCode::FAILURE;
            }
            Err((history, why)) => print(&history, &why),
        }
    }
    ExitCode::SUCCESS
}

fn main() -> ExitCode {
    let words: Vec<String> = std::env::args().skip(1).collect();
    let word = |i: usize| words.get(i).map(String::as_str);
    match word(0) {
        Some("random") => {
            random(word(1).map_or(200_000, |w| w.parse().expect("a number")), word(2).map_or(1, |w| w.parse().expect("a number")))
        }
        Some("sweeps") => sweeps(),
        Some("faults") => faults(),
        Some("differences") => {
            differences::differences();
            ExitCode::SUCCESS
        }
        Some("ask") => {
            ask::answer_lines();
            ExitCode::SUCCESS
        }
        Some("record") => {
            let lines = record::record_into(word(1).expect("a folder").as_ref()).expect("the folder can be written");
            println!("{lines} calls recorded");
            ExitCode::SUCCESS
        }
        _ => {
            eprintln!("against random [CALLS [SEED]] | sweeps | faults | differences | record FOLDER | ask");
            ExitCode::from(2)
        }
    }
}
