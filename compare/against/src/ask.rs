//! Makes the calls that lines of the standard input ask for on the proved library alone, for programs that are not Rust. Octets are hex, `-`
//! is none. A line gives a line: the number, the answer, the spontaneous ASDUs.
//!
//!     open K CA RESERVATION CEILING ...
//!     register RECORD
//!     started
//!     system ASDU
//!     process ASDU NEGATIVE REPLY-TYPE REPLY UPDATES

use std::io::stdin;

use khuvelter_sys::Proposal;

use crate::ours::{Ours, Reply};

const ROOM: usize = 1 << 20;

fn octets(word: &str) -> Vec<u8> {
    if word == "-" {
        return Vec::new();
    }
    (0..word.len()).step_by(2).map(|i| u8::from_str_radix(&word[i..i + 2], 16).expect("hex")).collect()
}

fn hex(octets: &[u8]) -> String {
    if octets.is_empty() { "-".into() } else { octets.iter().map(|octet| format!("{octet:02x}")).collect() }
}

fn number<T: std::str::FromStr>(word: &str) -> T {
    word.parse().ok().expect("a number")
}

pub fn answer_lines() {
    let mut ours = None;
    for line in stdin().lines() {
        let line = line.expect("a line");
        let words: Vec<&str> = line.split_whitespace().collect();
        if words[0] == "open" {
            let plan: Vec<u16> = words[2..].iter().map(|word| number(word)).collect();
            ours = Some(Ours::open(number(words[1]), &plan));
            println!("0 - -");
            continue;
        }
        let ours: &mut Ours = ours.as_mut().expect("an opened table");
        let reply: Reply = match words[0] {
            "register" => ours.register_record(&octets(words[1]).try_into().expect("24 octets")),
            "started" => ours.connection_started(ROOM),
            "system" => ours.system_command(&octets(words[1]), ROOM),
            "process" => {
                let [asdu, reply, updates] = [1, 4, 5].map(|i| octets(words[i]));
                let proposal = Proposal { negative: number(words[2]), reply_type: number(words[3]), reply: &reply, updates: &updates };
                ours.process_octets(&asdu, proposal, ROOM, ROOM)
            }
            other => panic!("no call is named {other}"),
        };
        let [answer, spontaneous] = [(&ours.answer, reply.octets), (&ours.spontaneous, reply.spontaneous)]
            .map(|(memory, n)| hex(memory.get(..n as usize).unwrap_or(&[])));
        println!("{} {answer} {spontaneous}", reply.number);
    }
}
