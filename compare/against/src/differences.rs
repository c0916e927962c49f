//! The inputs of docs/DIFFERENCES.md, tried on both sides: what each says is held to what is written here, so that the document stays true.

use std::{collections::BTreeSet, panic};

use original::{Original, Point, Proposal, reads_back};

use crate::{
    ours::Ours,
    random::Random,
    sweeps::{POINT_AT_THREE, paper},
};

fn hex(octets: &[u8]) -> String {
    octets.iter().map(|octet| format!("{octet:02x}")).collect::<Vec<_>>().join(" ")
}

/// The original with the points of document 01's gateway on paper.
fn original() -> Original {
    let mut original = Original::default();
    original.register_all(&paper()).expect("the points on paper");
    original
}

fn ours() -> Ours {
    let mut ours = Ours::open(8, &[7, 2, 4, 300, 0, 4]);
    assert_eq!(ours.register_all(&paper()).number, 0);
    ours
}

/// What the original says to a command: its ASDUs one after another, `nothing`, or `no ASDU` if its decoder refuses the octets.
fn original_says(asdu: &[u8], proposal: Proposal) -> String {
    match original().process_command(asdu, proposal) {
        None => "no ASDU".into(),
        Some(answer) if answer.sent.is_empty() => "nothing".into(),
        Some(answer) => answer.sent.iter().map(|asdu| hex(asdu)).collect::<Vec<_>>().join(" / "),
    }
}

fn number_says(memory: &[u8], number: u32, octets: u32) -> String {
    if number == 0 { hex(&memory[..octets as usize]) } else { format!("number {number}") }
}

fn system_says(asdu: &[u8]) -> String {
    let mut ours = ours();
    let reply = ours.system_command(asdu, 4096);
    number_says(&ours.answer, reply.number, reply.octets)
}

fn process_says(asdu: &[u8], proposal: &Proposal) -> String {
    let mut ours = ours();
    let reply = ours.process_command(asdu, proposal, 4096, 4096);
    number_says(&ours.answer, reply.number, reply.octets)
}

fn hold(what: &str, original: &str, expected_original: &str, ours: &str, expected_ours: &str) {
    println!("{what}: the original: {}; here: {}", short(original), short(ours));
    assert_eq!(original, expected_original, "the original, {what}");
    assert_eq!(ours, expected_ours, "ours, {what}");
}

fn short(text: &str) -> String {
    if text.len() < 100 {
        text.into()
    } else {
        format!("{} .. ({} octets)", &text[..95], text.split([' ', '/']).filter(|w| !w.is_empty()).count())
    }
}

fn system(what: &str, asdu: &[u8], expected_original: &str, expected_ours: &str) {
    let what = format!("{what}, {}", short(&hex(asdu)));
    hold(&what, &original_says(asdu, Proposal::default()), expected_original, &system_says(asdu), expected_ours);
}

/// A process command for IOA 10 and this proposal.
fn process(what: &str, reply_type: u8, reply: &[u8], expected_original: &str, expected_ours: &str) {
    let asdu = [45, 1, 6, 0, 7, 0, 10, 0, 0, 1];
    let proposal = Proposal { reply_type, reply: reply.to_vec(), ..Proposal::default() };
    let what = format!("{what}, reply of type {reply_type}, {}", short(&hex(reply)));
    hold(&what, &original_says(&asdu, proposal.clone()), expected_original, &process_says(&asdu, &proposal), expected_ours);
}

fn registration(what: &str, point: Point, expected_ours: u32) {
    let mut ours = ours();
    hold(
        what,
        &format!("{:?}", original().register(&point)),
        "Ok(())",
        &ours.register(&point).number.to_string(),
        &expected_ours.to_string(),
    );
}

/// The orders of two stations' points with one IOA that interrogations of CA 65,535 give.
fn orders() -> BTreeSet<String> {
    let points = [7, 300].map(|ca| Point { ca, ioa: 1, octets: [(ca == 300) as u8; 12], ..POINT_AT_THREE });
    let ask = |_| {
        let mut original = Original::default();
        original.register_all(&points).expect("two points");
        hex(&original.system_command(&[100, 1, 6, 0, 0xFF, 0xFF, 0, 0, 0, 20]).expect("an ASDU").sent[1])
    };
    (0..64).map(ask).collect()
}

/// Random octets shown to the original: how many it read as an ASDU, and whether it ever panicked.
fn panics(times: u64) -> (u64, u64) {
    let mut random = Random(10);
    let (mut read, mut panicked) = (0, 0);
    let mut running = original();
    for _ in 0..times {
        let length = random.below(270);
        let mut octets: Vec<u8> = (0..length).map(|_| random.next() as u8).collect();
        if 1 < length && random.once_in(2) {
            octets[0] = random.one_of(&[45, 51, 64, 100, 101, 102, 103, 104, 105, 106, 107, 1, 70, 110, 120]);
            octets[1] = random.one_of(&[0, 1, 2, 0x80, 0x81, 0x82]);
            octets.truncate(6 + random.below(30));
        }
        match panic::catch_unwind(panic::AssertUnwindSafe(|| {
            running.process_command(&octets, Proposal { reply_type: 45, ..Proposal::default() })
        })) {
            Ok(answer) => read += answer.is_some() as u64,
            Err(_) => {
                panicked += 1;
                println!("a panic of the original: {}", hex(&octets));
                running = original();
            }
        }
    }
    (read, panicked)
}

pub fn differences() {
    let report = "01 02 14 00 07 00 03 00 00 00 0a 00 00 01 / 0f 01 14 00 07 00 05 00 00 2a 00 00 00 03";
    let flagged = format!("64 81 07 00 07 00 00 00 00 14 / {report} / 64 81 0a 00 07 00 00 00 00 14");
    system("sequence flag", &[0x64, 0x81, 6, 0, 7, 0, 0, 0, 0, 0x14], &flagged, "number 2");
    system("sequence flag, no object", &[0x64, 0x80, 6, 0, 7, 0, 0, 0, 0], "nothing", "number 2");
    system("too short", &[0x64, 1, 6, 0, 7, 0], "no ASDU", "number 2");
    system("too short for a head", &[0x64], "no ASDU", "number 2");
    system("a type not served, malformed", &[1, 5, 6, 0, 7, 0], "no ASDU", "number 1");
    system("a type not in the standard, any length", &[8, 5, 6, 0, 7, 0, 1], "nothing", "number 1");
    let long: Vec<u8> = [0x68, 49, 6, 0, 7, 0].into_iter().chain(std::iter::repeat_n([1, 0, 0, 0xAA, 0x55], 49).flatten()).collect();
    let echo = hex(&long).replacen("68 31 06", "68 31 07", 1);
    system("251 octets", &long, &echo, "number 2");
    let process_type = [45, 1, 6, 0, 7, 0, 10, 0, 0, 1];
    let confirmed = original_says(&process_type, Proposal { reply_type: 45, reply: vec![10, 0, 0, 1], ..Proposal::default() });
    hold("a process type on the system entry", &confirmed, "2d 01 07 00 07 00 0a 00 00 01", &system_says(&process_type), "number 1");

    process("reply of a monitoring type", 1, &[10, 0, 0, 1], "01 01 07 00 07 00 0a 00 00 01", "number 6");
    let many = [10, 0, 0, 1].repeat(61);
    process("reply over 243 octets", 45, &many, &format!("2d 3d 07 00 07 00 {}", hex(&many)), "number 6");
    process("bit 1 of a single command", 45, &[10, 0, 0, 2], "2d 01 07 00 07 00 0a 00 00 00", "2d 01 07 00 07 00 0a 00 00 02");
    assert!(!reads_back(&[45, 1, 6, 0, 7, 0, 10, 0, 0, 2]), "outside the domain");

    registration("a point of CA 65,535", Point { ca: 65535, ..POINT_AT_THREE }, 12);
    registration("a point of CA 0", Point { ca: 0, ..POINT_AT_THREE }, 12);
    registration("IOA 16,777,216", Point { ioa: 1 << 24, ..POINT_AT_THREE }, 11);

    let nothing = "nothing";
    system("interrogation, deactivation", &[0x64, 1, 8, 0, 7, 0, 0, 0, 0, 0x14], nothing, "number 1");
    system("interrogation, request", &[0x64, 1, 5, 0, 7, 0, 0, 0, 0, 0x14], nothing, "number 1");
    system("interrogation, qualifier 0", &[0x64, 1, 6, 0, 7, 0, 0, 0, 0, 0], nothing, "number 1");
    let said = "64 01 47 00 07 00 00 00 00 01";
    system("interrogation, qualifier 1", &[0x64, 1, 6, 0, 7, 0, 0, 0, 0, 1], said, said);
    system("its own negative bit", &[0x64, 1, 0x46, 0, 7, 0, 0, 0, 0, 1], said, said);
    let said = "64 01 07 00 09 00 00 00 00 14 / 64 01 0a 00 09 00 00 00 00 14";
    system("a CA that is not there", &[0x64, 1, 6, 0, 9, 0, 0, 0, 0, 0x14], said, &said.replace(" /", ""));
    let said = "66 01 47 00 07 00 01 00 00";
    system("read of a missing address", &[0x66, 1, 5, 0, 7, 0, 1, 0, 0], said, said);
    let said = "66 01 07 00 07 00 03 00 00 / 01 01 05 00 07 00 03 00 00 00";
    system("read", &[0x66, 1, 5, 0, 7, 0, 3, 0, 0], said, &said.replace(" /", ""));

    system("a type not served", &[0x6A, 1, 6, 0, 7, 0, 0, 0, 0, 0, 0], nothing, "number 1");
    let said = "69 01 07 00 07 00 00 00 00 01";
    system("reset process, request", &[0x69, 1, 5, 0, 7, 0, 0, 0, 0, 1], said, said);
    let said = "65 01 07 00 07 00 00 00 00 45 / 0f 01 25 00 07 00 05 00 00 2a 00 00 00 03 / 65 01 0a 00 07 00 00 00 00 45";
    system("freeze", &[0x65, 1, 6, 0, 7, 0, 0, 0, 0, 0x45], said, &said.replace(" /", ""));
    let said = "64 01 07 00 ff ff 00 00 00 14 / 01 02 14 00 ff ff 03 00 00 00 0a 00 00 01 / 0f 01 14 00 ff ff 05 00 00 2a 00 00 00 03 / 64 01 0a 00 ff ff 00 00 00 14";
    system("data under CA 65,535", &[0x64, 1, 6, 0, 0xFF, 0xFF, 0, 0, 0, 0x14], said, &said.replace(" /", ""));
    process("a process command", 45, &[10, 0, 0, 1], "2d 01 07 00 07 00 0a 00 00 01", "2d 01 07 00 07 00 0a 00 00 01");

    let orders = orders();
    println!("one IOA in two stations under CA 65,535: the original gives {} orders: {orders:?}", orders.len());
    assert_eq!(orders.len(), 2, "both orders are seen");
    let times = 2_000_000;
    let (read, panicked) = panics(times);
    println!("{times} strings of octets shown to the original: {read} read as an ASDU, {panicked} panics");
    assert_eq!(panicked, 0);
}
