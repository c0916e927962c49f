//! Every number of document 01 through the safe interface, and that a refusal changes nothing.
//!
//! Excluded by its types, and reached in `khuvelter-sys/tests/interface.rs` instead: 3 (the gateway owns its table, and every call keeps it well formed), and
//! 10 for a table memory that is too short or a plan that is not three numbers for each station. Numbers 4 and 5 are excluded from
//! `system_command` and `process_command`, which bring memory that always suffices, and reached through the calls that lend memory.

use khuvelter::{types, Fault, Gateway, Point, Proposal, Refusal, Station, Update, LARGEST_IOA};

/// Document 01, "Numbers given back", typed in from the paper.
const PAPER: [(u32, &str); 16] = [
    (2, "ASDU malformed"),
    (3, "table not well formed"),
    (4, "answer memory shorter than the answer"),
    (5, "spontaneous memory shorter than what goes in it"),
    (6, "bad proposal"),
    (10, "invalid plan or K, or table memory below 48 × K + 8 × stations + 64 octets"),
    (11, "unknown point type, or IOA too large"),
    (12, "CA not in the plan"),
    (13, "interrogation group not 1 to 16"),
    (14, "counter group not 1 to 4"),
    (15, "counter group on a point that is no counter"),
    (16, "address stands earlier in the batch"),
    (17, "already registered"),
    (18, "not registered (removal)"),
    (19, "ceiling: held = c"),
    (20, "held < c, not admitted"),
];

/// A single command, on, to IOA 10 of station 7.
const SINGLE: [u8; 10] = [0x2D, 0x01, 0x06, 0x00, 0x07, 0x00, 0x0A, 0x00, 0x00, 0x01];

/// K = 5: station 7 (r 2, c 3) has IOA 10; station 8 (r 2, c 5).
fn gateway() -> Gateway {
    let mut gateway = Gateway::open(5, &[Station::new(7, 2, 3), Station::new(8, 2, 5)]).unwrap();
    gateway.register(&point(7, 10)).unwrap();
    gateway
}

/// A single point, off.
fn point(ca: u16, ioa: u32) -> Point {
    Point::new(ca, ioa, types::M_SP_NA_1, [0x00])
}

/// What every station answers to a general interrogation, and the shares: all that can be seen of a gateway.
fn seen(gateway: &Gateway) -> (Vec<u8>, Vec<khuvelter::Share>, Option<[u8; 7]>) {
    let mut copy = gateway.clone();
    let all = copy.system_command(&[0x64, 0x01, 0x06, 0x00, 0xFF, 0xFF, 0x00, 0x00, 0x00, 0x14]).unwrap();
    (all.into_octets(), gateway.shares().unwrap(), gateway.clock())
}

/// The number of a refused registration, alone and as the second of a batch; neither changes anything.
fn refused(gateway: &mut Gateway, point: Point, number: u32) {
    let before = seen(gateway);
    let alone = gateway.register(&point).unwrap_err();
    assert_eq!((alone.number(), alone.place()), (number, None));
    let first = Point::new(8, 4000, types::M_SP_NA_1, [0x00]);
    let batch = gateway.register_all(&[first, point]).unwrap_err();
    assert_eq!((batch.number(), batch.place()), (number, Some(1)));
    assert_eq!(seen(gateway), before);
}

#[test]
fn numbers_and_words_are_the_papers() {
    let ours: Vec<_> = Fault::all().map(|fault| (fault.number(), fault.words())).collect();
    assert_eq!(ours, PAPER);
    for number in 0..64 {
        let known = PAPER.iter().any(|row| row.0 == number);
        match Fault::from_number(number) {
            None => assert!(number <= 1),
            Some(Fault::Later(other)) => assert!(!known && other == number),
            Some(fault) => assert!(known && fault.number() == number),
        }
    }
}

#[test]
fn number_0_done() {
    let mut gateway = gateway();
    assert_eq!(gateway.register(&point(8, 1)), Ok(()));
    assert_eq!(gateway.register_all(&[]), Ok(()));
    assert_eq!(gateway.unregister(8, 1), Ok(()));
    assert_eq!(gateway.unregister_all(), Ok(1));
    assert_eq!(gateway.share(7).unwrap().held, 0);
}

#[test]
fn number_1_silent() {
    let mut gateway = gateway();
    let before = seen(&gateway);
    // Qualifier 0; cause 5 of an interrogation; no object; a type that the entry does not serve.
    for command in [
        &[0x64, 0x01, 0x06, 0x00, 0x07, 0x00, 0x00, 0x00, 0x00, 0x00][..],
        &[0x64, 0x01, 0x05, 0x00, 0x07, 0x00, 0x00, 0x00, 0x00, 0x14],
        &[0x64, 0x00, 0x06, 0x00, 0x07, 0x00],
        &SINGLE,
    ] {
        assert!(gateway.system_command(command).unwrap().is_silent());
        assert_eq!(gateway.system_command_into(command, &mut []), Ok(0));
    }
    // Cause 3; a type that the entry does not serve.
    let update = Update::new(7, 10, types::M_SP_NA_1, [0x01]);
    for command in
        [&[0x2D, 0x01, 0x03, 0x00, 0x07, 0x00, 0x0A, 0x00, 0x00, 0x01][..], &[0x64, 0x00, 0x06, 0x00, 0x07, 0x00]]
    {
        let said = gateway.process_command(command, &Proposal::confirm(&SINGLE).with_update(update)).unwrap();
        assert!(said.answer.is_silent() && said.spontaneous.is_silent());
    }
    assert_eq!(seen(&gateway), before);
}

#[test]
fn number_2_asdu_malformed() {
    let mut gateway = gateway();
    let before = seen(&gateway);
    let number = |refused: Refusal| refused.number();
    for command in
        [&[][..], &[0x64, 0x01, 0x06, 0x00, 0x07], &[0x64; 250], &[0x64, 0x81, 0x06, 0x00, 0x07, 0x00], &SINGLE[..9]]
    {
        let system = gateway.system_command(command).map_err(number);
        let process = gateway.process_command(command, &Proposal::confirm(&SINGLE)).map_err(number);
        // A system type is nothing to the process entry, and the other way round: both say 2 or are silent, and one says 2.
        assert!(system == Err(2) || process == Err(2), "{command:02X?}");
        assert!(system.map_or_else(|number| number == 2, |answer| answer.is_silent()));
        assert!(process.map_or_else(|number| number == 2, |said| said.answer.is_silent()));
    }
    assert_eq!(seen(&gateway), before);
}

#[test]
fn number_4_answer_memory_short() {
    let mut gateway = gateway();
    let general = [0x64, 0x01, 0x06, 0x00, 0x07, 0x00, 0x00, 0x00, 0x00, 0x14];
    let whole = gateway.system_command(&general).unwrap();
    assert_eq!(whole.octets().len(), 30);
    let mut memory = [0xEE; 30];
    for room in 0..30 {
        let refusal = gateway.system_command_into(&general, &mut memory[..room]).unwrap_err();
        assert_eq!((refusal.number(), memory), (4, [0xEE; 30]));
    }
    assert_eq!(gateway.system_command_into(&general, &mut memory), Ok(30));
    assert_eq!(memory[..], *whole.octets());

    let mut memory = [0xEE; 9];
    assert_eq!(gateway.connection_started_into(&mut memory).unwrap_err().number(), 4);
    assert_eq!(memory, [0xEE; 9]);

    let before = seen(&gateway);
    let proposal = Proposal::confirm(&SINGLE).with_update(Update::new(7, 10, types::M_SP_NA_1, [0x01]));
    let refusal = gateway.process_command_into(&SINGLE, &proposal, &mut memory, &mut [0; 10]).unwrap_err();
    assert_eq!((refusal.number(), memory), (4, [0xEE; 9]));
    assert_eq!(seen(&gateway), before);
}

#[test]
fn number_5_spontaneous_memory_short() {
    let mut gateway = gateway();
    let before = seen(&gateway);
    let proposal = Proposal::confirm(&SINGLE).with_update(Update::new(7, 10, types::M_SP_NA_1, [0x01]));
    let mut told = [0xEE; 9];
    let refusal = gateway.process_command_into(&SINGLE, &proposal, &mut [0; 10], &mut told).unwrap_err();
    assert_eq!((refusal.number(), told), (5, [0xEE; 9]));
    assert_eq!(seen(&gateway), before);
    assert_eq!(gateway.process_command_into(&SINGLE, &proposal, &mut [0; 10], &mut [0; 10]), Ok((10, 10)));
}

#[test]
fn number_6_bad_proposal() {
    let mut gateway = gateway();
    let before = seen(&gateway);
    let update = Update::new(7, 10, types::M_SP_NA_1, [0x01]);
    for proposal in [
        Proposal::confirm(&SINGLE).with_reply(types::C_IC_NA_1, &SINGLE[6..]),
        Proposal::confirm(&SINGLE).with_reply(types::C_SC_NA_1, &[0; 3]),
        Proposal::confirm(&SINGLE).with_reply(types::C_SC_NA_1, &[0; 244]),
        Proposal::reject(&SINGLE).with_reply(0, &[]),
        Proposal::default(),
    ] {
        let refusal = gateway.process_command(&SINGLE, &proposal.with_update(update)).unwrap_err();
        assert_eq!(refusal.number(), 6);
    }
    assert_eq!(seen(&gateway), before);
}

#[test]
fn number_10_invalid_plan() {
    for (capacity, plan) in [
        (0, vec![Station::new(7, 0, 0)]),
        (4097, vec![Station::new(7, 0, 0)]),
        (u32::MAX, vec![Station::new(7, 0, 0)]),
        (8, vec![]),
        (8, vec![Station::new(0, 0, 0)]),
        (8, vec![Station::new(65_535, 0, 0)]),
        (8, vec![Station::new(7, 0, 0), Station::new(7, 0, 0)]),
        (8, vec![Station::new(7, 5, 4)]),
        (8, vec![Station::new(7, 4, 9)]),
        (8, vec![Station::new(7, 5, 5), Station::new(8, 4, 4)]),
        (8, (1..=65).map(|ca| Station::new(ca, 0, 0)).collect()),
    ] {
        assert_eq!(Gateway::open(capacity, &plan).unwrap_err().number(), 10);
    }
}

#[test]
fn numbers_11_to_15_of_a_point() {
    let mut gateway = gateway();
    refused(&mut gateway, Point::new(7, 11, 8, [0x00]), 11);
    refused(&mut gateway, Point::new(7, 11, types::C_SC_NA_1, [0x00]), 11);
    refused(&mut gateway, point(7, LARGEST_IOA + 1), 11);
    refused(&mut gateway, point(9, 11), 12);
    refused(&mut gateway, point(65_535, 11), 12);
    refused(&mut gateway, point(7, 11).in_group(0), 13);
    refused(&mut gateway, point(7, 11).in_group(17), 13);
    let counter = Point::new(7, 11, types::M_IT_NA_1, [0x00]);
    refused(&mut gateway, counter.in_counter_group(0), 14);
    refused(&mut gateway, counter.in_counter_group(5), 14);
    refused(&mut gateway, point(7, 11).in_counter_group(1), 15);
    assert_eq!(gateway.share(9).unwrap_err().number(), 12);
    assert_eq!(gateway.register(&counter.in_group(16).in_counter_group(4)), Ok(()));
}

#[test]
fn number_16_twice_in_a_batch() {
    let mut gateway = gateway();
    let before = seen(&gateway);
    let refusal = gateway.register_all(&[point(8, 1), point(8, 2), point(8, 1)]).unwrap_err();
    assert_eq!((refusal.number(), refusal.place()), (16, Some(2)));
    assert_eq!(seen(&gateway), before);
}

#[test]
fn number_17_already_registered() {
    refused(&mut gateway(), point(7, 10), 17);
}

#[test]
fn number_18_not_registered() {
    let mut gateway = gateway();
    let before = seen(&gateway);
    for (ca, ioa) in [(7, 11), (8, 10), (9, 10), (0, 10), (65_535, 10), (7, LARGEST_IOA + 11)] {
        assert_eq!(gateway.unregister(ca, ioa).unwrap_err().number(), 18);
    }
    assert_eq!(seen(&gateway), before);
}

#[test]
fn numbers_19_and_20_of_the_share_rule() {
    // Document 01, cases i and j: K 5, A (r 2, c 5) and B (r 2, c 2).
    let mut gateway = Gateway::open(5, &[Station::new(1, 2, 5), Station::new(2, 2, 2)]).unwrap();
    let number = |said: Result<(), Refusal>| said.map_or_else(|refusal| refusal.number(), |()| 0);
    let a: Vec<_> = (0..4).map(|ioa| number(gateway.register(&point(1, ioa)))).collect();
    assert_eq!(a, [0, 0, 0, 20]);
    let b: Vec<_> = (0..3).map(|ioa| number(gateway.register(&point(2, ioa)))).collect();
    assert_eq!(b, [0, 0, 19]);
    assert_eq!(gateway.unregister(2, 0), Ok(()));
    assert_eq!(number(gateway.register(&point(1, 3))), 20);
    assert_eq!(number(gateway.register(&point(2, 0))), 0);

    // The same as batches: the place is the first point that does not fit, and none is stored.
    assert_eq!(gateway.unregister_all(), Ok(5));
    let batch: Vec<_> = (0..4).map(|ioa| point(1, ioa)).collect();
    let refusal = gateway.register_all(&batch).unwrap_err();
    assert_eq!((refusal.number(), refusal.place()), (20, Some(3)));
    let batch: Vec<_> = (0..3).map(|ioa| point(2, ioa)).collect();
    let refusal = gateway.register_all(&batch).unwrap_err();
    assert_eq!((refusal.number(), refusal.place()), (19, Some(2)));
    assert_eq!(gateway.share(1).unwrap().free, 5);
}

#[test]
fn an_update_of_an_impossible_address_is_skipped() {
    // 16,777,216 + 10 has the low three octets of IOA 10; it must not reach that point.
    let mut gateway = gateway();
    let update = Update::new(7, LARGEST_IOA + 1 + 10, types::M_SP_NA_1, [0x01]);
    let before = seen(&gateway);
    let said = gateway.process_command(&SINGLE, &Proposal::confirm(&SINGLE).with_update(update)).unwrap();
    assert!(said.spontaneous.is_silent());
    assert_eq!(said.answer.octets().len(), 10);
    assert_eq!(seen(&gateway), before);
}

#[test]
fn a_gateway_goes_to_another_thread() {
    fn sent<T: Send + Sync + 'static>() {}
    sent::<Gateway>();
    sent::<khuvelter::Answer>();
    sent::<Refusal>();
    let error: Box<dyn std::error::Error + Send + Sync> = Box::new(gateway().unregister(7, 11).unwrap_err());
    assert_eq!(error.to_string(), "number 18: not registered (removal)");
}
