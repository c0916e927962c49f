//! Document 01's gateway on paper, cases a to h, through the safe interface. The octets are typed in from the paper.

use khuvelter::{types, Answer, Gateway, Point, Station};

/// Octets written as on paper.
fn octets(paper: &str) -> Vec<u8> {
    paper.split_whitespace().map(|octet| u8::from_str_radix(octet, 16).unwrap()).collect()
}

/// K = 8; station 7, r 2, c 4; three points.
fn gateway() -> Gateway {
    let mut gateway = Gateway::open(8, &[Station::new(7, 2, 4)]).unwrap();
    let points = [
        Point::new(7, 10, 1, [0x01]).in_group(1),
        Point::new(7, 3, 1, [0x00]),
        Point::new(7, 5, 15, [0x2A, 0x00, 0x00, 0x00, 0x03]).in_counter_group(1),
    ];
    gateway.register_all(&points).unwrap();
    gateway
}

/// The answer to a command written as on paper.
fn said(gateway: &mut Gateway, command: &str) -> Answer {
    gateway.system_command(&octets(command)).unwrap()
}

#[test]
fn case_a_general_interrogation() {
    let answer = said(&mut gateway(), "64 01 06 00 07 00 00 00 00 14");
    let whole = octets(
        "64 01 07 00 07 00 00 00 00 14
         01 02 14 00 07 00 03 00 00 00 0A 00 00 01
         0F 01 14 00 07 00 05 00 00 2A 00 00 00 03
         64 01 0A 00 07 00 00 00 00 14",
    );
    assert_eq!(answer.octets(), whole);
    assert_eq!(whole.len(), 48);
    let causes: Vec<_> = answer.asdus().map(|asdu| (asdu.type_id(), asdu.cause(), asdu.count())).collect();
    assert_eq!(causes, [(100, 7, 1), (1, 20, 2), (15, 20, 1), (100, 10, 1)]);
    let mut asdus = answer.asdus();
    assert_eq!(asdus.by_ref().count(), 4);
    assert!(asdus.rest().is_empty());
    let refusal = gateway().system_command_into(&octets("64 01 06 00 07 00 00 00 00 14"), &mut [0; 47]).unwrap_err();
    assert_eq!(refusal.number(), 4);
}

#[test]
fn case_b_group_1() {
    let answer = said(&mut gateway(), "64 01 06 00 07 00 00 00 00 15");
    let whole = "64 01 07 00 07 00 00 00 00 15  01 01 15 00 07 00 0A 00 00 01  64 01 0A 00 07 00 00 00 00 15";
    assert_eq!(answer.octets(), octets(whole));
    assert_eq!(answer.octets().len(), 30);
}

#[test]
fn case_c_other_qualifier_and_case_d_none() {
    let answer = said(&mut gateway(), "64 01 06 00 07 00 00 00 00 01");
    assert_eq!((answer.octets().len(), answer.octets()[2]), (10, 0x47));
    assert!(answer.asdus().all(|asdu| asdu.is_negative()));
    assert!(said(&mut gateway(), "64 01 06 00 07 00 00 00 00 00").is_silent());
}

#[test]
fn case_e_counters_read_before_the_reset() {
    let mut gateway = gateway();
    let answer = said(&mut gateway, "65 01 06 00 07 00 00 00 00 C5");
    assert_eq!(answer.octets().len(), 34);
    assert_eq!(answer.octets()[10..24], octets("0F 01 25 00 07 00 05 00 00 2A 00 00 00 03"));
    let read = said(&mut gateway, "66 01 05 00 07 00 05 00 00");
    assert_eq!(read.octets()[9..], octets("0F 01 05 00 07 00 05 00 00 00 00 00 00 03"));
}

#[test]
fn case_f_station_not_planned() {
    let answer = said(&mut gateway(), "64 01 06 00 09 00 00 00 00 14");
    assert_eq!(answer.octets(), octets("64 01 07 00 09 00 00 00 00 14 64 01 0A 00 09 00 00 00 00 14"));
}

#[test]
fn cases_g_and_h_packing() {
    for (type_id, most, longest) in [(types::M_SP_NA_1, 60, 246), (types::M_EP_TA_1, 27, 249)] {
        let mut gateway = Gateway::open(200, &[Station::new(7, 0, 200)]).unwrap();
        let points: Vec<_> = (0..=most).map(|ioa| Point::new(7, ioa, type_id, [])).collect();
        gateway.register_all(&points[..most as usize]).unwrap();
        let answer = said(&mut gateway, "64 01 06 00 07 00 00 00 00 14");
        let lengths: Vec<_> = answer.asdus().map(|asdu| asdu.octets().len()).collect();
        assert_eq!(lengths, [10, longest, 10]);
        gateway.register(&points[most as usize]).unwrap();
        let answer = said(&mut gateway, "64 01 06 00 07 00 00 00 00 14");
        let counts: Vec<_> = answer.asdus().map(|asdu| asdu.count()).collect();
        assert_eq!(counts, [1, most as usize, 1, 1]);
    }
}

#[test]
fn the_longest_answers_fit() {
    // Every point an ASDU of its own in a read: 81 addresses, twelve octets each, the most that one command can ask for.
    let mut small = Gateway::open(1, &[Station::new(7, 0, 1)]).unwrap();
    small.register(&Point::new(7, 1, types::M_IT_TB_1, [0xFF; 12])).unwrap();
    let mut read = vec![0x66, 81, 0x05, 0x00, 0x07, 0x00];
    read.extend([0x01, 0x00, 0x00].repeat(81));
    let answer = small.system_command(&read).unwrap();
    assert_eq!(answer.octets().len(), 249 + 81 * 21);
    assert_eq!(answer.octets().len(), Gateway::most_system_answer(1));

    // A full gateway of the longest points, to every station.
    let stations: Vec<_> = (1..=64).map(|ca| Station::new(ca, 64, 64)).collect();
    let mut large = Gateway::open(4096, &stations).unwrap();
    let points: Vec<_> =
        (0..4096).map(|n| Point::new(1 + (n / 64) as u16, n % 64, types::M_IT_TB_1, [0xFF; 12])).collect();
    large.register_all(&points).unwrap();
    let answer = large.system_command(&[0x64, 0x01, 0x06, 0x00, 0xFF, 0xFF, 0x00, 0x00, 0x00, 0x14]).unwrap();
    assert_eq!(answer.asdus().map(|asdu| asdu.count()).sum::<usize>(), 4096 + 2);

    // One point of each of the 30 types: every ASDU has a header for a single object.
    let mut mixed = Gateway::open(30, &[Station::new(7, 0, 30)]).unwrap();
    let kinds = types::all().filter(|&kind| types::class(kind) == Some(types::Class::Point));
    let points: Vec<_> = kinds.zip(0..).map(|(kind, ioa)| Point::new(7, ioa, kind, [])).collect();
    assert_eq!(points.len(), 30);
    mixed.register_all(&points).unwrap();
    let answer = mixed.system_command(&[0x64, 0x01, 0x06, 0x00, 0x07, 0x00, 0x00, 0x00, 0x00, 0x14]).unwrap();
    assert_eq!(answer.asdus().count(), 32);
    // 30 headers, 30 addresses, the elements of document 01's list (198 octets), confirmation and termination.
    assert_eq!(answer.octets().len(), 30 * 6 + 30 * 3 + 198 + 20);
}
