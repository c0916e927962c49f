//! What the safe interface excludes by its types, reached here: number 3, and number 10 for a memory that is too short or a plan
//! that is not three numbers for each station.

use khuvelter_sys::*;

const DONE: Reply = refused(0);

/// A reply with a number and nothing else.
const fn refused(number: u32) -> Reply {
    Reply { number, place: 0, octets: 0, spontaneous: 0 }
}

/// Document 01's gateway without points: 48 × 8 + 8 × 1 + 64 octets.
fn opened() -> Vec<u8> {
    let mut table = vec![0xEE; 456];
    assert_eq!(open(&mut table, 8, &[7, 2, 4]), DONE);
    table
}

#[test]
fn table_not_well_formed_is_3_everywhere_and_changes_nothing() {
    let general = [0x64, 0x01, 0x06, 0x00, 0x07, 0x00, 0x00, 0x00, 0x00, 0x14];
    let single = [0x2D, 0x01, 0x06, 0x00, 0x07, 0x00, 0x0A, 0x00, 0x00, 0x01];
    let mut damaged = opened();
    damaged[0] ^= 1;
    for spoilt in [damaged, vec![0; 456], vec![0xFF; 456], vec![], opened()[..455].to_vec()] {
        let mut table = spoilt.clone();
        let (mut clock, mut answer, mut spontaneous) = ([0x11; 8], [0xEE; 300], [0xEE; 300]);
        let proposal = Proposal { negative: 0, reply_type: 45, reply: &single[6..], updates: &[] };
        assert_eq!(register_point(&mut table, &[0; 24]), refused(3));
        assert_eq!(register_points(&mut table, &[0; 48]), refused(3));
        assert_eq!(unregister_point(&mut table, 7, 10), refused(3));
        assert_eq!(unregister_all(&mut table), refused(3));
        assert_eq!(connection_started(&table, &mut answer), refused(3));
        assert_eq!(system_command(&mut table, &mut clock, &general, &mut answer), refused(3));
        assert_eq!(process_command(&mut table, &single, proposal, &mut answer, &mut spontaneous), refused(3));
        let none = StationShare { number: 3, reservation: 0, ceiling: 0, held: 0, free: 0, unmet: 0 };
        assert_eq!(share(&table, 7), none);
        assert_eq!((table, clock), (spoilt, [0x11; 8]));
        assert_eq!((answer, spontaneous), ([0xEE; 300], [0xEE; 300]));
    }
}

#[test]
fn short_memory_and_broken_plans_are_10_and_change_nothing() {
    let mut table = vec![0xEE; 455];
    assert_eq!(open(&mut table, 8, &[7, 2, 4]), refused(10));
    assert_eq!(table, vec![0xEE; 455]);
    let mut table = vec![0xEE; 456];
    for plan in [&[][..], &[7], &[7, 2], &[7, 2, 4, 8], &[7, 2, 4, 8, 0]] {
        assert_eq!(open(&mut table, 8, plan), refused(10));
    }
    assert_eq!(table, vec![0xEE; 456]);
}

#[test]
fn octets_after_the_last_whole_record_or_update_are_ignored() {
    let mut table = opened();
    let mut records = [0; 30];
    records[..7].copy_from_slice(&[7, 0, 10, 0, 0, 0, 1]);
    assert_eq!(register_points(&mut table, &records), DONE);
    assert_eq!(share(&table, 7).held, 1);
    assert_eq!(register_points(&mut table, &records[..23]), DONE);
    assert_eq!(share(&table, 7).held, 1);
}

#[test]
fn memory_past_the_table_and_past_the_answer_stays() {
    let mut table = vec![0xEE; 460];
    assert_eq!(open(&mut table, 8, &[7, 2, 4]), DONE);
    assert_eq!(table[456..], [0xEE; 4]);
    let mut answer = [0xEE; 20];
    let said = connection_started(&table, &mut answer);
    assert_eq!(said, Reply { number: 0, place: 0, octets: 10, spontaneous: 0 });
    assert_eq!(answer[10..], [0xEE; 10]);
}
