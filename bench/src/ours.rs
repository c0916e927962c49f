//! The proved side: the C interface of `libkhuvelter.a` over memory of our own.

use khuvelter_sys::{self as sys, Proposal, Record, Reply, Update};

use crate::work::{Point, Share};

/// A table with the memories that its calls are lent.
pub struct Ours {
    pub table: Vec<u8>,
    clock: [u8; 8],
    answer: Vec<u8>,
    spontaneous: Vec<u8>,
}

/// Every call of the bench must be granted: another number is a fault of the bench.
fn granted(what: &str, reply: Reply) -> Reply {
    assert!(reply.number == 0, "{what}: number {} at {}", reply.number, reply.place);
    reply
}

impl Ours {
    pub fn open(capacity: usize, shares: &[Share]) -> Ours {
        let mut ours = Ours {
            table: vec![0; sys::table_octets(capacity as u32, shares.len())],
            clock: [0; 8],
            answer: vec![0; 1 << 19],
            spontaneous: vec![0; 1 << 16],
        };
        let plan: Vec<u16> = shares.iter().flat_map(|s| [s.ca, s.reservation, s.ceiling]).collect();
        granted("open", sys::open(&mut ours.table, capacity as u32, &plan));
        ours
    }

    pub fn register(&mut self, record: &[u8; 24]) {
        granted("register", sys::register_point(&mut self.table, record));
    }

    pub fn register_all(&mut self, records: &[u8]) {
        granted("register all", sys::register_points(&mut self.table, records));
    }

    pub fn load(&mut self, points: &[Point]) {
        let records: Vec<u8> = points.iter().flat_map(Record::octets).collect();
        self.register_all(&records);
    }

    pub fn unregister(&mut self, ca: u16, ioa: u32) {
        granted("unregister", sys::unregister_point(&mut self.table, ca, ioa));
    }

    pub fn share(&self, ca: u16) -> u32 {
        let share = sys::share(&self.table, ca);
        assert!(share.number == 0, "share: number {}", share.number);
        share.reservation + share.ceiling + share.held + share.free + share.unmet
    }

    pub fn started(&mut self) -> usize {
        granted("start", sys::connection_started(&self.table, &mut self.answer)).octets as usize
    }

    pub fn system(&mut self, asdu: &[u8]) -> usize {
        granted("system command", sys::system_command(&mut self.table, &mut self.clock, asdu, &mut self.answer)).octets as usize
    }

    pub fn process(&mut self, asdu: &[u8], point: &Point) -> usize {
        let &Point { ca, ioa, type_id, value, .. } = point;
        let update = Update { ca, ioa, type_id, value }.octets();
        let proposal = Proposal { negative: 0, reply_type: asdu[0], reply: &asdu[6..], updates: &update };
        let reply = sys::process_command(&mut self.table, asdu, proposal, &mut self.answer, &mut self.spontaneous);
        let reply = granted("process command", reply);
        (reply.octets + reply.spontaneous) as usize
    }
}
