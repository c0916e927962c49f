//! The proved library over its C interface: each call on memory of just the length that the caller names.

use khuvelter_sys::{self as sys, RECORD, Record, UPDATE, Update};
pub use khuvelter_sys::{Reply, StationShare as Share};
use original::{Point, Proposal};

/// What the answer and the spontaneous memory are filled with before a call.
pub const ANSWER_FILL: u8 = 0xEE;
pub const SPONTANEOUS_FILL: u8 = 0xDD;

/// A table with its clock, and the memories of the last call.
#[derive(Clone)]
pub struct Ours {
    pub table: Vec<u8>,
    pub clock: [u8; 8],
    pub answer: Vec<u8>,
    pub spontaneous: Vec<u8>,
}

/// A point as a record of 24 octets.
pub fn record(point: &Point) -> [u8; RECORD] {
    let &Point { ca, ioa, type_id, octets, interrogation_group, counter_group } = point;
    Record { ca, ioa, type_id, group: interrogation_group, counter_group, value: octets }.octets()
}

/// An update as 18 octets.
pub fn update(point: &Point) -> [u8; UPDATE] {
    let &Point { ca, ioa, type_id, octets, .. } = point;
    Update { ca, ioa, type_id, value: octets }.octets()
}

impl Ours {
    /// Opens a table in memory of just the length that number 10 asks for.
    pub fn open(capacity: u32, plan: &[u16]) -> Self {
        let mut table = vec![0xA5; sys::table_octets(capacity, plan.len() / 3)];
        assert_eq!(sys::open(&mut table, capacity, plan), Reply::default(), "a valid plan");
        Self { table, clock: [0; 8], answer: Vec::new(), spontaneous: Vec::new() }
    }

    pub fn register(&mut self, point: &Point) -> Reply {
        self.register_record(&record(point))
    }

    pub fn register_record(&mut self, record: &[u8; RECORD]) -> Reply {
        sys::register_point(&mut self.table, record)
    }

    pub fn register_all(&mut self, points: &[Point]) -> Reply {
        let records = points.iter().flat_map(record).collect::<Vec<u8>>();
        sys::register_points(&mut self.table, &records)
    }

    pub fn unregister(&mut self, ca: u16, ioa: u32) -> Reply {
        sys::unregister_point(&mut self.table, ca, ioa)
    }

    pub fn unregister_all(&mut self) -> Reply {
        sys::unregister_all(&mut self.table)
    }

    pub fn share(&self, ca: u16) -> Share {
        sys::share(&self.table, ca)
    }

    pub fn connection_started(&mut self, room: usize) -> Reply {
        self.lend(room, 0);
        sys::connection_started(&self.table, &mut self.answer)
    }

    pub fn system_command(&mut self, asdu: &[u8], room: usize) -> Reply {
        self.lend(room, 0);
        sys::system_command(&mut self.table, &mut self.clock, asdu, &mut self.answer)
    }

    pub fn process_command(&mut self, asdu: &[u8], proposal: &Proposal, room: usize, spontaneous_room: usize) -> Reply {
        let updates = proposal.updates.iter().flat_map(update).collect::<Vec<u8>>();
        let flat =
            sys::Proposal { negative: proposal.negative as u8, reply_type: proposal.reply_type, reply: &proposal.reply, updates: &updates };
        self.process_octets(asdu, flat, room, spontaneous_room)
    }

    pub fn process_octets(&mut self, asdu: &[u8], proposal: sys::Proposal, room: usize, spontaneous_room: usize) -> Reply {
        self.lend(room, spontaneous_room);
        sys::process_command(&mut self.table, asdu, proposal, &mut self.answer, &mut self.spontaneous)
    }

    fn lend(&mut self, answer: usize, spontaneous: usize) {
        self.answer = vec![ANSWER_FILL; answer];
        self.spontaneous = vec![SPONTANEOUS_FILL; spontaneous];
    }
}
