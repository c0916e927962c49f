//! The entries: each is declared as in the header, and under the declarations stands its function over slices.

use crate::flat::{CLOCK, RECORD};

/// What every call but [`share`] gives back.
#[repr(C)]
#[derive(Clone, Copy, Debug, Default, PartialEq, Eq)]
pub struct Reply {
    /// Document 01's number; 0 is done.
    pub number: u32,
    /// The faulty point of a refused batch, counted from 0; the number of points that [`unregister_all`] removed; else 0.
    pub place: u32,
    /// Octets written to the answer memory, 0 unless the number is 0.
    pub octets: u32,
    /// Octets written to the spontaneous memory, 0 unless the number is 0.
    pub spontaneous: u32,
}

/// A station's share, and what is free and unmet in the table; all 0 but for the number where that is not 0.
#[repr(C)]
#[derive(Clone, Copy, Debug, Default, PartialEq, Eq)]
pub struct StationShare {
    /// 0, 3 or 12.
    pub number: u32,
    /// The points that the station has paid for.
    pub reservation: u32,
    /// The most points that it may hold.
    pub ceiling: u32,
    /// The points that it holds.
    pub held: u32,
    /// Free room in the whole table.
    pub free: u32,
    /// Unmet in the whole table.
    pub unmet: u32,
}

/// What is proposed to be said to a process command, and to be stored.
#[derive(Clone, Copy, Debug, PartialEq, Eq)]
pub struct Proposal<'a> {
    /// Is the confirmation negative? 0 is no, anything else yes.
    pub negative: u8,
    /// The type of the reply.
    pub reply_type: u8,
    /// The objects of the reply.
    pub reply: &'a [u8],
    /// What is to be stored, [`Update`](crate::Update)s one after another.
    pub updates: &'a [u8],
}

extern "C" {
    fn khuvelter_open(table: *mut u8, octets: usize, capacity: u32, plan: *const u16, length: usize) -> Reply;
    fn khuvelter_register_point(table: *mut u8, octets: usize, record: *const [u8; RECORD]) -> Reply;
    fn khuvelter_register_points(table: *mut u8, octets: usize, records: *const u8, length: usize) -> Reply;
    fn khuvelter_unregister_point(table: *mut u8, octets: usize, ca: u16, ioa: u32) -> Reply;
    fn khuvelter_unregister_all(table: *mut u8, octets: usize) -> Reply;
    fn khuvelter_share(table: *const u8, octets: usize, ca: u16) -> StationShare;
    fn khuvelter_connection_started(table: *const u8, octets: usize, answer: *mut u8, room: usize) -> Reply;
    fn khuvelter_system_command(
        table: *mut u8,
        octets: usize,
        clock: *mut [u8; CLOCK],
        asdu: *const u8,
        length: usize,
        answer: *mut u8,
        room: usize,
    ) -> Reply;
    fn khuvelter_process_command(
        table: *mut u8,
        octets: usize,
        asdu: *const u8,
        length: usize,
        negative: u8,
        reply_type: u8,
        reply: *const u8,
        reply_length: usize,
        updates: *const u8,
        updates_length: usize,
        answer: *mut u8,
        room: usize,
        spontaneous: *mut u8,
        spontaneous_room: usize,
    ) -> Reply;
}

// SAFETY, of every call below: the pointers and lengths are those of slices that live through the call, the ones that are written are
// `&mut` and so overlap no other, and the entries are proved to keep to them whatever they hold.

/// Opens a table.
pub fn open(table: &mut [u8], capacity: u32, plan: &[u16]) -> Reply {
    unsafe { khuvelter_open(table.as_mut_ptr(), table.len(), capacity, plan.as_ptr(), plan.len()) }
}

/// Registers one point.
pub fn register_point(table: &mut [u8], record: &[u8; RECORD]) -> Reply {
    unsafe { khuvelter_register_point(table.as_mut_ptr(), table.len(), record) }
}

/// Registers a batch, all or none.
pub fn register_points(table: &mut [u8], records: &[u8]) -> Reply {
    unsafe { khuvelter_register_points(table.as_mut_ptr(), table.len(), records.as_ptr(), records.len()) }
}

/// Removes one point.
pub fn unregister_point(table: &mut [u8], ca: u16, ioa: u32) -> Reply {
    unsafe { khuvelter_unregister_point(table.as_mut_ptr(), table.len(), ca, ioa) }
}

/// Removes all points.
pub fn unregister_all(table: &mut [u8]) -> Reply {
    unsafe { khuvelter_unregister_all(table.as_mut_ptr(), table.len()) }
}

/// Tells a station's share.
pub fn share(table: &[u8], ca: u16) -> StationShare {
    unsafe { khuvelter_share(table.as_ptr(), table.len(), ca) }
}

/// Says what goes to a connection that has started.
pub fn connection_started(table: &[u8], answer: &mut [u8]) -> Reply {
    unsafe { khuvelter_connection_started(table.as_ptr(), table.len(), answer.as_mut_ptr(), answer.len()) }
}

/// Answers a system command.
pub fn system_command(table: &mut [u8], clock: &mut [u8; CLOCK], asdu: &[u8], answer: &mut [u8]) -> Reply {
    unsafe {
        khuvelter_system_command(
            table.as_mut_ptr(),
            table.len(),
            clock,
            asdu.as_ptr(),
            asdu.len(),
            answer.as_mut_ptr(),
            answer.len(),
        )
    }
}

/// Answers a process command.
pub fn process_command(
    table: &mut [u8],
    asdu: &[u8],
    proposal: Proposal<'_>,
    answer: &mut [u8],
    spontaneous: &mut [u8],
) -> Reply {
    unsafe {
        khuvelter_process_command(
            table.as_mut_ptr(),
            table.len(),
            asdu.as_ptr(),
            asdu.len(),
            proposal.negative,
            proposal.reply_type,
            proposal.reply.as_ptr(),
            proposal.reply.len(),
            proposal.updates.as_ptr(),
            proposal.updates.len(),
            answer.as_mut_ptr(),
            answer.len(),
            spontaneous.as_mut_ptr(),
            spontaneous.len(),
        )
    }
}
