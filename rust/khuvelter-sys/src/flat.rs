//! The flat forms: what the C interface takes as octets, and how many there are.

/// Octets of the record of one point.
pub const RECORD: usize = 24;

/// Octets of one update of a proposal.
pub const UPDATE: usize = 18;

/// Octets of a value in either: the longest element.
pub const VALUE: usize = 12;

/// Octets of the last master clock: seven of time, then whether it is known.
pub const CLOCK: usize = 8;

/// Octets of the table of a plan: 48 for each point, 8 for each station, 64 for the head.
#[must_use]
pub const fn table_octets(capacity: u32, stations: usize) -> usize {
    48 * capacity as usize + 8 * stations + 64
}

/// A point to register.
#[derive(Clone, Copy, Debug, PartialEq, Eq)]
pub struct Record {
    /// The station's common address.
    pub ca: u16,
    /// The address in its station.
    pub ioa: u32,
    /// The type's number.
    pub type_id: u8,
    /// The interrogation group; no group is not group 0.
    pub group: Option<u8>,
    /// The counter group; no group is not group 0.
    pub counter_group: Option<u8>,
    /// The octets of its element, and zeros.
    pub value: [u8; VALUE],
}

impl Record {
    /// Its octets: CA 2, IOA 4, type 1, has a group 1, group 1, has a counter group 1, counter group 1, spare 1, value 12.
    #[must_use]
    pub fn octets(&self) -> [u8; RECORD] {
        let mut octets = [0; RECORD];
        octets[..2].copy_from_slice(&self.ca.to_le_bytes());
        octets[2..6].copy_from_slice(&self.ioa.to_le_bytes());
        octets[6] = self.type_id;
        octets[7..9].copy_from_slice(&flag_and_group(self.group));
        octets[9..11].copy_from_slice(&flag_and_group(self.counter_group));
        octets[12..].copy_from_slice(&self.value);
        octets
    }
}

/// Whether there is a group, and which.
fn flag_and_group(group: Option<u8>) -> [u8; 2] {
    group.map_or([0, 0], |group| [1, group])
}

/// A value to store in a registered point of the same type.
#[derive(Clone, Copy, Debug, PartialEq, Eq)]
pub struct Update {
    /// The station's common address.
    pub ca: u16,
    /// The address in its station, of which an update has three octets.
    pub ioa: u32,
    /// The type's number, which must be the point's.
    pub type_id: u8,
    /// The octets of its element, and zeros.
    pub value: [u8; VALUE],
}

impl Update {
    /// Its octets: CA 2, IOA 3, type 1, value 12. A fourth octet of the IOA is not said: see to it that there is none.
    #[must_use]
    pub fn octets(&self) -> [u8; UPDATE] {
        let mut octets = [0; UPDATE];
        octets[..2].copy_from_slice(&self.ca.to_le_bytes());
        octets[2..5].copy_from_slice(&self.ioa.to_le_bytes()[..3]);
        octets[5] = self.type_id;
        octets[6..].copy_from_slice(&self.value);
        octets
    }
}
