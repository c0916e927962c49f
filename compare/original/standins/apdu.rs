//! Stands in for apdu.rs: the two numbers that the packing reads. An APDU has 253 octets after its length, 4 of them control octets.

pub const APUD_MAX_LENGTH: u8 = 253;
pub const CONTROL_FIELDS_SIZE: usize = 4;
