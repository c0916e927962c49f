//! Stands in for types/quality_descriptors.rs: the qualifier of a set-point command, kept as its octet.

#[derive(Debug, Clone, Copy, Eq, PartialEq, Default)]
pub struct Qos(u8);

impl Qos {
    pub const fn from_byte(byte: u8) -> Self {
        Qos(byte)
    }

    pub const fn to_byte(self) -> u8 {
        self.0
    }
}
