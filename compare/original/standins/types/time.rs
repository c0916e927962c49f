//! Stands in for types/time.rs: times kept as their octets, whatever they are.

/// Never given: every octet is taken.
#[derive(Debug)]
pub enum ParseTimeError {}

impl std::fmt::Display for ParseTimeError {
    fn fmt(&self, _: &mut std::fmt::Formatter<'_>) -> std::fmt::Result {
        match *self {}
    }
}

impl std::error::Error for ParseTimeError {}

#[derive(Debug, Clone, Eq, PartialEq, Default)]
pub struct Cp56Time2a([u8; 7]);

impl Cp56Time2a {
    pub const fn from_bytes(bytes: &[u8; 7]) -> Result<Self, ParseTimeError> {
        Ok(Cp56Time2a(*bytes))
    }

    pub const fn to_bytes(&self) -> [u8; 7] {
        self.0
    }
}

#[derive(Debug, Clone, Eq, PartialEq, Default)]
pub struct Cp16Time2a([u8; 2]);

impl Cp16Time2a {
    pub const fn from_bytes(bytes: [u8; 2]) -> Result<Self, ParseTimeError> {
        Ok(Cp16Time2a(bytes))
    }

    pub const fn to_bytes(&self) -> [u8; 2] {
        self.0
    }
}
