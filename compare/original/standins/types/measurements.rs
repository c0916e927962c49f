//! Stands in for types/measurements.rs: each element is its octets. A counter has its reading apart, where the reset writes it.

use snafu::OptionExt as _;

use crate::types::{FromBytes, NotEnoughBytes, ParseError, ToBytes};

macro_rules! elements {
    ($($name:ident $octets:literal;)*) => { $(
        #[derive(Debug, Clone, Eq, PartialEq, Default)]
        pub struct $name {
            octets: [u8; $octets],
        }

        impl FromBytes for $name {
            fn from_bytes(bytes: &[u8]) -> Result<Self, ParseError> {
                Ok(Self { octets: *bytes.first_chunk().context(NotEnoughBytes)? })
            }
        }

        impl ToBytes for $name {
            fn to_bytes(&self, buffer: &mut Vec<u8>) -> Result<(), ParseError> {
                buffer.extend_from_slice(&self.octets);
                Ok(())
            }
        }
    )* };
}

macro_rules! counters {
    ($($name:ident $rest:literal;)*) => { $(
        #[derive(Debug, Clone, Eq, PartialEq, Default)]
        pub struct $name {
            pub bcr: i32,
            rest: [u8; $rest],
        }

        impl FromBytes for $name {
            fn from_bytes(bytes: &[u8]) -> Result<Self, ParseError> {
                let bcr = i32::from_le_bytes(*bytes.first_chunk().context(NotEnoughBytes)?);
                Ok(Self { bcr, rest: *bytes[4..].first_chunk().context(NotEnoughBytes)? })
            }
        }

        impl ToBytes for $name {
            fn to_bytes(&self, buffer: &mut Vec<u8>) -> Result<(), ParseError> {
                buffer.extend_from_slice(&self.bcr.to_le_bytes());
                buffer.extend_from_slice(&self.rest);
                Ok(())
            }
        }
    )* };
}

// The octets of each element, IEC 60870-5-101, 7.3.1.
elements! {
    MSpNa1 1; MSpTa1 4; MDpNa1 1; MDpTa1 4; MStNa1 2; MStTa1 5; MBoNa1 5;
    MMeNa1 3; MMeTa1 6; MMeNb1 3; MMeTb1 6; MMeNc1 5; MMeTc1 8;
    MEpTa1 6; MEpTb1 7; MEpTc1 7; MPsNa1 5; MMeNd1 2;
    MSpTb1 8; MDpTb1 8; MStTb1 9; MBoTb1 12; MMeTd1 10; MMeTe1 10; MMeTf1 12;
    MEpTd1 10; MEpTe1 11; MEpTf1 11; MEiNa1 1;
}

counters! {
    MItNa1 1; MItTb1 8;
}
