//! A point as it is registered.

use khuvelter_sys::{Record, RECORD, VALUE};

/// The octets of a point's element: up to twelve, the rest zero. Octets past the type's element are ignored and kept as zero.
#[derive(Clone, Copy, Debug, Default, PartialEq, Eq, Hash)]
pub struct Value([u8; VALUE]);

impl Value {
    /// The twelve octets.
    #[must_use]
    pub fn octets(&self) -> &[u8; VALUE] {
        &self.0
    }
}

/// Octets, and zeros after them; what lies past the twelfth belongs to no element and is ignored.
impl From<&[u8]> for Value {
    fn from(octets: &[u8]) -> Self {
        let mut value = [0; VALUE];
        let length = octets.len().min(VALUE);
        value[..length].copy_from_slice(&octets[..length]);
        Self(value)
    }
}

/// Octets, and zeros after them; more than twelve do not compile.
impl<const N: usize> From<[u8; N]> for Value {
    fn from(octets: [u8; N]) -> Self {
        const { assert!(N <= VALUE, "an element has at most twelve octets") };
        Self::from(&octets[..])
    }
}

/// A point to register: its address, its type, its octets and its groups.
///
/// ```
/// use khuvelter::{types, Point};
///
/// let counter = Point::new(7, 5, types::M_IT_NA_1, [0x2A, 0x00, 0x00, 0x00, 0x03]).in_counter_group(1);
/// assert_eq!((counter.group, counter.counter_group), (None, Some(1)));
/// ```
#[derive(Clone, Copy, Debug, PartialEq, Eq, Hash)]
pub struct Point {
    /// The station's common address.
    pub ca: u16,
    /// The address in its station.
    pub ioa: u32,
    /// The type's number.
    pub type_id: u8,
    /// The octets of its element.
    pub value: Value,
    /// The interrogation group, 1 to 16; no group is not group 0.
    pub group: Option<u8>,
    /// The counter group, 1 to 4, of a counter; no group is not group 0.
    pub counter_group: Option<u8>,
}

impl Point {
    /// A point in no group.
    #[must_use]
    pub fn new(ca: u16, ioa: u32, type_id: u8, value: impl Into<Value>) -> Self {
        Self { ca, ioa, type_id, value: value.into(), group: None, counter_group: None }
    }

    /// The same point in an interrogation group.
    #[must_use]
    pub fn in_group(self, group: u8) -> Self {
        Self { group: Some(group), ..self }
    }

    /// The same point in a counter group.
    #[must_use]
    pub fn in_counter_group(self, group: u8) -> Self {
        Self { counter_group: Some(group), ..self }
    }

    /// Its record in the C interface.
    pub(crate) fn record(&self) -> [u8; RECORD] {
        let Self { ca, ioa, type_id, value, group, counter_group } = *self;
        Record { ca, ioa, type_id, group, counter_group, value: *value.octets() }.octets()
    }
}
