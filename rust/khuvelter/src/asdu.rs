//! Octets of an ASDU, read: header and objects.

use std::iter::FusedIterator;

use crate::types;

/// Octets of a header: type, count, cause, originator, common address.
const HEADER: usize = 6;

/// Octets of an object's address.
const ADDRESS: usize = 3;

/// One whole ASDU of a type that the gateway knows: a view of its octets.
///
/// ```
/// use khuvelter::Asdu;
///
/// let octets = [0x01, 0x02, 0x14, 0x00, 0x07, 0x00, 0x03, 0x00, 0x00, 0x00, 0x0A, 0x00, 0x00, 0x01];
/// let asdu = Asdu::read(&octets).unwrap();
/// assert_eq!((asdu.type_name(), asdu.cause_words().as_str(), asdu.ca()), ("M_SP_NA_1", "interrogated by station", 7));
/// let objects: Vec<_> = asdu.objects().map(|object| (object.ioa, object.element)).collect();
/// assert_eq!(objects, [(3, &[0x00][..]), (10, &[0x01])]);
/// assert!(Asdu::read(&octets[..13]).is_none());
/// ```
#[derive(Clone, Copy, Debug, PartialEq, Eq)]
pub struct Asdu<'a> {
    octets: &'a [u8],
    element: usize,
}

impl<'a> Asdu<'a> {
    /// Reads octets that are one ASDU: none if the type is not known, the sequence flag is set, or the length is another one than the
    /// type and the count ask for.
    #[must_use]
    pub fn read(octets: &'a [u8]) -> Option<Self> {
        match Self::first(octets)? {
            (asdu, []) => Some(asdu),
            _ => None,
        }
    }

    /// The first ASDU of a run, and what follows it.
    fn first(run: &'a [u8]) -> Option<(Self, &'a [u8])> {
        let header = run.get(..HEADER)?;
        let element = types::element_octets(header[0])?;
        if header[1] & 0x80 != 0 {
            return None;
        }
        let length = HEADER + usize::from(header[1]) * (ADDRESS + element);
        if run.len() < length {
            return None;
        }
        let (octets, rest) = run.split_at(length);
        Some((Self { octets, element }, rest))
    }

    /// All its octets, as they go into an APDU.
    #[must_use]
    pub fn octets(&self) -> &'a [u8] {
        self.octets
    }

    /// The type's number.
    #[must_use]
    pub fn type_id(&self) -> u8 {
        self.octets[0]
    }

    /// The type's name, as `M_SP_NA_1`.
    #[must_use]
    pub fn type_name(&self) -> &'static str {
        types::name(self.type_id()).unwrap_or("unknown")
    }

    /// The number of objects.
    #[must_use]
    pub fn count(&self) -> usize {
        usize::from(self.octets[1] & 0x7F)
    }

    /// The cause of transmission, 0 to 63.
    #[must_use]
    pub fn cause(&self) -> u8 {
        self.octets[2] & 0x3F
    }

    /// The cause of transmission in words.
    #[must_use]
    pub fn cause_words(&self) -> String {
        types::cause_words(self.cause())
    }

    /// Is it negative?
    #[must_use]
    pub fn is_negative(&self) -> bool {
        self.octets[2] & 0x40 != 0
    }

    /// Is it a test?
    #[must_use]
    pub fn is_test(&self) -> bool {
        self.octets[2] & 0x80 != 0
    }

    /// The originator.
    #[must_use]
    pub fn originator(&self) -> u8 {
        self.octets[3]
    }

    /// The common address.
    #[must_use]
    pub fn ca(&self) -> u16 {
        u16::from_le_bytes([self.octets[4], self.octets[5]])
    }

    /// Its objects, in order.
    #[must_use]
    pub fn objects(&self) -> Objects<'a> {
        Objects { octets: &self.octets[HEADER..], element: self.element }
    }
}

/// One object of an ASDU: the address and the octets of the element.
#[derive(Clone, Copy, Debug, PartialEq, Eq)]
pub struct Object<'a> {
    /// The address in its station.
    pub ioa: u32,
    /// The octets of the element.
    pub element: &'a [u8],
}

/// The objects of an ASDU, in order.
#[derive(Clone, Debug)]
pub struct Objects<'a> {
    octets: &'a [u8],
    element: usize,
}

impl<'a> Iterator for Objects<'a> {
    type Item = Object<'a>;

    fn next(&mut self) -> Option<Object<'a>> {
        let length = ADDRESS + self.element;
        if self.octets.len() < length {
            return None;
        }
        let (object, rest) = self.octets.split_at(length);
        self.octets = rest;
        let ioa = u32::from_le_bytes([object[0], object[1], object[2], 0]);
        Some(Object { ioa, element: &object[ADDRESS..] })
    }
}

impl FusedIterator for Objects<'_> {}

/// A run of ASDUs, one after another with nothing between.
///
/// ```
/// use khuvelter::Asdus;
///
/// let run = [0x66, 0x01, 0x07, 0x00, 0x07, 0x00, 0x05, 0x00, 0x00, 0x46, 0x01, 0x04, 0x00, 0x07, 0x00, 0x00, 0x00, 0x00, 0x00];
/// let names: Vec<_> = Asdus::of(&run).map(|asdu| asdu.type_name()).collect();
/// assert_eq!(names, ["C_RD_NA_1", "M_EI_NA_1"]);
/// ```
#[derive(Clone, Debug)]
pub struct Asdus<'a> {
    rest: &'a [u8],
}

impl<'a> Asdus<'a> {
    /// The ASDUs of a run of octets, up to the first that cannot be read.
    #[must_use]
    pub fn of(run: &'a [u8]) -> Self {
        Self { rest: run }
    }

    /// The octets that have not been read: after the last ASDU none, unless one of them cannot be read.
    #[must_use]
    pub fn rest(&self) -> &'a [u8] {
        self.rest
    }
}

impl<'a> Iterator for Asdus<'a> {
    type Item = Asdu<'a>;

    fn next(&mut self) -> Option<Asdu<'a>> {
        let (asdu, rest) = Asdu::first(self.rest)?;
        self.rest = rest;
        Some(asdu)
    }
}

impl FusedIterator for Asdus<'_> {}
