//! What a call says: octets, as ASDUs one after another.

use crate::asdu::Asdus;

/// What is said to a command: ASDUs one after another, to be sent in this order; none if the gateway is silent.
///
/// ```
/// use khuvelter::{Gateway, Station};
///
/// let mut gateway = Gateway::open(8, &[Station::new(7, 2, 4)])?;
/// let answer = gateway.system_command(&[0x64, 0x01, 0x06, 0x00, 0x07, 0x00, 0x00, 0x00, 0x00, 0x14])?;
/// for asdu in &answer {
///     println!("to be sent: {:02X?}", asdu.octets());
/// }
/// assert_eq!(answer.octets().len(), 20);
/// # Ok::<(), khuvelter::Refusal>(())
/// ```
#[must_use = "an answer is to be sent"]
#[derive(Clone, Debug, Default, PartialEq, Eq)]
pub struct Answer {
    octets: Vec<u8>,
}

impl Answer {
    /// The answer that octets are.
    pub(crate) fn of(octets: &[u8]) -> Self {
        Self { octets: octets.to_vec() }
    }

    /// Is nothing said? To a command that is number 1: nothing is sent and nothing has changed.
    #[must_use]
    pub fn is_silent(&self) -> bool {
        self.octets.is_empty()
    }

    /// All octets, the ASDUs one after another.
    #[must_use]
    pub fn octets(&self) -> &[u8] {
        &self.octets
    }

    /// All octets, handed over.
    #[must_use]
    pub fn into_octets(self) -> Vec<u8> {
        self.octets
    }

    /// The ASDUs, in the order in which they are to be sent.
    #[must_use]
    pub fn asdus(&self) -> Asdus<'_> {
        Asdus::of(&self.octets)
    }
}

impl<'a> IntoIterator for &'a Answer {
    type Item = crate::Asdu<'a>;
    type IntoIter = Asdus<'a>;

    fn into_iter(self) -> Asdus<'a> {
        self.asdus()
    }
}

/// What is said to a process command: what every connection is told of the updates, then the answer to the one that asked.
#[must_use = "an answer is to be sent"]
#[derive(Clone, Debug, Default, PartialEq, Eq)]
pub struct ProcessAnswer {
    /// One ASDU with cause 3 for each update that was stored, in order; goes to every connection, before the answer.
    pub spontaneous: Answer,
    /// The confirmation; goes to the connection that asked.
    pub answer: Answer,
}
