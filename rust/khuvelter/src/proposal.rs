//! What the program that uses the gateway proposes to say and to store for a process command.

use khuvelter_sys as sys;

use crate::point::Value;
use crate::LARGEST_IOA;

/// A value to store in a registered point of the same type.
#[derive(Clone, Copy, Debug, PartialEq, Eq, Hash)]
pub struct Update {
    /// The station's common address.
    pub ca: u16,
    /// The address in its station.
    pub ioa: u32,
    /// The type's number, which must be the point's.
    pub type_id: u8,
    /// The octets of its element.
    pub value: Value,
}

impl Update {
    /// An update.
    #[must_use]
    pub fn new(ca: u16, ioa: u32, type_id: u8, value: impl Into<Value>) -> Self {
        Self { ca, ioa, type_id, value: value.into() }
    }

    /// Its octets; none if no point can have its address.
    fn octets(&self) -> Option<[u8; sys::UPDATE]> {
        let Self { ca, ioa, type_id, value } = *self;
        (ioa <= LARGEST_IOA).then(|| sys::Update { ca, ioa, type_id, value: *value.octets() }.octets())
    }
}

/// What is to be said to a process command, and what is to be stored.
///
/// The plant decides: the gateway confirms as proposed and stores the updates, in order, if the proposal is not negative. An update of
/// an address that is not registered, or of another type than the point's, is skipped.
///
/// ```
/// use khuvelter::{types, Gateway, Point, Proposal, Station, Update};
///
/// let mut gateway = Gateway::open(8, &[Station::new(7, 2, 4)])?;
/// gateway.register(&Point::new(7, 10, types::M_SP_NA_1, [0x00]))?;
///
/// // A single command, on, to IOA 10: done in the plant, so confirm it and store the new state.
/// let command = [0x2D, 0x01, 0x06, 0x00, 0x07, 0x00, 0x0A, 0x00, 0x00, 0x01];
/// let proposal = Proposal::confirm(&command).with_update(Update::new(7, 10, types::M_SP_NA_1, [0x01]));
/// let said = gateway.process_command(&command, &proposal)?;
/// assert_eq!(said.spontaneous.octets(), [0x01, 0x01, 0x03, 0x00, 0x07, 0x00, 0x0A, 0x00, 0x00, 0x01]);
/// assert_eq!(said.answer.octets(), [0x2D, 0x01, 0x07, 0x00, 0x07, 0x00, 0x0A, 0x00, 0x00, 0x01]);
/// # Ok::<(), khuvelter::Refusal>(())
/// ```
#[derive(Clone, Debug, Default, PartialEq, Eq, Hash)]
pub struct Proposal {
    /// Is the confirmation negative? Then nothing is stored.
    pub negative: bool,
    /// The type of the reply: a process type.
    pub reply_type: u8,
    /// The objects of the reply, whole ones, 243 octets at most; none is allowed.
    pub reply: Vec<u8>,
    /// What is to be stored, in order.
    pub updates: Vec<Update>,
}

impl Proposal {
    /// Confirms a command with its own type and objects; `command` is the whole ASDU.
    #[must_use]
    pub fn confirm(command: &[u8]) -> Self {
        Self {
            negative: false,
            reply_type: command.first().copied().unwrap_or_default(),
            reply: command.get(6..).unwrap_or_default().to_vec(),
            updates: Vec::new(),
        }
    }

    /// Rejects a command: a negative confirmation with its own type and objects.
    #[must_use]
    pub fn reject(command: &[u8]) -> Self {
        Self { negative: true, ..Self::confirm(command) }
    }

    /// The same proposal with another reply.
    #[must_use]
    pub fn with_reply(self, reply_type: u8, objects: &[u8]) -> Self {
        Self { reply_type, reply: objects.to_vec(), ..self }
    }

    /// The same proposal with one more update.
    #[must_use]
    pub fn with_update(mut self, update: Update) -> Self {
        self.updates.push(update);
        self
    }

    /// The updates' octets. An address too large for any point has no octets: it is unknown, and so skipped, here already.
    pub(crate) fn updates_octets(&self) -> Vec<u8> {
        self.updates.iter().filter_map(Update::octets).flatten().collect()
    }

    /// The proposal as the C interface takes it.
    pub(crate) fn flat<'a>(&'a self, updates: &'a [u8]) -> sys::Proposal<'a> {
        sys::Proposal { negative: u8::from(self.negative), reply_type: self.reply_type, reply: &self.reply, updates }
    }
}
