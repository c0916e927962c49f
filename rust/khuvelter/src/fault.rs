//! Why a call was refused: the numbers of the gateway's paper, with its words.

use std::error::Error;
use std::fmt;

/// Why a call was refused; each case has its number and its words.
///
/// ```
/// use khuvelter::Fault;
///
/// assert_eq!(Fault::CeilingReached.number(), 19);
/// assert_eq!(Fault::from_number(12), Some(Fault::StationNotPlanned));
/// assert_eq!(Fault::StationNotPlanned.words(), "CA not in the plan");
/// ```
#[non_exhaustive]
#[derive(Clone, Copy, Debug, PartialEq, Eq, Hash, PartialOrd, Ord)]
pub enum Fault {
    /// 2: the ASDU's length is below 6, above 249 or not what its type and count ask for, or its sequence flag is set.
    Malformed,
    /// 3: the memory no longer holds a table. A gateway that owns its table does not see this unless the machine's memory fails.
    TableNotWellFormed,
    /// 4: the lent answer memory is too short. Lend more and ask again: nothing was changed.
    AnswerShort,
    /// 5: the lent spontaneous memory is too short. Lend more and ask again: nothing was changed.
    SpontaneousShort,
    /// 6: the reply's type is no process type, or its octets are over 243 or not whole objects.
    BadProposal,
    /// 10: the plan or the capacity is not valid; [`plan::faults`](crate::plan::faults) says what is wrong with it.
    InvalidPlan,
    /// 11: no point has this type, or no point can have this address.
    UnknownTypeOrAddress,
    /// 12: the plan has no station with this common address.
    StationNotPlanned,
    /// 13: an interrogation group is 1 to 16.
    GroupOutOfRange,
    /// 14: a counter group is 1 to 4.
    CounterGroupOutOfRange,
    /// 15: only counters, types 15 and 37, have a counter group.
    NotCounter,
    /// 16: an earlier point of the same batch has this address.
    AddressTwice,
    /// 17: the table has a point with this address.
    AlreadyRegistered,
    /// 18: the table has no point with this address.
    NotRegistered,
    /// 19: the station holds as many points as its ceiling allows.
    CeilingReached,
    /// 20: the station is below its ceiling, but what is free is kept for stations below their reservation.
    NotAdmitted,
    /// A number that this crate does not know: the linked library is newer than the crate.
    Later(u32),
}

/// Every fault with its number and the paper's words, once.
const FAULTS: [(Fault, u32, &str); 16] = [
    (Fault::Malformed, 2, "ASDU malformed"),
    (Fault::TableNotWellFormed, 3, "table not well formed"),
    (Fault::AnswerShort, 4, "answer memory shorter than the answer"),
    (Fault::SpontaneousShort, 5, "spontaneous memory shorter than what goes in it"),
    (Fault::BadProposal, 6, "bad proposal"),
    (Fault::InvalidPlan, 10, "invalid plan or K, or table memory below 48 × K + 8 × stations + 64 octets"),
    (Fault::UnknownTypeOrAddress, 11, "unknown point type, or IOA too large"),
    (Fault::StationNotPlanned, 12, "CA not in the plan"),
    (Fault::GroupOutOfRange, 13, "interrogation group not 1 to 16"),
    (Fault::CounterGroupOutOfRange, 14, "counter group not 1 to 4"),
    (Fault::NotCounter, 15, "counter group on a point that is no counter"),
    (Fault::AddressTwice, 16, "address stands earlier in the batch"),
    (Fault::AlreadyRegistered, 17, "already registered"),
    (Fault::NotRegistered, 18, "not registered (removal)"),
    (Fault::CeilingReached, 19, "ceiling: held = c"),
    (Fault::NotAdmitted, 20, "held < c, not admitted"),
];

impl Fault {
    /// The number that the paper gives this fault.
    #[must_use]
    pub fn number(self) -> u32 {
        match self {
            Self::Later(number) => number,
            known => known.row().map_or(0, |row| row.1),
        }
    }

    /// The paper's words for it.
    #[must_use]
    pub fn words(self) -> &'static str {
        self.row().map_or("a number that this version does not know", |row| row.2)
    }

    /// The fault that has a number; none for 0 (done) and 1 (silent).
    #[must_use]
    pub fn from_number(number: u32) -> Option<Self> {
        match number {
            0 | 1 => None,
            _ => Some(Self::all().find(|fault| fault.number() == number).unwrap_or(Self::Later(number))),
        }
    }

    /// Every fault that this version knows, in the order of the numbers.
    pub fn all() -> impl Iterator<Item = Self> {
        FAULTS.iter().map(|row| row.0)
    }

    /// Its row of the list.
    fn row(self) -> Option<&'static (Self, u32, &'static str)> {
        FAULTS.iter().find(|row| row.0 == self)
    }
}

impl fmt::Display for Fault {
    fn fmt(&self, f: &mut fmt::Formatter<'_>) -> fmt::Result {
        write!(f, "number {}: {}", self.number(), self.words())
    }
}

/// A refused call: the fault and, in a batch, the point that has it. Nothing was changed.
///
/// ```
/// use khuvelter::{types, Fault, Gateway, Point, Station};
///
/// let mut gateway = Gateway::open(8, &[Station::new(7, 2, 4)])?;
/// let points = [Point::new(7, 1, types::M_SP_NA_1, [0]), Point::new(9, 1, types::M_SP_NA_1, [0])];
/// let refusal = gateway.register_all(&points).unwrap_err();
/// assert_eq!(refusal.fault(), Fault::StationNotPlanned);
/// assert_eq!(refusal.place(), Some(1));
/// assert_eq!(refusal.to_string(), "number 12: CA not in the plan (point 1 of the batch, counted from 0)");
/// assert_eq!(gateway.share(7)?.held, 0);
/// # Ok::<(), khuvelter::Refusal>(())
/// ```
#[derive(Clone, Copy, Debug, PartialEq, Eq, Hash)]
pub struct Refusal {
    fault: Fault,
    place: Option<usize>,
}

impl Refusal {
    /// A refusal with no place.
    pub(crate) fn of(fault: Fault) -> Self {
        Self { fault, place: None }
    }

    /// A refusal at a point of a batch.
    pub(crate) fn at(fault: Fault, place: u32) -> Self {
        Self { fault, place: Some(place as usize) }
    }

    /// Why the call was refused.
    #[must_use]
    pub fn fault(&self) -> Fault {
        self.fault
    }

    /// The number that the paper gives it.
    #[must_use]
    pub fn number(&self) -> u32 {
        self.fault.number()
    }

    /// In a refused batch, the first point that has the fault, counted from 0.
    #[must_use]
    pub fn place(&self) -> Option<usize> {
        self.place
    }
}

impl fmt::Display for Refusal {
    fn fmt(&self, f: &mut fmt::Formatter<'_>) -> fmt::Result {
        self.fault.fmt(f)?;
        match self.place {
            Some(place) => write!(f, " (point {place} of the batch, counted from 0)"),
            None => Ok(()),
        }
    }
}

impl Error for Refusal {}
