//! A plan: the stations of a gateway with what each has paid for and the most that it may hold; and what can be wrong with it.

use std::error::Error;
use std::fmt;

use crate::{EVERY_STATION, MOST_POINTS, MOST_STATIONS};

/// A station of a plan.
#[derive(Clone, Copy, Debug, PartialEq, Eq, Hash)]
pub struct Station {
    /// The common address, 1 to 65,534.
    pub ca: u16,
    /// The points that the station has paid for.
    pub reservation: u16,
    /// The most points that it may hold.
    pub ceiling: u16,
}

impl Station {
    /// A station with a reservation and a ceiling.
    #[must_use]
    pub const fn new(ca: u16, reservation: u16, ceiling: u16) -> Self {
        Self { ca, reservation, ceiling }
    }
}

/// Something that is wrong with a plan; said in a sentence. Stations are counted from 0.
#[derive(Clone, Copy, Debug, PartialEq, Eq, Hash)]
pub enum PlanFault {
    /// The capacity is not 1 to 4,096.
    Capacity(u32),
    /// There is no station.
    NoStation,
    /// There are more than 64 stations.
    TooManyStations(usize),
    /// A station's address is 0 or 65,535.
    Address(usize, Station),
    /// A station's address is not above the one before it.
    NotAscending(usize, Station, Station),
    /// A station's reservation is above its ceiling.
    ReservationAboveCeiling(usize, Station),
    /// A station's ceiling is above the capacity.
    CeilingAboveCapacity(usize, Station, u32),
    /// The reservations add up to more than the capacity: their sum, and the capacity.
    Oversold(u32, u32),
}

impl PlanFault {
    /// The station that has the fault, counted from 0; none if it is the plan's as a whole.
    #[must_use]
    pub fn station(&self) -> Option<usize> {
        match *self {
            Self::Address(at, _)
            | Self::NotAscending(at, _, _)
            | Self::ReservationAboveCeiling(at, _)
            | Self::CeilingAboveCapacity(at, _, _) => Some(at),
            Self::Capacity(_) | Self::NoStation | Self::TooManyStations(_) | Self::Oversold(_, _) => None,
        }
    }
}

impl fmt::Display for PlanFault {
    fn fmt(&self, f: &mut fmt::Formatter<'_>) -> fmt::Result {
        match *self {
            Self::Capacity(capacity) => {
                write!(f, "The capacity is {capacity}, but a gateway has 1 to {MOST_POINTS} points.")
            }
            Self::NoStation => write!(f, "The plan has no station; it needs at least one."),
            Self::TooManyStations(stations) => {
                write!(
                    f,
                    "The plan has {stations} stations, {} more than the {MOST_STATIONS} of a gateway.",
                    stations - MOST_STATIONS
                )
            }
            Self::Address(_, Station { ca: EVERY_STATION, .. }) => {
                write!(f, "Station {EVERY_STATION} cannot be planned: in a command that address means every station.")
            }
            Self::Address(_, Station { ca, .. }) => {
                write!(f, "Station {ca} cannot be planned: the address of a station is 1 to 65534.")
            }
            Self::NotAscending(_, before, station) if before.ca == station.ca => {
                write!(f, "Station {} stands twice.", station.ca)
            }
            Self::NotAscending(_, before, station) => {
                write!(
                    f,
                    "Station {} stands after station {}, but stations go by ascending address.",
                    station.ca, before.ca
                )
            }
            Self::ReservationAboveCeiling(_, Station { ca, reservation, ceiling }) => {
                write!(f, "Station {ca} reserves {reservation} points, more than its ceiling of {ceiling}.")
            }
            Self::CeilingAboveCapacity(_, Station { ca, ceiling, .. }, capacity) => {
                write!(f, "Station {ca} has a ceiling of {ceiling}, more than the gateway's {capacity} points.")
            }
            Self::Oversold(sold, capacity) => {
                write!(
                    f,
                    "The reservations add up to {sold}, {} more than the gateway's {capacity} points.",
                    sold - capacity
                )
            }
        }
    }
}

impl Error for PlanFault {}

/// All that is wrong with a plan; nothing exactly if [`Gateway::open`](crate::Gateway::open) takes it.
///
/// ```
/// use khuvelter::{plan, Station};
///
/// assert!(plan::faults(8, &[Station::new(7, 2, 4)]).is_empty());
/// let faults = plan::faults(8, &[Station::new(7, 2, 4), Station::new(5, 7, 8)]);
/// let sentences: Vec<_> = faults.iter().map(|fault| fault.to_string()).collect();
/// assert_eq!(sentences, [
///     "Station 5 stands after station 7, but stations go by ascending address.",
///     "The reservations add up to 9, 1 more than the gateway's 8 points.",
/// ]);
/// ```
#[must_use]
pub fn faults(capacity: u32, stations: &[Station]) -> Vec<PlanFault> {
    let mut found = Vec::new();
    if !(1..=MOST_POINTS).contains(&capacity) {
        found.push(PlanFault::Capacity(capacity));
    }
    if stations.is_empty() {
        found.push(PlanFault::NoStation);
    }
    if stations.len() > MOST_STATIONS {
        found.push(PlanFault::TooManyStations(stations.len()));
    }
    let befores = std::iter::once(None).chain(stations.iter().copied().map(Some));
    for ((at, &station), before) in stations.iter().enumerate().zip(befores) {
        found.extend(station_faults(capacity, at, station, before));
    }
    let sold = reserved(stations);
    if sold > capacity {
        found.push(PlanFault::Oversold(sold, capacity));
    }
    found
}

/// What is wrong with one station, given the one before it.
fn station_faults(
    capacity: u32,
    at: usize,
    station: Station,
    before: Option<Station>,
) -> impl Iterator<Item = PlanFault> {
    let Station { ca, reservation, ceiling } = station;
    let unaddressed = (ca == 0 || ca == EVERY_STATION).then_some(PlanFault::Address(at, station));
    let disordered = before.filter(|before| before.ca >= ca).map(|before| PlanFault::NotAscending(at, before, station));
    let inverted = (reservation > ceiling).then_some(PlanFault::ReservationAboveCeiling(at, station));
    let high = (u32::from(ceiling) > capacity).then_some(PlanFault::CeilingAboveCapacity(at, station, capacity));
    [unaddressed, disordered, inverted, high].into_iter().flatten()
}

/// The reservations of all stations together: what is sold.
#[must_use]
pub fn reserved(stations: &[Station]) -> u32 {
    stations.iter().map(|station| u32::from(station.reservation)).fold(0, u32::saturating_add)
}

/// The ceilings of all stations together.
#[must_use]
pub fn ceilings(stations: &[Station]) -> u32 {
    stations.iter().map(|station| u32::from(station.ceiling)).fold(0, u32::saturating_add)
}

/// The octets of the table of a plan: 48 for each point, 8 for each station, 64 for the head.
#[must_use]
pub const fn table_octets(capacity: u32, stations: usize) -> usize {
    khuvelter_sys::table_octets(capacity, stations)
}
