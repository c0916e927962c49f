//! The gateway: one table and its entries.

use std::fmt;

use khuvelter_sys as sys;

use crate::answer::{Answer, ProcessAnswer};
use crate::fault::{Fault, Refusal};
use crate::plan::{table_octets, Station};
use crate::point::Point;
use crate::proposal::Proposal;
use crate::share::Share;
use crate::MOST_POINTS;

/// Octets of the longest ASDU: the answer to any process command fits.
const ASDU: usize = 249;

/// The most octets that one point takes in an answer: an ASDU of its own, header 6, address 3 and element 12.
const POINT: usize = 21;

/// Octets of what is said to a connection that has started.
const START: usize = 10;

/// One gateway: a table of points under a plan, and the last master clock.
///
/// The memory is the gateway's own. Answers are handed over as values, so a lock on the gateway need not be held while they are sent. A
/// clone is a gateway of its own: try on it what you do not want to happen yet.
#[derive(Clone)]
pub struct Gateway {
    capacity: u32,
    plan: Vec<Station>,
    table: Vec<u8>,
    clock: [u8; 8],
    /// Room for any answer to a system command: with it, number 4 is not given.
    room: Vec<u8>,
}

impl Gateway {
    /// Opens a gateway of `capacity` points, 1 to 4,096, under a plan of 1 to 64 stations by ascending address.
    ///
    /// # Errors
    ///
    /// 10, if the plan or the capacity is not valid; [`plan::faults`](crate::plan::faults) says what is wrong.
    ///
    /// ```
    /// use khuvelter::{plan, Fault, Gateway, Station};
    ///
    /// let stations = [Station::new(7, 5, 4)];
    /// assert_eq!(Gateway::open(8, &stations).unwrap_err().fault(), Fault::InvalidPlan);
    /// assert_eq!(plan::faults(8, &stations)[0].to_string(), "Station 7 reserves 5 points, more than its ceiling of 4.");
    /// ```
    pub fn open(capacity: u32, plan: &[Station]) -> Result<Self, Refusal> {
        // A larger capacity is refused whatever the memory.
        let granted = capacity.min(MOST_POINTS);
        let mut table = vec![0; table_octets(granted, plan.len())];
        let numbers: Vec<u16> = plan.iter().flat_map(|s| [s.ca, s.reservation, s.ceiling]).collect();
        done(sys::open(&mut table, capacity, &numbers))?;
        let room = vec![0; Self::most_system_answer(granted)];
        Ok(Self { capacity, plan: plan.to_vec(), table, clock: [0; 8], room })
    }

    /// The capacity, K.
    #[must_use]
    pub fn capacity(&self) -> u32 {
        self.capacity
    }

    /// The plan.
    #[must_use]
    pub fn plan(&self) -> &[Station] {
        &self.plan
    }

    /// The last master clock, seven octets of time; none before the first clock command.
    ///
    /// ```
    /// use khuvelter::{Gateway, Station};
    ///
    /// let mut gateway = Gateway::open(8, &[Station::new(7, 2, 4)])?;
    /// assert_eq!(gateway.clock(), None);
    /// let clock = [0x67, 0x01, 0x06, 0x00, 0x07, 0x00, 0x00, 0x00, 0x00, 1, 2, 3, 4, 5, 6, 7];
    /// assert_eq!(gateway.system_command(&clock)?.asdus().count(), 1);
    /// assert_eq!(gateway.clock(), Some([1, 2, 3, 4, 5, 6, 7]));
    /// # Ok::<(), khuvelter::Refusal>(())
    /// ```
    #[must_use]
    pub fn clock(&self) -> Option<[u8; 7]> {
        let [a, b, c, d, e, f, g, known] = self.clock;
        (known != 0).then_some([a, b, c, d, e, f, g])
    }

    /// Registers one point.
    ///
    /// # Errors
    ///
    /// 11 to 15 and 17 for the point itself; 19 if its station is at its ceiling, 20 if what is free is kept for others.
    ///
    /// ```
    /// use khuvelter::{types, Fault, Gateway, Point, Station};
    ///
    /// let mut gateway = Gateway::open(8, &[Station::new(7, 2, 4)])?;
    /// let point = Point::new(7, 10, types::M_SP_NA_1, [0x01]);
    /// gateway.register(&point)?;
    /// assert_eq!(gateway.register(&point).unwrap_err().fault(), Fault::AlreadyRegistered);
    /// # Ok::<(), khuvelter::Refusal>(())
    /// ```
    pub fn register(&mut self, point: &Point) -> Result<(), Refusal> {
        done(sys::register_point(&mut self.table, &point.record()))
    }

    /// Registers a batch of points, all or none.
    ///
    /// # Errors
    ///
    /// As [`register`](Self::register), and 16 for an address that stands earlier in the batch, with the place of the first faulty
    /// point. Every point's own tests come before the share rule is asked for any.
    ///
    /// ```
    /// use khuvelter::{types, Fault, Gateway, Point, Station};
    ///
    /// let mut gateway = Gateway::open(8, &[Station::new(7, 2, 4)])?;
    /// let points: Vec<_> = (1..=5).map(|ioa| Point::new(7, ioa, types::M_ME_NC_1, [0x00])).collect();
    /// let refusal = gateway.register_all(&points).unwrap_err();
    /// assert_eq!((refusal.fault(), refusal.place()), (Fault::CeilingReached, Some(4)));
    /// gateway.register_all(&points[..4])?;
    /// # Ok::<(), khuvelter::Refusal>(())
    /// ```
    pub fn register_all(&mut self, points: &[Point]) -> Result<(), Refusal> {
        let records: Vec<u8> = points.iter().flat_map(Point::record).collect();
        let reply = sys::register_points(&mut self.table, &records);
        match Fault::from_number(reply.number) {
            None => Ok(()),
            Some(Fault::TableNotWellFormed) => Err(Refusal::of(Fault::TableNotWellFormed)),
            Some(fault) => Err(Refusal::at(fault, reply.place)),
        }
    }

    /// Removes one point; its room is free at once.
    ///
    /// # Errors
    ///
    /// 18, if it is not registered.
    ///
    /// ```
    /// use khuvelter::{types, Fault, Gateway, Point, Station};
    ///
    /// let mut gateway = Gateway::open(8, &[Station::new(7, 2, 4)])?;
    /// gateway.register(&Point::new(7, 10, types::M_SP_NA_1, [0x01]))?;
    /// gateway.unregister(7, 10)?;
    /// assert_eq!(gateway.unregister(7, 10).unwrap_err().fault(), Fault::NotRegistered);
    /// # Ok::<(), khuvelter::Refusal>(())
    /// ```
    pub fn unregister(&mut self, ca: u16, ioa: u32) -> Result<(), Refusal> {
        done(sys::unregister_point(&mut self.table, ca, ioa))
    }

    /// Removes all points and gives back how many there were; the plan stays.
    ///
    /// # Errors
    ///
    /// None but 3, a table that the machine's memory has spoilt.
    ///
    /// ```
    /// use khuvelter::{types, Gateway, Point, Station};
    ///
    /// let mut gateway = Gateway::open(8, &[Station::new(7, 2, 4)])?;
    /// gateway.register(&Point::new(7, 10, types::M_SP_NA_1, [0x01]))?;
    /// assert_eq!(gateway.unregister_all()?, 1);
    /// # Ok::<(), khuvelter::Refusal>(())
    /// ```
    pub fn unregister_all(&mut self) -> Result<usize, Refusal> {
        let reply = sys::unregister_all(&mut self.table);
        done(reply)?;
        Ok(reply.place as usize)
    }

    /// Tells the share of a station.
    ///
    /// # Errors
    ///
    /// 12, if it is not in the plan.
    ///
    /// ```
    /// use khuvelter::{Gateway, Station};
    ///
    /// let gateway = Gateway::open(8, &[Station::new(7, 2, 4)])?;
    /// let share = gateway.share(7)?;
    /// assert_eq!((share.reservation, share.ceiling, share.held, share.free, share.unmet), (2, 4, 0, 8, 2));
    /// # Ok::<(), khuvelter::Refusal>(())
    /// ```
    pub fn share(&self, ca: u16) -> Result<Share, Refusal> {
        let sys::StationShare { number, reservation, ceiling, held, free, unmet } = sys::share(&self.table, ca);
        match Fault::from_number(number) {
            None => Ok(Share { ca, reservation, ceiling, held, free, unmet }),
            Some(fault) => Err(Refusal::of(fault)),
        }
    }

    /// Tells the shares of all stations, in the order of the plan.
    ///
    /// # Errors
    ///
    /// None but 3, a table that the machine's memory has spoilt.
    ///
    /// ```
    /// use khuvelter::{Gateway, Station};
    ///
    /// let gateway = Gateway::open(8, &[Station::new(7, 2, 4), Station::new(9, 1, 8)])?;
    /// for share in gateway.shares()? {
    ///     println!("station {}: {} held, can take {} now", share.ca, share.held, share.can_take_now());
    /// }
    /// # Ok::<(), khuvelter::Refusal>(())
    /// ```
    pub fn shares(&self) -> Result<Vec<Share>, Refusal> {
        self.plan.iter().map(|station| self.share(station.ca)).collect()
    }

    /// Says what goes to a connection when it has started: the end of initialisation.
    ///
    /// # Errors
    ///
    /// None but 3, a table that the machine's memory has spoilt.
    ///
    /// ```
    /// use khuvelter::{Gateway, Station};
    ///
    /// let gateway = Gateway::open(8, &[Station::new(7, 2, 4)])?;
    /// let said = gateway.connection_started()?;
    /// assert_eq!(said.octets(), [0x46, 0x01, 0x04, 0x00, 0x00, 0x00, 0x00, 0x00, 0x00, 0x00]);
    /// # Ok::<(), khuvelter::Refusal>(())
    /// ```
    pub fn connection_started(&self) -> Result<Answer, Refusal> {
        let mut room = [0; START];
        let length = self.connection_started_into(&mut room)?;
        Ok(Answer::of(&room[..length]))
    }

    /// As [`connection_started`](Self::connection_started), into lent memory; gives back how many octets were written.
    ///
    /// # Errors
    ///
    /// 4, if the memory has fewer than ten octets.
    pub fn connection_started_into(&self, answer: &mut [u8]) -> Result<usize, Refusal> {
        let reply = sys::connection_started(&self.table, answer);
        done(reply)?;
        Ok(reply.octets as usize)
    }

    /// Answers a system command, given as the octets of its ASDU: interrogation, counters, read, clock, tests, reset process.
    ///
    /// A command to which nothing is said, or of a type that is no system type, gives an answer that [is silent](Answer::is_silent).
    ///
    /// # Errors
    ///
    /// 2, if the ASDU is malformed.
    ///
    /// ```
    /// use khuvelter::{Fault, Gateway, Station};
    ///
    /// let mut gateway = Gateway::open(8, &[Station::new(7, 2, 4)])?;
    /// let general = [0x64, 0x01, 0x06, 0x00, 0x07, 0x00, 0x00, 0x00, 0x00, 0x14];
    /// assert_eq!(gateway.system_command(&general)?.asdus().count(), 2);
    /// assert_eq!(gateway.system_command(&general[..9]).unwrap_err().fault(), Fault::Malformed);
    /// # Ok::<(), khuvelter::Refusal>(())
    /// ```
    pub fn system_command(&mut self, asdu: &[u8]) -> Result<Answer, Refusal> {
        let reply = sys::system_command(&mut self.table, &mut self.clock, asdu, &mut self.room);
        done(reply)?;
        Ok(Answer::of(&self.room[..reply.octets as usize]))
    }

    /// As [`system_command`](Self::system_command), into lent memory; gives back how many octets were written, 0 if silent.
    ///
    /// With [`most_system_answer`](Self::most_system_answer) octets, number 4 is not given.
    ///
    /// # Errors
    ///
    /// 2, and 4 if the memory is shorter than the answer: nothing was changed, so lend more and ask again.
    ///
    /// ```
    /// use khuvelter::{Fault, Gateway, Station};
    ///
    /// let mut gateway = Gateway::open(8, &[Station::new(7, 2, 4)])?;
    /// let general = [0x64, 0x01, 0x06, 0x00, 0x07, 0x00, 0x00, 0x00, 0x00, 0x14];
    /// let mut memory = vec![0; 16];
    /// let length = loop {
    ///     match gateway.system_command_into(&general, &mut memory) {
    ///         Err(refusal) if refusal.fault() == Fault::AnswerShort => memory.resize(2 * memory.len(), 0),
    ///         said => break said?,
    ///     }
    /// };
    /// assert_eq!((length, memory.len()), (20, 32));
    /// # Ok::<(), khuvelter::Refusal>(())
    /// ```
    pub fn system_command_into(&mut self, asdu: &[u8], answer: &mut [u8]) -> Result<usize, Refusal> {
        let reply = sys::system_command(&mut self.table, &mut self.clock, asdu, answer);
        done(reply)?;
        Ok(reply.octets as usize)
    }

    /// Octets that hold the answer to any system command to a gateway of `capacity` points.
    ///
    /// Confirmation and termination take ten each and a point 21 at most; a read of 81 addresses is confirmed in 249 octets and answered
    /// in 81 × 21.
    #[must_use]
    pub const fn most_system_answer(capacity: u32) -> usize {
        let report = 20 + POINT * capacity as usize;
        let read = ASDU + 81 * POINT;
        if report > read {
            report
        } else {
            read
        }
    }

    /// Answers a process command, given as the octets of its ASDU, as the plant proposes.
    ///
    /// A command to which nothing is said, or of a type that is no process type, gives two answers that
    /// [are silent](Answer::is_silent), and stores nothing.
    ///
    /// # Errors
    ///
    /// 2, if the ASDU is malformed; 6, if the proposal is bad.
    ///
    /// ```
    /// use khuvelter::{Gateway, Proposal, Station};
    ///
    /// let mut gateway = Gateway::open(8, &[Station::new(7, 2, 4)])?;
    /// let command = [0x2D, 0x01, 0x06, 0x00, 0x07, 0x00, 0x0A, 0x00, 0x00, 0x01];
    /// let said = gateway.process_command(&command, &Proposal::reject(&command))?;
    /// assert!(said.answer.asdus().all(|asdu| asdu.is_negative()) && said.spontaneous.is_silent());
    /// # Ok::<(), khuvelter::Refusal>(())
    /// ```
    pub fn process_command(&mut self, asdu: &[u8], proposal: &Proposal) -> Result<ProcessAnswer, Refusal> {
        let mut answer = [0; ASDU];
        let mut spontaneous = vec![0; POINT * proposal.updates.len()];
        let (answered, told) = self.process_command_into(asdu, proposal, &mut answer, &mut spontaneous)?;
        Ok(ProcessAnswer { spontaneous: Answer::of(&spontaneous[..told]), answer: Answer::of(&answer[..answered]) })
    }

    /// As [`process_command`](Self::process_command), into lent memories; gives back how many octets of the answer and of the
    /// spontaneous memory were written.
    ///
    /// # Errors
    ///
    /// 2 and 6; 5 if the spontaneous memory is too short (21 octets for each update always do) and 4 if the answer memory is (249
    /// always do): nothing was changed, so lend more and ask again.
    pub fn process_command_into(
        &mut self,
        asdu: &[u8],
        proposal: &Proposal,
        answer: &mut [u8],
        spontaneous: &mut [u8],
    ) -> Result<(usize, usize), Refusal> {
        let updates = proposal.updates_octets();
        let reply = sys::process_command(&mut self.table, asdu, proposal.flat(&updates), answer, spontaneous);
        done(reply)?;
        Ok((reply.octets as usize, reply.spontaneous as usize))
    }
}

/// Says what it is, and not two hundred thousand octets.
impl fmt::Debug for Gateway {
    fn fmt(&self, f: &mut fmt::Formatter<'_>) -> fmt::Result {
        f.debug_struct("Gateway")
            .field("capacity", &self.capacity)
            .field("plan", &self.plan)
            .field("clock", &self.clock())
            .finish_non_exhaustive()
    }
}

/// Done or silent is fine; any other number is a refusal.
fn done(reply: sys::Reply) -> Result<(), Refusal> {
    Fault::from_number(reply.number).map_or(Ok(()), |fault| Err(Refusal::of(fault)))
}
