//! What a call must give: the original's answer, and document 01's rules (rules.rs) where the original has no say.

use original::{Answer, Original, Point, Proposal, Refusal};

use crate::{
    history::{Call, History, Station},
    image,
    ours::Share,
    rules,
};

/// What is expected of a call that is given enough memory.
#[derive(Debug, Clone, Default, PartialEq, Eq)]
pub struct Expected {
    pub number: u32,
    pub place: u32,
    pub said: Answer,
}

pub struct Oracle {
    original: Original,
    capacity: u32,
    plan: Vec<Station>,
    held: Vec<usize>,
}

fn number(number: u32) -> Expected {
    Expected { number, ..Expected::default() }
}

fn refusal(refusal: Refusal) -> u32 {
    match refusal {
        Refusal::InterrogationGroup => 13,
        Refusal::CounterGroup => 14,
        Refusal::NoCounter => 15,
        Refusal::Duplicate => 16,
        Refusal::AlreadyRegistered => 17,
    }
}

/// Silent (1) if nothing was said; octets that the original's decoder refuses say nothing either.
fn said(answer: Option<Answer>) -> Expected {
    match answer {
        Some(said) if !said.sent.is_empty() => Expected { said, ..Expected::default() },
        _ => number(1),
    }
}

impl Oracle {
    pub fn new(history: &History) -> Self {
        Self { original: Original::default(), capacity: history.capacity, plan: history.plan.clone(), held: vec![0; history.plan.len()] }
    }

    /// Makes the call on the original.
    pub fn call(&mut self, call: &Call) -> Expected {
        match call {
            Call::Register(point) => Expected {
                place: 0,
                ..self.register(std::slice::from_ref(point), |original, p| p.iter().try_for_each(|p| original.register(p)))
            },
            Call::RegisterAll(points) => self.register(points, |original, p| original.register_all(p)),
            Call::Unregister { ca, ioa } => self.unregister(*ca, *ioa),
            Call::UnregisterAll => {
                self.held.fill(0);
                Expected { place: self.original.unregister_all() as u32, ..Expected::default() }
            }
            Call::Started { .. } => Expected { said: self.original.connection_started(), ..Expected::default() },
            Call::System { asdu, .. } => match rules::refused_asdu(asdu, rules::system_element) {
                Some(refused) => number(refused),
                None => said(self.original.system_command(asdu)),
            },
            Call::Process { asdu, proposal, .. } => self.process(asdu, proposal),
        }
    }

    /// The original is asked about ever longer beginnings of the list, so that it names the first faulty point; what it took in of a list
    /// that is refused is let go again.
    fn register(&mut self, points: &[Point], register: impl Fn(&mut Original, &[Point]) -> Result<(), Refusal>) -> Expected {
        let nameable = points.iter().position(|p| rules::refused_point(&self.plan, p).is_some()).unwrap_or(points.len());
        if let Err(refused) = register(&mut self.original, &points[..nameable]) {
            let mut place = 0;
            while register(&mut self.original, &points[..place + 1]).is_ok() {
                self.let_go(&points[..place + 1]);
                place += 1;
            }
            return Expected { number: refusal(refused), place: place as u32, ..Expected::default() };
        }
        let refused = match points.get(nameable) {
            Some(point) => rules::refused_point(&self.plan, point).map(|number| (number, nameable)),
            None => rules::refused_for_room(self.capacity, &self.plan, &self.held, points),
        };
        if let Some((number, place)) = refused {
            self.let_go(&points[..nameable]);
            return Expected { number, place: place as u32, ..Expected::default() };
        }
        for point in points {
            self.held[self.plan.iter().position(|s| s.ca == point.ca).expect("a planned station")] += 1;
        }
        Expected::default()
    }

    fn let_go(&mut self, points: &[Point]) {
        for point in points {
            assert!(self.original.unregister(point.ca, point.ioa), "the point was taken in");
        }
    }

    fn unregister(&mut self, ca: u16, ioa: u32) -> Expected {
        if !self.original.unregister(ca, ioa) {
            return number(18);
        }
        self.held[self.plan.iter().position(|s| s.ca == ca).expect("a planned station")] -= 1;
        Expected::default()
    }

    /// A bad proposal is not shown to the original: whether it would speak at all is asked with a negative, empty one.
    fn process(&mut self, asdu: &[u8], proposal: &Proposal) -> Expected {
        if let Some(refused) = rules::refused_asdu(asdu, rules::process_element) {
            return number(refused);
        }
        if rules::bad_proposal(proposal) {
            let harmless = Proposal { negative: true, reply_type: 45, ..Proposal::default() };
            let silent = said(self.original.process_command(asdu, harmless)).number == 1;
            return number(if silent { 1 } else { 6 });
        }
        said(self.original.process_command(asdu, proposal.clone()))
    }

    /// The last master clock: seven octets and the known flag.
    pub fn clock(&self) -> [u8; 8] {
        let mut clock = [0; 8];
        if let Some(time) = self.original.clock() {
            clock[..7].copy_from_slice(&time);
            clock[7] = 1;
        }
        clock
    }

    /// What every planned station's share must be.
    pub fn shares(&self) -> Vec<(u16, Share)> {
        let free = self.capacity - self.held.iter().sum::<usize>() as u32;
        let unmet = self.plan.iter().zip(&self.held).map(|(s, held)| (s.reservation as u32).saturating_sub(*held as u32)).sum();
        let share = |s: &Station, held: &usize| Share {
            number: 0,
            reservation: s.reservation as u32,
            ceiling: s.ceiling as u32,
            held: *held as u32,
            free,
            unmet,
        };
        self.plan.iter().zip(&self.held).map(|(s, held)| (s.ca, share(s, held))).collect()
    }

    /// The memory of a table that holds what the original holds.
    pub fn table(&mut self) -> Vec<u8> {
        image::image(self.capacity, &self.plan, &mut self.original)
    }
}
