//! Random histories: the seed is all that a history depends on.

use original::{Point, Proposal};

use crate::{
    history::{Call, History, Station},
    rules::{element, process_element, system_element},
};

/// splitmix64.
pub struct Random(pub u64);

impl Random {
    pub fn next(&mut self) -> u64 {
        self.0 = self.0.wrapping_add(0x9E37_79B9_7F4A_7C15);
        let mut z = self.0;
        z = (z ^ (z >> 30)).wrapping_mul(0xBF58_476D_1CE4_E5B9);
        z = (z ^ (z >> 27)).wrapping_mul(0x94D0_49BB_1331_11EB);
        z ^ (z >> 31)
    }

    /// A number below `n`.
    pub fn below(&mut self, n: usize) -> usize {
        (self.next() % n as u64) as usize
    }

    /// True once in `n` times.
    pub fn once_in(&mut self, n: usize) -> bool {
        self.below(n) == 0
    }

    pub fn one_of<T: Copy>(&mut self, list: &[T]) -> T {
        list[self.below(list.len())]
    }

    fn octet(&mut self) -> u8 {
        self.next() as u8
    }

    fn octets(&mut self, n: usize) -> Vec<u8> {
        (0..n).map(|_| self.octet()).collect()
    }
}

pub const POINT_TYPES: [u8; 30] =
    [1, 2, 3, 4, 5, 6, 7, 9, 10, 11, 12, 13, 14, 15, 17, 18, 19, 20, 21, 30, 31, 32, 33, 34, 35, 36, 37, 38, 39, 40];
pub const SYSTEM_TYPES: [u8; 7] = [100, 101, 102, 103, 104, 105, 107];
pub const PROCESS_TYPES: [u8; 14] = [45, 46, 47, 48, 49, 50, 51, 58, 59, 60, 61, 62, 63, 64];

/// What a history draws from: its plan, and the addresses that its calls name.
pub struct Draw {
    pub random: Random,
    capacity: u32,
    plan: Vec<Station>,
    ioas: Vec<u32>,
    types: Vec<u8>,
    /// Points that the history wants registered.
    wanted: Vec<Point>,
    /// No IOA stands in two stations, so that the original's order under CA 65,535 is not open.
    apart: bool,
}

fn plan(random: &mut Random) -> (u32, Vec<Station>) {
    let capacity = match random.below(10) {
        0 => 1 + random.below(4),
        1..=5 => 8 + random.below(60),
        6..=8 => 100 + random.below(400),
        _ => 1000 + random.below(3097),
    };
    let stations = match random.below(12) {
        0 => 1 + random.below(64),
        1..=3 => 1,
        _ => 2 + random.below(4),
    };
    let mut addresses: Vec<u16> =
        (0..stations).map(|_| if random.once_in(3) { 1 + random.below(300) } else { 1 + random.below(65534) } as u16).collect();
    if random.once_in(6) {
        addresses[0] = random.one_of(&[1, 65534, 256, 255]);
    }
    addresses.sort();
    addresses.dedup();
    let mut left = capacity;
    let station = |ca| {
        let reservation = random.below(left.min(1 + 2 * capacity / stations) + 1);
        left -= reservation;
        let ceiling = if random.once_in(3) { reservation + random.below(capacity - reservation + 1) } else { capacity };
        Station { ca, reservation: reservation as u16, ceiling: ceiling as u16 }
    };
    (capacity as u32, addresses.into_iter().map(station).collect())
}

impl Draw {
    pub fn new(seed: u64, apart: bool) -> Self {
        let mut random = Random(seed);
        let (capacity, plan) = plan(&mut random);
        let base = random.below(1 << 24) as u32;
        let mut ioas: Vec<u32> = (0..12).map(|i| base.wrapping_add(i * random.below(300) as u32) & 0xFF_FFFF).collect();
        ioas.extend([0, 1, 255, 256, 65535, 65536, 0xFF_FFFF, 0x100_0000]);
        let types = match random.below(4) {
            0 => POINT_TYPES.to_vec(),
            1 => vec![15, 37, random.one_of(&POINT_TYPES)],
            _ => (0..4).map(|_| random.one_of(&POINT_TYPES)).collect(),
        };
        Self { random, capacity, plan, ioas, types, wanted: Vec::new(), apart }
    }

    /// A history to be recorded: at most 100 points in small batches, at most four stations, and no IOA in two of them.
    pub fn small(seed: u64) -> Self {
        (seed..)
            .step_by(1000)
            .map(|seed| Self::new(seed, true))
            .find(|draw| draw.capacity <= 100 && draw.plan.len() <= 4)
            .expect("one of them")
    }

    pub fn history(mut self, calls: usize) -> History {
        let calls = (0..calls).map(|_| self.call()).collect();
        History { capacity: self.capacity, plan: self.plan, calls }
    }

    fn call(&mut self) -> Call {
        match self.random.below(100) {
            0..=11 => {
                let point = self.point();
                self.wanted.push(point.clone());
                Call::Register(point)
            }
            12..=19 => {
                let batch = self.batch();
                self.wanted.extend_from_slice(&batch);
                Call::RegisterAll(batch)
            }
            20..=27 => {
                let (ca, ioa) = self.address();
                Call::Unregister { ca, ioa }
            }
            28 => {
                if self.random.once_in(3) {
                    Call::UnregisterAll
                } else {
                    Call::Started { short: self.short() }
                }
            }
            29..=30 => Call::Started { short: self.short() },
            31..=70 => {
                let asdu = self.system();
                Call::System { asdu: self.perhaps_damaged(asdu), short: self.short() }
            }
            _ => {
                let asdu = self.process();
                let asdu = self.perhaps_damaged(asdu);
                let proposal = self.proposal(&asdu);
                Call::Process { asdu, proposal, short: self.short(), spontaneous_short: self.short() }
            }
        }
    }

    fn short(&mut self) -> Option<usize> {
        let short = if self.random.once_in(2) { 0 } else { self.random.below(300) };
        self.random.once_in(8).then_some(short)
    }

    /// An address that was wanted, or one made of a CA of the plan and an IOA of the history's own.
    fn address(&mut self) -> (u16, u32) {
        if !self.wanted.is_empty() && self.random.once_in(2) {
            let point = &self.wanted[self.random.below(self.wanted.len())];
            return (point.ca, point.ioa);
        }
        let s = self.random.below(self.plan.len());
        let ca = if self.random.once_in(40) { self.random.one_of(&[0, 65535, 65534, 9]) } else { self.plan[s].ca };
        let ioa = self.random.one_of(&self.ioas);
        (ca, self.placed(s, ioa))
    }

    /// An IOA of the station at this place of the plan.
    fn placed(&self, s: usize, ioa: u32) -> u32 {
        if self.apart { (ioa & 0x3F_FFFF) << 2 | (s as u32 & 3) } else { ioa }
    }

    fn point(&mut self) -> Point {
        let (ca, ioa) = self.address();
        let type_id = if self.random.once_in(60) { self.random.octet() } else { self.random.one_of(&self.types) };
        let counter = matches!(type_id, 15 | 37);
        let interrogation_group = match self.random.below(20) {
            0 => Some(self.random.octet()),
            1..=9 => Some(1 + self.random.below(16) as u8),
            _ => None,
        };
        let counter_group = match self.random.below(40) {
            0 => Some(self.random.below(8) as u8),
            1 => Some(1 + self.random.below(4) as u8),
            2..=25 if counter => Some(1 + self.random.below(4) as u8),
            _ => None,
        };
        let octets = if self.random.once_in(4) { [self.random.one_of(&[0, 0xFF]); 12] } else { self.random.octets(12).try_into().unwrap() };
        Point { ca, ioa, type_id, octets, interrogation_group, counter_group }
    }

    fn batch(&mut self) -> Vec<Point> {
        if self.apart || self.random.once_in(2) {
            let n = self.random.below(8);
            return (0..n).map(|_| self.point()).collect();
        }
        // One type, just at the boundary of so many full ASDUs.
        let type_id = self.random.one_of(&self.types);
        let most = (243 / (3 + element(type_id).expect("a point type"))).min(127);
        let count = (self.random.below(3) + 1) * most + self.random.below(3) - 1;
        let s = self.random.below(self.plan.len());
        let base = self.random.below(1 << 20) as u32;
        let one_group = self.random.once_in(2).then(|| 1 + self.random.below(16) as u8);
        let mut points: Vec<Point> = (0..count)
            .map(|i| {
                let mut point = self.point();
                (point.ca, point.type_id, point.ioa) = (self.plan[s].ca, type_id, self.placed(s, base + i as u32));
                point.interrogation_group = one_group.or(point.interrogation_group.filter(|g| (1..=16).contains(g)));
                point.counter_group = point.counter_group.filter(|g| (1..=4).contains(g) && matches!(type_id, 15 | 37));
                point
            })
            .collect();
        for i in (1..points.len()).rev() {
            points.swap(i, self.random.below(i + 1));
        }
        if self.random.once_in(8) {
            let fault = self.point();
            let at = self.random.below(points.len());
            points[at] = fault;
        }
        points
    }

    fn head(&mut self, type_id: u8, count: usize, causes: &[u8]) -> Vec<u8> {
        let cause = if self.random.once_in(12) { self.random.below(64) as u8 } else { self.random.one_of(causes) };
        let flags = if self.random.once_in(3) { self.random.one_of(&[0x40, 0x80, 0xC0]) } else { 0 };
        let originator = if self.random.once_in(2) { 0 } else { self.random.octet() };
        let ca = match self.random.below(12) {
            0..=2 => 65535,
            3 => self.random.one_of(&[0, 9, 65534]),
            _ => self.random.below(self.plan.len()) as u16,
        };
        let ca = self.plan.get(ca as usize).map_or(ca, |s| s.ca).to_le_bytes();
        vec![type_id, count as u8, cause | flags, originator, ca[0], ca[1]]
    }

    fn count(&mut self, octets: usize) -> usize {
        let most = (243 / (3 + octets)).min(127);
        match self.random.below(12) {
            0 => 0,
            1 => most,
            2 => self.random.below(most + 1),
            3..=4 => 2,
            _ => 1,
        }
    }

    fn system(&mut self) -> Vec<u8> {
        let type_id = if self.random.once_in(2) { self.random.one_of(&[100, 101, 102]) } else { self.random.one_of(&SYSTEM_TYPES) };
        let octets = system_element(type_id).expect("a system type");
        let count = self.count(octets);
        let mut asdu = self.head(type_id, count, if type_id == 100 { &[6, 6, 6, 5] } else { &[6, 5] });
        for _ in 0..count {
            let (_, ioa) = self.address();
            asdu.extend_from_slice(&ioa.to_le_bytes()[..3]);
            let mut element = self.random.octets(octets);
            if type_id == 100 && !self.random.once_in(5) {
                element[0] = if self.random.once_in(2) { 20 } else { 20 + self.random.below(17) as u8 };
            }
            if type_id == 101 && !self.random.once_in(5) {
                element[0] = (self.random.below(4) as u8) << 6 | if self.random.once_in(2) { 5 } else { self.random.below(6) as u8 };
            }
            asdu.extend(element);
        }
        asdu
    }

    fn process(&mut self) -> Vec<u8> {
        let type_id = self.random.one_of(&PROCESS_TYPES);
        let octets = process_element(type_id).expect("a process type");
        let count = self.count(octets);
        let mut asdu = self.head(type_id, count, &[6, 6, 5, 8]);
        for _ in 0..count {
            let (_, ioa) = self.address();
            asdu.extend_from_slice(&ioa.to_le_bytes()[..3]);
            asdu.extend(self.random.octets(octets));
        }
        asdu
    }

    fn perhaps_damaged(&mut self, mut asdu: Vec<u8>) -> Vec<u8> {
        if !self.random.once_in(6) {
            return asdu;
        }
        let length = asdu.len();
        match self.random.below(8) {
            0 => asdu.truncate(self.random.below(length)),
            1 => asdu.extend(self.random.octets(1).repeat(1 + self.random.below(12))),
            2 => asdu.extend(self.random.octets(200)),
            3 => asdu[1] ^= 0x80,
            4 => asdu[1] = self.random.octet(),
            5 => asdu[0] = self.random.octet(),
            6 => asdu[self.random.below(length)] ^= 1 << self.random.below(8),
            _ => asdu = self.random.octets(length),
        }
        asdu
    }

    fn proposal(&mut self, asdu: &[u8]) -> Proposal {
        let echo = asdu.len() <= 249 && asdu.first().is_some_and(|t| process_element(*t).is_some()) && self.random.once_in(2);
        let (reply_type, mut reply) = if echo {
            (asdu[0], asdu.get(6..).unwrap_or(&[]).to_vec())
        } else {
            let reply_type = self.random.one_of(&PROCESS_TYPES);
            let octets = process_element(reply_type).expect("a process type");
            let count = self.count(octets);
            (reply_type, self.random.octets(count * (3 + octets)))
        };
        // Bit 1 of a single command means nothing, and the original's decoder drops it: outside the domain.
        if matches!(reply_type, 45 | 58) {
            reply.chunks_mut(3 + process_element(reply_type).unwrap()).filter(|o| 3 < o.len()).for_each(|object| object[3] &= !2);
        }
        let mut proposal = Proposal { negative: self.random.once_in(4), reply_type, reply, updates: Vec::new() };
        let updates = if self.random.once_in(3) { 0 } else { self.random.below(6) };
        for _ in 0..updates {
            let mut point = self.point();
            if !self.wanted.is_empty() && self.random.once_in(2) {
                let wanted = &self.wanted[self.random.below(self.wanted.len())];
                (point.ca, point.ioa, point.type_id) = (wanted.ca, wanted.ioa, wanted.type_id);
            }
            proposal.updates.push(Point { ioa: point.ioa & 0xFF_FFFF, ..point });
        }
        match self.random.below(40) {
            0 => proposal.reply.truncate(proposal.reply.len().saturating_sub(1)),
            1 => proposal.reply_type = self.random.octet(),
            2 => {
                let octets = 244 + self.random.below(20);
                proposal.reply = self.random.octets(octets);
            }
            _ => {}
        }
        if !crate::rules::bad_proposal(&proposal) && matches!(proposal.reply_type, 45 | 58) {
            let size = 3 + process_element(proposal.reply_type).unwrap();
            proposal.reply.chunks_mut(size).for_each(|object| object[3] &= !2);
        }
        proposal
    }
}
