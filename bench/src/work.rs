//! The inputs of the bench: plans, points and commands, the same octets for both sides.

/// One station of a plan.
#[derive(Clone, Copy)]
pub struct Share {
    pub ca: u16,
    pub reservation: u16,
    pub ceiling: u16,
}

/// A point as both sides are given it.
pub type Point = khuvelter_sys::Record;

/// The 30 types of points with their octets of element (document 01).
pub const KINDS: [(u8, usize); 30] = [
    (1, 1), (2, 4), (3, 1), (4, 4), (5, 2), (6, 5), (7, 5), (9, 3), (10, 6), (11, 3), (12, 6), (13, 5), (14, 8), (15, 5), (17, 6),
    (18, 7), (19, 7), (20, 5), (21, 2), (30, 8), (31, 8), (32, 9), (33, 12), (34, 10), (35, 10), (36, 12), (37, 12), (38, 10), (39, 11), (40, 11),
];

/// Integrated totals, without time.
pub const COUNTERS: [(u8, usize); 1] = [(15, 5)];

/// Numbers that are the same in every run (a linear congruence; its low bits are dropped).
pub struct Dice(u64);

impl Dice {
    pub fn new(seed: u64) -> Dice {
        Dice(seed)
    }

    pub fn below(&mut self, n: usize) -> usize {
        self.0 = self.0.wrapping_mul(6364136223846793005).wrapping_add(1442695040888963407);
        (self.0 >> 33) as usize % n
    }

    pub fn shuffle<T>(&mut self, list: &mut [T]) {
        for i in (1..list.len()).rev() {
            list.swap(i, self.below(i + 1));
        }
    }
}

/// A plan of `stations` equal shares; every ceiling is K.
pub fn plan(stations: usize, capacity: usize) -> Vec<Share> {
    let share = |i: usize| Share { ca: i as u16 + 1, reservation: (capacity / stations) as u16, ceiling: capacity as u16 };
    (0..stations).map(share).collect()
}

/// `each` points for every one of `stations` stations, types drawn from `kinds`, ascending by CA and IOA.
pub fn points(stations: usize, each: usize, kinds: &[(u8, usize)], dice: &mut Dice) -> Vec<Point> {
    let mut list = Vec::with_capacity(stations * each);
    for station in 0..stations {
        for i in 0..each {
            let (type_id, octets) = kinds[dice.below(kinds.len())];
            let mut value = [0; 12];
            value[0] = 1;
            let counter = type_id == 15 || type_id == 37;
            let counter_group = counter.then(|| 1 + dice.below(4) as u8);
            debug_assert!(0 < octets);
            let group = Some(1 + dice.below(16) as u8);
            list.push(Point { ca: station as u16 + 1, ioa: 1 + 3 * i as u32, type_id, group, counter_group, value });
        }
    }
    list
}

/// A command with cause 6 (activation), IOA 0 and one octet: interrogation (100) or counters (101).
pub fn command(kind: u8, ca: u16, qualifier: u8) -> Vec<u8> {
    let [low, high] = ca.to_le_bytes();
    vec![kind, 1, 6, 0, low, high, 0, 0, 0, qualifier]
}

/// A single command (45) at an address, cause 6, with no time.
pub fn single_command(ca: u16, ioa: u32) -> Vec<u8> {
    let [low, high] = ca.to_le_bytes();
    let [a, b, c, _] = ioa.to_le_bytes();
    vec![45, 1, 6, 0, low, high, a, b, c, 1]
}

/// A read (102) of the given addresses of a station, cause 5.
pub fn read(ca: u16, ioas: &[u32]) -> Vec<u8> {
    let [low, high] = ca.to_le_bytes();
    let mut asdu = vec![102, ioas.len() as u8, 5, 0, low, high];
    for ioa in ioas {
        asdu.extend_from_slice(&ioa.to_le_bytes()[0..3]);
    }
    asdu
}
