//! The proved library beside the original, on the same inputs, in one process, runs of both sides in turn.
//! It prints Markdown: the lowest and the median time of each side in microseconds, and how many times as long the original takes; under
//! bench/count thousands of instructions in their place.

mod clock;
mod ours;
mod theirs;
mod timing;
mod work;

use std::time::Duration;

use original::Original;
use ours::Ours;
use timing::{Run, Times, interleaved, timed};
use work::{COUNTERS, Dice, KINDS, Point, command, plan, points, read, single_command};

const CAPACITY: usize = 4096;
const EVERY_STATION: u16 = 65535;

/// What is spent on each line: long enough that a quiet moment is among the runs.
const BUDGET: Duration = Duration::from_millis(400);
const MOST_RUNS: usize = 2000;

/// A table on both sides.
struct Both {
    ours: Ours,
    theirs: Original,
    points: Vec<Point>,
}

fn both(stations: usize, each: usize, kinds: &[(u8, usize)]) -> Both {
    let points = points(stations, each, kinds, &mut Dice::new(104));
    let mut ours = Ours::open(CAPACITY, &plan(stations, CAPACITY));
    ours.load(&points);
    Both { ours, theirs: theirs::loaded(&points), points }
}

fn line(name: &str, ours: &Times, theirs: Option<&Times>) {
    let (low, middle) = (ours.lowest(), ours.median());
    match theirs {
        Some(t) => println!(
            "| {name} | {low:.1} | {middle:.1} | {:.1} | {:.1} | {:.1} | {:.1} |",
            t.lowest(),
            t.median(),
            t.lowest() / low,
            t.median() / middle
        ),
        None => println!("| {name} | {low:.1} | {middle:.1} | – | – | – | – |"),
    }
}

fn heading(title: &str) {
    println!("\n### {title}\n");
    let unit = clock::unit();
    println!("| Work | ours, lowest {unit} | median | original, lowest {unit} | median | original ÷ ours, lowest | median |");
    println!("|---|--:|--:|--:|--:|--:|--:|");
}

/// One command to both sides; the octets must be as many, or the bench compares two different works.
fn compare(name: &str, ours: &mut dyn FnMut() -> usize, theirs: &mut dyn FnMut() -> usize) -> (f64, f64) {
    let (a, b) = (ours(), theirs());
    assert_eq!(a, b, "{name}: the sides write different numbers of octets");
    let mut sides: Vec<Run> = vec![Box::new(|| timed(&mut *ours)), Box::new(|| timed(&mut *theirs))];
    let times = interleaved(&mut sides, BUDGET, MOST_RUNS);
    line(&format!("{name} ({a} octets)"), &times[0], Some(&times[1]));
    (times[0].lowest(), times[1].lowest())
}

fn alone(name: &str, ours: &mut dyn FnMut() -> usize) -> f64 {
    let mut sides: Vec<Run> = vec![Box::new(|| timed(&mut *ours))];
    let times = interleaved(&mut sides, BUDGET, MOST_RUNS);
    line(name, &times[0], None);
    times[0].lowest()
}

/// All octets of the table ORed: the limit of any call that must read them.
fn or_pass(table: &[u8]) -> usize {
    table.iter().fold(0u8, |all, octet| all | octet) as usize
}

fn limits_of(ours: &Ours) -> (f64, f64) {
    let or = alone("the OR pass, the limit", &mut || or_pass(std::hint::black_box(&ours.table)));
    let test = alone("the test for well-formedness (`share`)", &mut || ours.share(1) as usize);
    println!("| test ÷ OR pass | {:.1} | | | | | |", test / or);
    (or, test)
}

fn commands(title: &str, stations: usize, each: usize) {
    let Both { mut ours, mut theirs, points } = both(stations, each, &KINDS);
    heading(title);
    limits_of(&ours);
    let mut system = |name: &str, asdu: Vec<u8>| compare(name, &mut || ours.system(&asdu), &mut || theirs::system(&mut theirs, &asdu));
    system("interrogation of station 1", command(100, 1, 20));
    system("interrogation of group 1 of station 1", command(100, 1, 21));
    system("all counters of station 1, with reset", command(101, 1, 0x85));
    system("interrogation under 65,535", command(100, EVERY_STATION, 20));
    let own: Vec<u32> = points.iter().filter(|p| p.ca == 1).map(|p| p.ioa).collect();
    system("read of one point", read(1, &own[own.len() / 2..][..1]));
    let spread: Vec<u32> = (0..60).map(|i| own[i * (own.len() - 1) / 59]).collect();
    system("read of 60 points", read(1, &spread));
    let point = points[points.len() / 2];
    let asdu = single_command(point.ca, point.ioa);
    compare("process command with one update", &mut || ours.process(&asdu, &point), &mut || theirs::process(&mut theirs, &asdu, &point));
    compare("start of a connection", &mut || ours.started(), &mut || theirs::started(&mut theirs));
}

fn counters() {
    let Both { mut ours, mut theirs, .. } = both(1, CAPACITY, &COUNTERS);
    heading("One station, 4,096 counters");
    let asdu = command(101, 1, 0x85);
    compare("all counters, with reset", &mut || ours.system(&asdu), &mut || theirs::system(&mut theirs, &asdu));
}

/// Registering and removing `list` in its order, on both sides, from nothing.
fn registering(order: &str, stations: usize, list: &[Point]) {
    let records: Vec<[u8; 24]> = list.iter().map(Point::octets).collect();
    let flat: Vec<u8> = records.concat();
    let shares = plan(stations, CAPACITY);
    let fresh = || Ours::open(CAPACITY, &shares);
    let typed: Vec<original::Point> = list.iter().map(theirs::typed).collect();
    let batch = theirs::batch(list);
    let run = |name: &str, sides: &mut [Run]| {
        let times = interleaved(sides, BUDGET, MOST_RUNS);
        line(&format!("{name}, {order}"), &times[0], Some(&times[1]));
    };

    let batch_ours: Run = Box::new(|| {
        let mut ours = fresh();
        timed(|| ours.register_all(&flat))
    });
    let batch_theirs: Run = Box::new(|| {
        let (mut theirs, batch) = (Original::default(), batch.clone());
        timed(|| theirs.register_batch(batch).expect("a good batch"))
    });
    run("a batch", &mut [batch_ours, batch_theirs]);

    let each_ours: Run = Box::new(|| {
        let mut ours = fresh();
        timed(|| records.iter().for_each(|record| ours.register(record)))
    });
    let each_theirs: Run = Box::new(|| {
        let mut theirs = Original::default();
        timed(|| typed.iter().for_each(|point| theirs.register(point).expect("a good point")))
    });
    run("one by one", &mut [each_ours, each_theirs]);

    let remove_ours: Run = Box::new(|| {
        let mut ours = fresh();
        ours.register_all(&flat);
        timed(|| list.iter().for_each(|p| ours.unregister(p.ca, p.ioa)))
    });
    let remove_theirs: Run = Box::new(|| {
        let mut theirs = theirs::loaded(list);
        timed(|| list.iter().for_each(|p| assert!(theirs.unregister(p.ca, p.ioa))))
    });
    run("removing each", &mut [remove_ours, remove_theirs]);
}

fn registrations(title: &str, stations: usize, each: usize) {
    heading(title);
    let mut list = points(stations, each, &KINDS, &mut Dice::new(104));
    registering("ascending", stations, &list);
    Dice::new(7).shuffle(&mut list);
    registering("random order", stations, &list);
}

/// How the times grow with points and stations: ours alone.
fn growth() {
    println!("\n### How cost grows (ours, lowest {}, K 4,096)\n", clock::unit());
    println!("| Points | Stations | test | interrogation | counters, reset | 65,535 | read of one | process command | batch of all, ascending | batch, random | register one | remove one |");
    println!("|--:|--:|--:|--:|--:|--:|--:|--:|--:|--:|--:|--:|");
    for total in [64, 512, 4096] {
        for stations in [1, 8, 64] {
            growth_row(total, stations);
        }
    }
}

fn lowest(work: &mut dyn FnMut() -> f64) -> f64 {
    interleaved(&mut [Box::new(work)], BUDGET / 4, MOST_RUNS)[0].lowest()
}

fn growth_row(total: usize, stations: usize) {
    let mut list = points(stations, total / stations, &KINDS, &mut Dice::new(104));
    let shares = plan(stations, CAPACITY);
    let mut ours = Ours::open(CAPACITY, &shares);
    ours.load(&list);
    let middle = list[list.len() / 2];
    let mut row = vec![lowest(&mut || timed(|| ours.share(1)))];
    for asdu in [command(100, 1, 20), command(101, 1, 0x85), command(100, EVERY_STATION, 20), read(middle.ca, &[middle.ioa])] {
        row.push(lowest(&mut || timed(|| ours.system(&asdu))));
    }
    let asdu = single_command(middle.ca, middle.ioa);
    row.push(lowest(&mut || timed(|| ours.process(&asdu, &middle))));
    let batch = |list: &[Point]| {
        let flat: Vec<u8> = list.iter().flat_map(Point::octets).collect();
        lowest(&mut || {
            let mut ours = Ours::open(CAPACITY, &shares);
            timed(|| ours.register_all(&flat))
        })
    };
    row.push(batch(&list));
    Dice::new(7).shuffle(&mut list);
    row.push(batch(&list));
    let record = middle.octets();
    ours.unregister(middle.ca, middle.ioa);
    row.push(lowest(&mut || {
        let time = timed(|| ours.register(&record));
        ours.unregister(middle.ca, middle.ioa);
        time
    }));
    row.push(lowest(&mut || {
        ours.register(&record);
        timed(|| ours.unregister(middle.ca, middle.ioa))
    }));
    let cells: Vec<String> = row.iter().map(|t| format!("{t:.1}")).collect();
    println!("| {total} | {stations} | {} |", cells.join(" | "));
}

fn main() {
    eprintln!("bench: some minutes; each line is runs of both sides in turn");
    commands("One station, 4,096 points of 30 types", 1, CAPACITY);
    commands("64 stations, 64 points each", 64, CAPACITY / 64);
    commands("64 stations, one point each", 64, 1);
    counters();
    registrations("4,000 points of one station", 1, 4000);
    registrations("64 stations, 62 points each", 64, 62);
    growth();
}
