//! The words of a script: one statement to a line, read into what is to be done, or a reason why not.

use std::iter::Peekable;
use std::str::SplitWhitespace;

use khuvelter::types::{self, Class};
use khuvelter::{Point, Proposal, Station, Update, EVERY_STATION, LARGEST_IOA, MOST_POINTS};

use crate::words::printable;

/// One line, read.
#[derive(Debug, PartialEq)]
pub enum Statement {
    Nothing,
    Help,
    Say(String),
    Brief(bool),
    Capacity(u32),
    Station(Station),
    Check,
    Open,
    Point(Point),
    Points(Vec<Point>),
    Batch,
    End,
    Remove(u16, u32),
    RemoveAll,
    Shares,
    Connect,
    Send(Sending),
    Expect(Expectation),
}

/// A command to send.
#[derive(Debug, PartialEq)]
pub struct Sending {
    pub asdu: Vec<u8>,
    /// Octets of answer memory, if not as many as needed.
    pub room: Option<usize>,
    /// What the plant proposes, for a process command.
    pub proposal: Option<Proposal>,
}

/// What the call above must have given.
#[derive(Debug, PartialEq)]
pub enum Expectation {
    Number(u32),
    Answer(Vec<u8>),
    Told(Vec<u8>),
}

/// Every word that begins a statement.
const STATEMENTS: [&str; 19] = [
    "capacity",
    "station",
    "check",
    "open",
    "point",
    "points",
    "batch",
    "end",
    "remove",
    "shares",
    "connect",
    "send",
    "interrogate",
    "counters",
    "read",
    "expect",
    "show",
    "say",
    "help",
];

/// Reads one line.
pub fn statement(line: &str) -> Result<Statement, String> {
    let line = line.split_once('#').map_or(line, |(before, _)| before);
    let mut words = Words { words: line.split_whitespace().peekable() };
    let Some(word) = words.words.next() else {
        return Ok(Statement::Nothing);
    };
    let statement = match word {
        "help" => Statement::Help,
        "say" => return Ok(Statement::Say(printable(line.trim().strip_prefix("say").unwrap_or_default().trim()))),
        "show" => Statement::Brief(words.one_of(&["full", "brief"])? == "brief"),
        "capacity" => Statement::Capacity(words.number("a capacity", u32::MAX)?),
        "station" => words.station()?,
        "check" => Statement::Check,
        "open" => Statement::Open,
        "point" => words.point()?,
        "points" => words.points()?,
        "batch" => Statement::Batch,
        "end" => Statement::End,
        "remove" => words.remove()?,
        "shares" => Statement::Shares,
        "connect" => Statement::Connect,
        "send" => words.send()?,
        "interrogate" => words.interrogate()?,
        "counters" => words.counters()?,
        "read" => words.read()?,
        "expect" => words.expect()?,
        other => return Err(unknown(other)),
    };
    match words.words.next() {
        None => Ok(statement),
        Some(more) => Err(format!("'{more}' is too much: '{word}' ends before it")),
    }
}

/// A word that begins no statement; the nearest one that does, if it is near.
fn unknown(word: &str) -> String {
    let lower = word.to_lowercase();
    let near = STATEMENTS.iter().map(|known| (distance(&lower, known), known)).min().filter(|near| near.0 <= 2);
    match near {
        Some((_, known)) => format!("'{word}' is no word of the desk; is it '{known}'?"),
        None => format!("'{word}' is no word of the desk; 'desk --help' lists them"),
    }
}

/// How many letters apart two words are.
fn distance(one: &str, other: &str) -> usize {
    let other: Vec<char> = other.chars().collect();
    let mut row: Vec<usize> = (0..=other.len()).collect();
    for (i, a) in one.chars().take(40).enumerate() {
        let mut before = row[0];
        row[0] = i + 1;
        for (j, b) in other.iter().enumerate() {
            let change = before + usize::from(a != *b);
            before = row[j + 1];
            row[j + 1] = change.min(before + 1).min(row[j] + 1);
        }
    }
    row[other.len()]
}

/// The words of a line that have not been read yet.
struct Words<'a> {
    words: Peekable<SplitWhitespace<'a>>,
}

impl Words<'_> {
    /// The next word, which must be there.
    fn word(&mut self, what: &str) -> Result<&str, String> {
        self.words.next().ok_or_else(|| format!("{what} is missing at the end of the line"))
    }

    /// One of some words.
    fn one_of(&mut self, known: &[&'static str]) -> Result<&'static str, String> {
        let wanted = known.iter().map(|word| format!("'{word}'")).collect::<Vec<_>>().join(" or ");
        let word = self.word(&wanted)?;
        known
            .iter()
            .find(|known| **known == word)
            .copied()
            .ok_or_else(|| format!("'{word}' stands where {wanted} should"))
    }

    /// Takes a word if it stands here.
    fn has(&mut self, word: &str) -> bool {
        self.words.next_if_eq(&word).is_some()
    }

    /// A number up to a largest, decimal or with 0x.
    fn number(&mut self, what: &str, largest: u32) -> Result<u32, String> {
        let word = self.word(what)?;
        number(word, what, largest)
    }

    /// An address in a station.
    fn ioa(&mut self) -> Result<u32, String> {
        self.number("an address in a station (IOA)", LARGEST_IOA)
    }

    /// A number of 16 bits.
    fn short(&mut self, what: &str) -> Result<u16, String> {
        self.number(what, u32::from(u16::MAX)).map(|number| number as u16)
    }

    /// A station's common address.
    fn ca(&mut self) -> Result<u16, String> {
        self.short("the common address of a station (CA)")
    }

    /// A station's common address, or all.
    fn ca_or_all(&mut self) -> Result<u16, String> {
        if self.has("all") {
            Ok(EVERY_STATION)
        } else {
            self.ca()
        }
    }

    /// A type, by number or by name.
    fn type_id(&mut self) -> Result<u8, String> {
        self.one_of(&["type"])?;
        let word = self.word("a type")?;
        match types::number(word) {
            Some(known) => Ok(known),
            None if word.bytes().all(|b| b.is_ascii_digit()) => number(word, "a type", 255).map(|number| number as u8),
            None => Err(format!("'{word}' is no type: give its number, or its name as M_SP_NA_1")),
        }
    }

    /// Octets: pairs of hex digits, as many as there are.
    fn octets(&mut self, what: &str) -> Result<Vec<u8>, String> {
        let mut octets = Vec::new();
        while let Some(word) = self.words.next_if(|word| word.bytes().all(|b| b.is_ascii_hexdigit())) {
            if word.len() % 2 == 1 {
                return Err(format!("'{word}' is no octet: octets have two hex digits each"));
            }
            for at in (0..word.len()).step_by(2) {
                octets.push(u8::from_str_radix(&word[at..at + 2], 16).map_err(|error| error.to_string())?);
            }
        }
        if octets.is_empty() {
            return Err(match self.words.peek() {
                Some(word) => format!("'{word}' stands where {what} should: octets, two hex digits each"),
                None => format!("{what} is missing at the end of the line: octets, two hex digits each"),
            });
        }
        Ok(octets)
    }

    /// The octets of an element after a word that says so; none if it does not stand here.
    fn value(&mut self, type_id: u8) -> Result<Vec<u8>, String> {
        if !self.has("value") {
            return Ok(Vec::new());
        }
        let octets = self.octets("a value")?;
        match types::element_octets(type_id) {
            Some(length) if octets.len() > length => {
                Err(format!("the value has {} octets, but type {type_id} has {length}", octets.len()))
            }
            _ => Ok(octets),
        }
    }

    /// station CA reserve R ceiling C
    fn station(&mut self) -> Result<Statement, String> {
        let ca = self.ca()?;
        self.one_of(&["reserve"])?;
        let reservation = self.short("a reservation")?;
        self.one_of(&["ceiling"])?;
        let ceiling = self.short("a ceiling")?;
        Ok(Statement::Station(Station::new(ca, reservation, ceiling)))
    }

    /// point CA IOA type T [value OCTETS] [group G] [counter-group G]
    ///
    /// The address may be too large: the gateway says so.
    fn point(&mut self) -> Result<Statement, String> {
        let ca = self.ca()?;
        let ioa = self.number("an address in a station (IOA)", u32::MAX)?;
        Ok(Statement::Point(self.rest_of_point(ca, ioa)?))
    }

    /// points CA FIRST..LAST type T [value OCTETS] [group G] [counter-group G]
    fn points(&mut self) -> Result<Statement, String> {
        let ca = self.ca()?;
        let what = "a range of addresses, FIRST..LAST,";
        let word = self.word(what)?;
        let (first, last) = word.split_once("..").ok_or_else(|| format!("'{word}' stands where {what} should"))?;
        let first = number(first, "the first address", LARGEST_IOA)?;
        let last = number(last, "the last address", LARGEST_IOA)?;
        if last < first {
            return Err(format!("the range {first}..{last} runs backwards"));
        }
        if last - first >= MOST_POINTS {
            return Err(format!("the range has {} points, more than any gateway: {MOST_POINTS}", last - first + 1));
        }
        let point = self.rest_of_point(ca, first)?;
        Ok(Statement::Points((first..=last).map(|ioa| Point { ioa, ..point }).collect()))
    }

    /// What follows the address of a point.
    fn rest_of_point(&mut self, ca: u16, ioa: u32) -> Result<Point, String> {
        let type_id = self.type_id()?;
        let value = self.value(type_id)?;
        let mut point = Point::new(ca, ioa, type_id, &value[..]);
        if self.has("group") {
            point = point.in_group(self.number("a group", 255)? as u8);
        }
        if self.has("counter-group") {
            point = point.in_counter_group(self.number("a counter group", 255)? as u8);
        }
        Ok(point)
    }

    /// remove all, or remove CA IOA
    fn remove(&mut self) -> Result<Statement, String> {
        if self.has("all") {
            return Ok(Statement::RemoveAll);
        }
        let ca = self.ca()?;
        Ok(Statement::Remove(ca, self.number("an address in a station (IOA)", u32::MAX)?))
    }

    /// send OCTETS [room N] [confirm | reject] [reply type T OCTETS] [update CA IOA type T value OCTETS]..
    fn send(&mut self) -> Result<Statement, String> {
        let asdu = self.octets("an ASDU")?;
        let room =
            if self.has("room") { Some(self.number("the room for the answer", u32::MAX)? as usize) } else { None };
        let proposal = self.proposal(&asdu)?;
        let process = types::class(asdu[0]) == Some(Class::Process);
        match (process, proposal) {
            (true, None) => {
                Err("a process command needs a proposal: end the line with 'confirm' or 'reject'".to_string())
            }
            (false, Some(_)) => Err(format!("type {} is no process command: it takes no proposal", asdu[0])),
            (_, proposal) => Ok(Statement::Send(Sending { asdu, room, proposal })),
        }
    }

    /// What the plant proposes.
    fn proposal(&mut self, asdu: &[u8]) -> Result<Option<Proposal>, String> {
        let mut proposal = if self.has("confirm") {
            Proposal::confirm(asdu)
        } else if self.has("reject") {
            Proposal::reject(asdu)
        } else {
            return Ok(None);
        };
        if self.has("reply") {
            let type_id = self.type_id()?;
            let objects = if self.words.peek().is_none_or(|word| *word == "update") {
                Vec::new()
            } else {
                self.octets("a reply")?
            };
            proposal = proposal.with_reply(type_id, &objects);
        }
        while self.has("update") {
            let (ca, ioa, type_id) = (self.ca()?, self.ioa()?, self.type_id()?);
            let value = self.value(type_id)?;
            proposal = proposal.with_update(Update::new(ca, ioa, type_id, &value[..]));
        }
        Ok(Some(proposal))
    }

    /// interrogate CA|all [group G]
    fn interrogate(&mut self) -> Result<Statement, String> {
        let ca = self.ca_or_all()?;
        let group = if self.has("group") { self.number_between("a group", 1, 16)? } else { 0 };
        Ok(command(types::C_IC_NA_1, 6, ca, &[0, 0, 0, 20 + group], 1))
    }

    /// counters CA|all [group G] [freeze | freeze-and-reset | reset]
    fn counters(&mut self) -> Result<Statement, String> {
        let ca = self.ca_or_all()?;
        let choice = if self.has("group") { self.number_between("a counter group", 1, 4)? } else { 5 };
        let actions = ["freeze", "freeze-and-reset", "reset"];
        let action = actions.iter().position(|action| self.has(action)).map_or(0, |at| at as u8 + 1);
        Ok(command(types::C_CI_NA_1, 6, ca, &[0, 0, 0, choice | action << 6], 1))
    }

    /// read CA IOA..
    fn read(&mut self) -> Result<Statement, String> {
        let ca = self.ca()?;
        let mut objects = self.ioa()?.to_le_bytes()[..3].to_vec();
        while self.words.peek().is_some() {
            objects.extend(&self.ioa()?.to_le_bytes()[..3]);
        }
        if objects.len() > 3 * 81 {
            return Err(format!("{} addresses do not fit: a read command has at most 81", objects.len() / 3));
        }
        Ok(command(types::C_RD_NA_1, 5, ca, &objects, objects.len() / 3))
    }

    /// A number between two.
    fn number_between(&mut self, what: &str, least: u32, largest: u32) -> Result<u8, String> {
        match self.number(what, 255)? {
            number if (least..=largest).contains(&number) => Ok(number as u8),
            number => Err(format!("{number} is not {what}: {least} to {largest}")),
        }
    }

    /// expect number N, expect OCTETS, expect told OCTETS
    fn expect(&mut self) -> Result<Statement, String> {
        Ok(Statement::Expect(if self.has("number") {
            Expectation::Number(self.number("a number", u32::MAX)?)
        } else if self.has("told") {
            Expectation::Told(self.octets("what is told")?)
        } else {
            Expectation::Answer(self.octets("the answer")?)
        }))
    }
}

/// A number up to a largest, decimal or with 0x.
fn number(word: &str, what: &str, largest: u32) -> Result<u32, String> {
    let digits = word.strip_prefix("0x");
    let number = match digits {
        Some(hex) => u64::from_str_radix(hex, 16),
        None => word.parse(),
    };
    // A sign is no part of a number here, though Rust would read one.
    if !word.bytes().all(|b| b.is_ascii_alphanumeric()) {
        return Err(format!("'{word}' is not {what}: it is a number, without signs and commas"));
    }
    match number {
        Ok(number) if number <= u64::from(largest) => Ok(number as u32),
        Ok(_) => Err(format!("{word} is not {what}: the largest is {largest}")),
        Err(_) if digits.unwrap_or(word).bytes().all(|b| b.is_ascii_digit()) && word.len() > 2 => {
            Err(format!("{word} is not {what}: the largest is {largest}"))
        }
        Err(_) => Err(format!("'{word}' stands where {what} should")),
    }
}

/// A system command with so many objects, at most 81.
fn command(type_id: u8, cause: u8, ca: u16, objects: &[u8], count: usize) -> Statement {
    let [low, high] = ca.to_le_bytes();
    let mut asdu = vec![type_id, count as u8, cause, 0, low, high];
    asdu.extend(objects);
    Statement::Send(Sending { asdu, room: None, proposal: None })
}
