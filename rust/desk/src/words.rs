//! ASDUs in octets and in words.

use khuvelter::{types, Asdu, EVERY_STATION};

/// Octets on one printed line.
const OCTETS_ON_A_LINE: usize = 24;

/// Octets as on paper: two hex digits each.
pub fn hex(octets: &[u8]) -> String {
    octets.iter().map(|octet| format!("{octet:02X}")).collect::<Vec<_>>().join(" ")
}

/// Octets as on paper, in lines of at most 24.
pub fn hex_lines(octets: &[u8]) -> Vec<String> {
    octets.chunks(OCTETS_ON_A_LINE).map(hex).collect()
}

/// Text of a script as it may be printed: control characters, which could move a terminal's cursor or hide things, are replaced.
pub fn printable(text: &str) -> String {
    text.chars().map(|c| if c.is_control() { '\u{FFFD}' } else { c }).collect()
}

/// A count with its noun.
pub fn count(number: usize, one: &str, more: &str) -> String {
    format!("{number} {}", if number == 1 { one } else { more })
}

/// A common address in words.
pub fn station(ca: u16) -> String {
    match ca {
        EVERY_STATION => "every station".to_string(),
        ca => format!("CA {ca}"),
    }
}

/// The head of an ASDU: type, cause, common address, what is unusual.
pub fn head(asdu: &Asdu<'_>) -> String {
    let words = types::words(asdu.type_id()).unwrap_or_default();
    let mut head = format!("{} {words}, {}, {}", asdu.type_name(), asdu.cause_words(), station(asdu.ca()));
    if asdu.is_negative() {
        head.push_str(", negative");
    }
    if asdu.is_test() {
        head.push_str(", test");
    }
    if asdu.originator() != 0 {
        head.push_str(&format!(", originator {}", asdu.originator()));
    }
    if asdu.count() != 1 {
        head.push_str(&format!(", {} objects", asdu.count()));
    }
    head
}

/// The objects of an ASDU: address, octets of the element, and what they mean where that is short.
pub fn objects(asdu: &Asdu<'_>) -> Vec<String> {
    let widest = asdu.objects().map(|object| object.ioa.to_string().len()).max().unwrap_or_default();
    asdu.objects()
        .map(|object| {
            let meaning = meaning(asdu.type_id(), object.element);
            format!("IOA {:>widest$}  {}  {meaning}", object.ioa, hex(object.element)).trim_end().to_string()
        })
        .collect()
}

/// What an element means, for the types that are met every day.
fn meaning(type_id: u8, element: &[u8]) -> String {
    match (type_id, element) {
        (types::M_SP_NA_1, &[siq]) => format!("{}{}", ["off", "on"][usize::from(siq & 1)], quality(siq)),
        (types::M_DP_NA_1, &[diq]) => {
            format!("{}{}", ["between", "off", "on", "faulty"][usize::from(diq & 3)], quality(diq))
        }
        (types::M_ME_NA_1, &[a, b, qds]) => {
            format!("{:.5}{}", f64::from(i16::from_le_bytes([a, b])) / 32768.0, quality(qds))
        }
        (types::M_ME_NB_1, &[a, b, qds]) => format!("{}{}", i16::from_le_bytes([a, b]), quality(qds)),
        (types::M_ME_NC_1, &[a, b, c, d, qds]) => format!("{}{}", f32::from_le_bytes([a, b, c, d]), quality(qds)),
        (types::M_IT_NA_1 | types::M_IT_TB_1, &[a, b, c, d, ..]) => {
            format!("reading {}", i32::from_le_bytes([a, b, c, d]))
        }
        (types::C_IC_NA_1, &[qualifier]) => interrogation(qualifier),
        (types::C_CI_NA_1, &[qualifier]) => counters(qualifier),
        _ => String::new(),
    }
}

/// The quality of a value, bits 4 to 7 and overflow, if it is not plain.
fn quality(octet: u8) -> String {
    let bits = [(0x80, "invalid"), (0x40, "not topical"), (0x20, "substituted"), (0x10, "blocked")];
    bits.iter().filter(|bit| octet & bit.0 != 0).map(|bit| format!(", {}", bit.1)).collect()
}

/// The qualifier of an interrogation.
fn interrogation(qualifier: u8) -> String {
    match qualifier {
        20 => "everything".to_string(),
        21..=36 => format!("group {}", qualifier - 20),
        _ => String::new(),
    }
}

/// The qualifier of a counter interrogation.
fn counters(qualifier: u8) -> String {
    let action = ["read", "freeze", "freeze and reset", "reset"][usize::from(qualifier >> 6)];
    match qualifier & 0x3F {
        5 => format!("all counters, {action}"),
        group @ 1..=4 => format!("counter group {group}, {action}"),
        _ => String::new(),
    }
}
