//! How the desk draws: signs that the terminal has, colours where a person looks.

use std::env;

/// What a piece of text is, for its colour.
#[derive(Clone, Copy, PartialEq, Eq)]
pub enum Ink {
    /// A heading.
    Title,
    /// Held within a reservation; as expected.
    Good,
    /// Held above a reservation.
    Above,
    /// Reserved and not held yet.
    Kept,
    /// Beside the point.
    Faint,
    /// Refused; no room; not as expected.
    Bad,
}

/// Signs and colours.
#[derive(Clone, Copy)]
pub struct Style {
    pub unicode: bool,
    pub colour: bool,
}

impl Style {
    /// The style for standard output: UTF-8 signs if the locale says so, colours on a terminal unless NO_COLOR is set.
    pub fn of_terminal(ascii: bool, terminal: bool) -> Self {
        let set = |name| env::var(name).ok().filter(|value| !value.is_empty());
        let locale = set("LC_ALL").or_else(|| set("LC_CTYPE")).or_else(|| set("LANG")).unwrap_or_default();
        let locale = locale.to_ascii_lowercase();
        let unicode = !ascii && (locale.contains("utf-8") || locale.contains("utf8"));
        let dumb = set("TERM").is_some_and(|term| term == "dumb");
        Self { unicode, colour: terminal && !dumb && set("NO_COLOR").is_none() }
    }

    /// Text in its colour.
    pub fn paint(self, ink: Ink, text: &str) -> String {
        if !self.colour || text.is_empty() {
            return text.to_string();
        }
        let code = match ink {
            Ink::Title => "1",
            Ink::Good => "32",
            Ink::Above => "33",
            Ink::Kept => "36",
            Ink::Faint => "2",
            Ink::Bad => "1;31",
        };
        format!("\x1b[{code}m{text}\x1b[0m")
    }

    /// One sign or the other.
    pub fn sign(self, unicode: &'static str, ascii: &'static str) -> &'static str {
        if self.unicode {
            unicode
        } else {
            ascii
        }
    }
}
