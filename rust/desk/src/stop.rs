//! Why a script does not go on.

use std::io;

/// Why a script does not go on.
#[derive(Debug)]
pub enum Stop {
    /// A bad line: its number, the reason, its text.
    Bad { line: usize, reason: String, text: String },
    /// Nobody reads what is said.
    Gone,
    /// The script cannot be read.
    Unreadable(io::Error),
}

impl Stop {
    /// A bad line.
    pub fn bad(line: usize, reason: impl Into<String>) -> Self {
        Self::Bad { line, reason: reason.into(), text: String::new() }
    }

    /// The same with the text of the line, if it is a bad one.
    pub fn with_text(self, text: &str) -> Self {
        match self {
            Self::Bad { line, reason, .. } => Self::Bad { line, reason, text: text.to_string() },
            other => other,
        }
    }
}

/// Standard output is gone.
impl From<io::Error> for Stop {
    fn from(_: io::Error) -> Self {
        Self::Gone
    }
}
