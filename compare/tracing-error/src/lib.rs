//! A stand-in for the crate tracing-error, which Debian does not package: a span trace that is always empty.

use std::fmt;

#[derive(Debug)]
pub struct SpanTrace;

#[derive(Debug, PartialEq, Eq)]
pub enum SpanTraceStatus {
    EMPTY,
    CAPTURED,
}

impl SpanTrace {
    pub fn capture() -> Self {
        SpanTrace
    }

    pub fn status(&self) -> SpanTraceStatus {
        SpanTraceStatus::EMPTY
    }
}

impl fmt::Display for SpanTrace {
    fn fmt(&self, _: &mut fmt::Formatter<'_>) -> fmt::Result {
        Ok(())
    }
}
