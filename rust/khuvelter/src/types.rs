//! The types of IEC 60870-5-101 and -104 that the gateway knows: names, words, octets of an element.
//!
//! ```
//! use khuvelter::types::{self, Class};
//!
//! assert_eq!(types::name(types::M_IT_NA_1), Some("M_IT_NA_1"));
//! assert_eq!(types::words(15), Some("integrated totals"));
//! assert_eq!(types::element_octets(15), Some(5));
//! assert_eq!(types::class(100), Some(Class::System));
//! assert_eq!(types::number("c_ic_na_1"), Some(100));
//! assert_eq!(types::class(8), None);
//! ```

/// What a type is for.
#[derive(Clone, Copy, Debug, PartialEq, Eq, Hash)]
pub enum Class {
    /// One of the 30 types that a point can have.
    Point,
    /// A command to the process: goes to [`Gateway::process_command`](crate::Gateway::process_command).
    Process,
    /// A command to the gateway: goes to [`Gateway::system_command`](crate::Gateway::system_command).
    System,
    /// What the gateway says when a connection has started.
    EndOfInitialisation,
}

/// A type: number, name, words, octets of an element, class.
struct Row(u8, &'static str, &'static str, usize, Class);

/// Makes a constant of each type and one table of all.
macro_rules! types {
    ($($name:ident = $number:literal, $octets:literal, $class:ident, $words:literal;)*) => {
        $(
            #[doc = concat!("Type ", stringify!($number), ": ", $words, ".")]
            pub const $name: u8 = $number;
        )*

        /// Every type, by number.
        const TYPES: &[Row] = &[$(Row($number, stringify!($name), $words, $octets, Class::$class)),*];
    };
}

types! {
    M_SP_NA_1 = 1, 1, Point, "single point";
    M_SP_TA_1 = 2, 4, Point, "single point with time";
    M_DP_NA_1 = 3, 1, Point, "double point";
    M_DP_TA_1 = 4, 4, Point, "double point with time";
    M_ST_NA_1 = 5, 2, Point, "step position";
    M_ST_TA_1 = 6, 5, Point, "step position with time";
    M_BO_NA_1 = 7, 5, Point, "bitstring";
    M_ME_NA_1 = 9, 3, Point, "normalised value";
    M_ME_TA_1 = 10, 6, Point, "normalised value with time";
    M_ME_NB_1 = 11, 3, Point, "scaled value";
    M_ME_TB_1 = 12, 6, Point, "scaled value with time";
    M_ME_NC_1 = 13, 5, Point, "short float";
    M_ME_TC_1 = 14, 8, Point, "short float with time";
    M_IT_NA_1 = 15, 5, Point, "integrated totals";
    M_EP_TA_1 = 17, 6, Point, "protection event with time";
    M_EP_TB_1 = 18, 7, Point, "protection start events with time";
    M_EP_TC_1 = 19, 7, Point, "protection output circuits with time";
    M_PS_NA_1 = 20, 5, Point, "packed single points";
    M_ME_ND_1 = 21, 2, Point, "normalised value without quality";
    M_SP_TB_1 = 30, 8, Point, "single point with long time";
    M_DP_TB_1 = 31, 8, Point, "double point with long time";
    M_ST_TB_1 = 32, 9, Point, "step position with long time";
    M_BO_TB_1 = 33, 12, Point, "bitstring with long time";
    M_ME_TD_1 = 34, 10, Point, "normalised value with long time";
    M_ME_TE_1 = 35, 10, Point, "scaled value with long time";
    M_ME_TF_1 = 36, 12, Point, "short float with long time";
    M_IT_TB_1 = 37, 12, Point, "integrated totals with long time";
    M_EP_TD_1 = 38, 10, Point, "protection event with long time";
    M_EP_TE_1 = 39, 11, Point, "protection start events with long time";
    M_EP_TF_1 = 40, 11, Point, "protection output circuits with long time";
    C_SC_NA_1 = 45, 1, Process, "single command";
    C_DC_NA_1 = 46, 1, Process, "double command";
    C_RC_NA_1 = 47, 1, Process, "regulating step command";
    C_SE_NA_1 = 48, 3, Process, "set-point, normalised value";
    C_SE_NB_1 = 49, 3, Process, "set-point, scaled value";
    C_SE_NC_1 = 50, 5, Process, "set-point, short float";
    C_BO_NA_1 = 51, 4, Process, "bitstring command";
    C_SC_TA_1 = 58, 8, Process, "single command with long time";
    C_DC_TA_1 = 59, 8, Process, "double command with long time";
    C_RC_TA_1 = 60, 8, Process, "regulating step command with long time";
    C_SE_TA_1 = 61, 10, Process, "set-point, normalised value, with long time";
    C_SE_TB_1 = 62, 10, Process, "set-point, scaled value, with long time";
    C_SE_TC_1 = 63, 12, Process, "set-point, short float, with long time";
    C_BO_TA_1 = 64, 11, Process, "bitstring command with long time";
    M_EI_NA_1 = 70, 1, EndOfInitialisation, "end of initialisation";
    C_IC_NA_1 = 100, 1, System, "interrogation";
    C_CI_NA_1 = 101, 1, System, "counter interrogation";
    C_RD_NA_1 = 102, 0, System, "read";
    C_CS_NA_1 = 103, 7, System, "clock";
    C_TS_NA_1 = 104, 2, System, "test";
    C_RP_NA_1 = 105, 1, System, "reset process";
    C_TS_TA_1 = 107, 9, System, "test with time";
}

/// The row of a type.
fn row(number: u8) -> Option<&'static Row> {
    TYPES.iter().find(|row| row.0 == number)
}

/// The name of a type, as `M_SP_NA_1`.
#[must_use]
pub fn name(number: u8) -> Option<&'static str> {
    row(number).map(|row| row.1)
}

/// What a type is, in words.
#[must_use]
pub fn words(number: u8) -> Option<&'static str> {
    row(number).map(|row| row.2)
}

/// The octets of one element of a type.
#[must_use]
pub fn element_octets(number: u8) -> Option<usize> {
    row(number).map(|row| row.3)
}

/// What a type is for; none for a type that the gateway does not know.
#[must_use]
pub fn class(number: u8) -> Option<Class> {
    row(number).map(|row| row.4)
}

/// The number of a type's name, in any case of letters.
#[must_use]
pub fn number(name: &str) -> Option<u8> {
    TYPES.iter().find(|row| row.1.eq_ignore_ascii_case(name)).map(|row| row.0)
}

/// Every type that the gateway knows, ascending.
pub fn all() -> impl Iterator<Item = u8> {
    TYPES.iter().map(|row| row.0)
}

/// What a cause of transmission, 0 to 63, means.
///
/// ```
/// assert_eq!(khuvelter::types::cause_words(7), "activation confirmation");
/// assert_eq!(khuvelter::types::cause_words(22), "interrogated by group 2");
/// ```
#[must_use]
pub fn cause_words(cause: u8) -> String {
    let words = match cause {
        1 => "cyclic",
        2 => "background",
        3 => "spontaneous",
        4 => "initialised",
        5 => "request",
        6 => "activation",
        7 => "activation confirmation",
        8 => "deactivation",
        9 => "deactivation confirmation",
        10 => "activation termination",
        20 => "interrogated by station",
        21..=36 => return format!("interrogated by group {}", cause - 20),
        37 => "counters requested by station",
        38..=41 => return format!("counters requested by group {}", cause - 37),
        _ => return format!("cause {cause}"),
    };
    words.to_string()
}
