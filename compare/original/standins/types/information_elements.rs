//! Stands in for types/information_elements.rs: the states that commands carry, as their bits.

#[derive(Debug, Clone, Copy, Eq, PartialEq, Default)]
#[repr(u8)]
pub enum Spi {
    #[default]
    Off = 0,
    On = 1,
}

impl Spi {
    pub const fn from_byte(byte: u8) -> Self {
        if byte & 1 == 1 { Spi::On } else { Spi::Off }
    }
}

#[derive(Debug, Clone, Copy, Eq, PartialEq, Default)]
#[repr(u8)]
pub enum Dpi {
    #[default]
    Intermediate = 0,
    Off = 1,
    On = 2,
    Indeterminate = 3,
}

impl Dpi {
    pub const fn from_byte(byte: u8) -> Self {
        match byte & 3 {
            0 => Dpi::Intermediate,
            1 => Dpi::Off,
            2 => Dpi::On,
            _ => Dpi::Indeterminate,
        }
    }
}

#[derive(Debug, Clone, Copy, Eq, PartialEq, Default)]
#[repr(u8)]
pub enum SelectExecute {
    #[default]
    Execute = 0,
    Select = 1,
}

impl SelectExecute {
    pub const fn from_bool(select: bool) -> Self {
        if select { SelectExecute::Select } else { SelectExecute::Execute }
    }
}
