//! Stands in for types/parameters.rs: names that types.rs hands on and nothing here uses.

#[derive(Debug, Clone, PartialEq, Default)]
pub struct PAcNa1;
#[derive(Debug, Clone, PartialEq, Default)]
pub struct PMeNa1;
#[derive(Debug, Clone, PartialEq, Default)]
pub struct PMeNb1;
#[derive(Debug, Clone, PartialEq, Default)]
pub struct PMeNc1;
