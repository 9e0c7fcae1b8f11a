//! What the proved calls cost: the cases that are measured, the baseline's side of
//! them, the stack that compiled functions take, and figures held against limits,
//! against ceilings, against each other and against what the header for C tells.
//! The program `measure` has the proved side.

#![forbid(unsafe_code)]

pub mod baseline;
pub mod calls;
pub mod cases;
pub mod ceilings;
pub mod figures;
pub mod header;
pub mod ratios;
pub mod sized;
pub mod stack;
