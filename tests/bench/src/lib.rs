//! Every public call of the proved code meets the second implementation: the
//! same arguments go to both, and their whole answers are compared as bytes.

#![forbid(unsafe_code)]

pub mod boundary;
pub mod calls;
pub mod compare;
pub mod edges;
pub mod full;
pub mod inputs;
pub mod never;
pub mod program;
pub mod shape;
pub mod shop;
pub mod station;
pub mod turned;
pub mod wire;
