//! The operations, each with its inputs: short ones one after another, and others by chance.

pub mod after;
pub mod audit;
pub mod diff;
pub mod growth;
pub mod path;
pub mod places;
pub mod prepare;
pub mod read;
pub mod replay;
pub mod rounds;
pub mod second;
pub mod sync;
pub mod tags;
pub mod write;
