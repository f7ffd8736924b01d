//! The modes: each makes its inputs, runs the programs over them and compares.

pub mod calls;
pub mod colors;
pub mod header;
pub mod pairs;
pub mod rolls;
pub mod selftest;
pub mod sheets;
pub mod starts;
pub mod turn;
pub mod write;
