//! Random inputs from a seed: legal ones, damaged ones, hostile ones.
//!
//! [`case`] makes one call with everything it is handed. The parts are public too: [`tree`] for policies as trees and
//! their node lists and texts, [`named`] for tables of names, [`damage`] for illegal inputs, [`cases`] for whole calls. [`fixed`],
//! [`fixed_names`] and [`fixed_mentions`] have cases that are always worth running, [`bytes`] every byte in small texts, [`heavy`] pairs that cost a search much, [`network`] those of them that forward packets,
//! [`run_out`] searches whose rows run out. [`lent`] fills the lists that a call may write.

pub mod bytes;
pub mod cases;
pub mod damage;
pub mod fixed;
pub mod fixed_mentions;
pub mod fixed_names;
pub mod heavy;
pub mod lent;
pub mod named;
pub mod network;
pub mod run_out;
pub mod tree;

pub use cases::{case, Extent};
