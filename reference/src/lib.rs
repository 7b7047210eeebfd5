//! NetKAT policy equivalence: a second implementation, unverified.
//!
//! It is written from the requirements and the papers they name, not from the verified code, so that the two can be
//! compared: [`generate`] makes random inputs, [`case`] runs them. It is also the baseline of the benchmarks.
//!
//! Every public call takes lists of any length with any contents, answers a result or a numbered refusal
//! ([`answer::Refusal`]), and never panics.

#![forbid(unsafe_code)]
#![warn(missing_docs)]

pub mod answer;
pub mod automaton;
pub mod case;
pub mod evidence;
pub mod generate;
pub mod index;
pub mod names;
pub mod packets;
pub mod policy;
pub mod program;
pub mod random;
pub mod search;
pub mod text;
pub mod traces;
