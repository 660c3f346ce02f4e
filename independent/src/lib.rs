//! A second opinion on the endgame tables of dobutsu shogi: the rules, the order of positions, values, files and
//! certificates, in plain Rust without dependencies and without `unsafe`, unproved.
//!
//! It is changed only from docs/RULES.md, docs/FORMAT.md and docs/CLASSES.md. Whoever mends it doesn't read the proved
//! program for it, or the two would be one opinion.
//!
//! A call that refuses what it is given answers a [`fault::Fault`], whose text begins with its number and name, as
//! `E7 OtherSet: ..`; docs/FAULTS.md has them all.
//!
//! ```no_run
//! use independent::file::{Opened, Records};
//! use independent::{check, fault::Fault, text};
//!
//! let table = Opened::open("222.db".as_ref())?;
//! let start = text::read_position("gle/.c./.C./ELG - -")?;
//! println!("{}", text::value(table.record(&start)?)); // loss 78
//! for valued in check::moves(&table, &start)? {
//!     println!("{} {}", text::move_of(&start, valued.one), valued.value); // Ga1-a2 loss 76, and so on
//! }
//! # Ok::<(), Fault>(())
//! ```

#![warn(missing_docs)]

pub mod certificate;
pub mod check;
pub mod classes;
pub mod fault;
pub mod file;
pub mod rules;
mod sha256;
pub mod solve;
#[cfg(test)]
mod tests;
pub mod text;
mod threads;
pub mod unmove;
