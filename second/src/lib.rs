//! A second implementation of the keeper, the tablet and the rehearsal, in plain Rust.
//!
//! It was written from `docs/RULES.md` and `docs/FORMATS.md` alone, without the code of the
//! first one, so that where both print the same lines and write the same bytes it is because
//! both follow the rules, not because one was copied from the other.

pub mod account;
pub mod audit;
pub mod borrower;
pub mod case;
pub mod clock;
pub mod effects;
pub mod generate;
pub mod generate_keeper;
pub mod generate_rehearse;
pub mod generate_tablet;
pub mod journal;
pub mod keeper;
pub mod lines;
pub mod message;
pub mod parts;
pub mod process;
pub mod rehearse;
pub mod rng;
pub mod serve;
pub mod stats;
pub mod tablet;
