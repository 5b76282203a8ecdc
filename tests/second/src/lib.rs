//! The fit check of the echogram exchange, reckoned a second time.
//!
//! In reading order:
//! - `sheet`: what a sheet is, and refusals 1 to 9; `write` lays one out.
//! - `legal`: legal sequences, by definition.
//! - `back`: request and demand bounds, searched from the end of the window.
//! - `critical`, `plain`: the critical sequence and the plain reckoner.
//! - `bounds`: the five questions, with refusals 10, 11, 14 and 12; `question`: one as a value.
//! - `verdict`: the verdict in its own words, then three walks that give the same.
//! - `text`: what the programs print, and their status; `reason`: a refusal in words.
//! - `call`: any call of the library and its reply; `stream`: both as little-endian words.
//! - `random`, `generate`: sheets and questions to compare programs with.
//! - `compare`, `replies`: another program beside this one, by its text or through a stream.
//! - `run`, `simulate`: runs of a sheet, to see whether one is late.
//! - `benchmark`: how long verdicts take.

pub mod back;
pub mod benchmark;
pub mod bounds;
pub mod call;
pub mod compare;
pub mod critical;
pub mod generate;
pub mod legal;
pub mod plain;
pub mod process;
pub mod question;
pub mod random;
pub mod reason;
pub mod replies;
pub mod run;
pub mod sheet;
pub mod simulate;
pub mod stream;
pub mod text;
pub mod verdict;
pub mod write;
