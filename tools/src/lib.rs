//! Agreements as text, for people.
//!
//! Text is cut into tokens ([`text`]), read as a tree ([`parse`], [`syntax`]), its names are made
//! numbers ([`resolve`], [`model`]), and records are written ([`assemble`](mod@assemble)). A record
//! is read back ([`decode`]) and printed as text ([`print`](mod@print)). Lines become reading records
//! ([`readings`]), and a table is told in words ([`table`], [`explain`](mod@explain)). What is wrong
//! with a text is told in its own names ([`check`]), and what units its templates can declare ([`sizes`]).
//!
//! A run is given to the proved library, reading by reading ([`run`]), told as a story ([`story`]) and
//! drawn as a picture ([`timeline`]); why a verdict came so is worked out from what waits ([`pending`]).
//!
//! Nothing here is proved. Whether an agreement is accepted is decided by the proved library's entry
//! `check` alone, which is given the record, and every verdict of a run is the library's.

pub mod assemble;
pub mod check;
pub mod dates;
pub mod decode;
pub mod disassemble;
mod encode;
pub mod examples;
pub mod explain;
pub mod fault;
pub mod files;
pub mod json;
mod known;
pub mod limits;
pub mod model;
mod near;
mod numbers;
pub mod output;
pub mod parse;
pub mod pending;
pub mod print;
pub mod readings;
pub mod resolve;
pub mod run;
pub mod shown;
mod sites;
pub mod sizes;
pub mod source;
pub mod status;
pub mod story;
pub mod syntax;
pub mod table;
pub mod text;
pub mod timeline;

pub use assemble::{assemble, Assembled};
pub use disassemble::disassemble;
pub use explain::explain;
