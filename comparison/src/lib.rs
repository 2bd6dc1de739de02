//! The proved library beside the reference monitor.
//!
//! [`proved`] gives a generated call to the proved library. The binary `agree` compares the answers of
//! both, call by call; the binary `speed` times both on the agreements of [`cases`]. Beside the calls of
//! the reference's own generator are those of [`sized`], for agreements of known size (paper 02, No. 7):
//! [`plans`] and [`shapes`] make these, [`size`] works out what they need, [`counts`] counts what they reach.

pub mod cases;
pub mod counts;
mod misread;
pub mod plans;
pub mod proved;
mod shapes;
pub mod size;
pub mod sized;
