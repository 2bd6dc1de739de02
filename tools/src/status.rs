//! How the commands that run an agreement end.

use crate::output::complain;
use crate::run::Verdict;
use crate::shown::printable;
use givuntha::Refusal;
use std::process::ExitCode;

#[derive(Clone, Copy, Debug, PartialEq, Eq)]
pub enum Status {
    /// Fulfilled or running.
    Well = 0,
    Breached = 1,
    /// The agreement is refused, an input is wrong, or the output cannot be written.
    Refused = 2,
    Usage = 3,
}

impl Status {
    pub fn of(verdict: &Verdict) -> Status {
        match verdict {
            Verdict::Live(_) | Verdict::Done => Status::Well,
            Verdict::Breached(_) => Status::Breached,
            Verdict::Refused(_) => Status::Refused,
        }
    }
}

impl From<Status> for ExitCode {
    fn from(status: Status) -> ExitCode {
        ExitCode::from(status as u8)
    }
}

/// Tells on standard error what is wrong, if something is, and gives the exit status.
pub fn exit(ended: Result<Status, String>) -> ExitCode {
    ended
        .unwrap_or_else(|what| {
            complain(&what);
            Status::Refused
        })
        .into()
}

/// Wrong arguments.
pub fn usage(usage: &str) -> ExitCode {
    complain(&format!("usage: {usage}"));
    Status::Usage.into()
}

/// What is said where the library does not start an agreement.
pub fn refused(file: &str, refusal: Refusal) -> String {
    format!("{}: the agreement is refused with {}: {refusal}", printable(file), refusal.number())
}
