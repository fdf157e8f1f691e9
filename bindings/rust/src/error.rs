//! Why a call has no answer.

use std::fmt;

/// The statuses of a run that isn't done. The program's 3 and 4, for an input that can't be read and a text
/// that can't be written, don't come here.
#[derive(Debug, Clone, Copy, PartialEq, Eq, Hash)]
pub enum Status {
    /// Refused, with the reason and its place.
    Refused = 1,
    /// The words have no form.
    NoForm = 2,
    /// There was no memory.
    NoMemory = 5,
    /// The input is no bundle, or the files can't be made into one.
    NoBundle = 6,
}

impl Status {
    /// What the number stands for; none for 0, which is done.
    pub(crate) fn of(status: u8) -> Option<Status> {
        match status {
            0 => None,
            2 => Some(Status::NoForm),
            5 => Some(Status::NoMemory),
            6 => Some(Status::NoBundle),
            _ => Some(Status::Refused),
        }
    }
}

/// Why a call has no answer: the status of the run, and the text that the program tells of it.
#[derive(Debug, Clone, PartialEq, Eq)]
pub struct Error {
    status: Status,
    text: String,
}

impl Error {
    pub(crate) fn new(status: Status, text: String) -> Error {
        Error { status, text }
    }

    /// The status of the run.
    #[must_use]
    pub fn status(&self) -> Status {
        self.status
    }

    /// What the program writes on standard error, with its line feeds; nothing where there was no memory.
    #[must_use]
    pub fn text(&self) -> &str {
        &self.text
    }
}

impl fmt::Display for Error {
    fn fmt(&self, f: &mut fmt::Formatter<'_>) -> fmt::Result {
        match self.status {
            Status::NoMemory => f.write_str("witx: no memory"),
            Status::Refused | Status::NoForm | Status::NoBundle => {
                f.write_str(self.text.trim_end_matches('\n'))
            }
        }
    }
}

impl std::error::Error for Error {}

/// A text of the program, which is UTF-8.
pub(crate) fn text(bytes: Vec<u8>) -> String {
    String::from_utf8(bytes)
        .unwrap_or_else(|error| String::from_utf8_lossy(error.as_bytes()).into_owned())
}
