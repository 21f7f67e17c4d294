//! The errors in words.

use std::fmt;

use crate::image_file;

impl fmt::Display for image_file::Error {
    fn fmt(&self, out: &mut fmt::Formatter<'_>) -> fmt::Result {
        match self {
            image_file::Error::Refused(refusal) => refusal.fmt(out),
            image_file::Error::Host(error) => error.fmt(out),
        }
    }
}

impl std::error::Error for image_file::Error {
    /// What lies below the error that the words are of.
    fn source(&self) -> Option<&(dyn std::error::Error + 'static)> {
        match self {
            image_file::Error::Refused(refusal) => refusal.source(),
            image_file::Error::Host(error) => error.source(),
        }
    }
}
