//! The name of a file: no path, at most 255 bytes.

use crate::semantic_string::{Rule, RuledString};

pub use crate::semantic_string::SemanticString;

#[derive(Clone, Copy, PartialEq, Eq)]
pub struct FileNameRule;

impl Rule for FileNameRule {
    fn admits(bytes: &[u8]) -> bool {
        !matches!(bytes, b"" | b"." | b"..") && !bytes.iter().any(|byte| matches!(byte, 0 | b'/'))
    }
}

pub type FileName = RuledString<FileNameRule, 255>;
