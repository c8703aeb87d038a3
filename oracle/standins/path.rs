//! A path: entries with slashes between them.

use crate::file_name::FileName;
use crate::semantic_string::{Rule, RuledString, SemanticString, SemanticStringError};

#[derive(Clone, Copy, PartialEq, Eq)]
pub struct PathRule;

impl Rule for PathRule {
    fn admits(bytes: &[u8]) -> bool {
        !bytes.contains(&0)
    }
}

pub type Path = RuledString<PathRule, 1024>;

impl Path {
    pub fn add_path_entry(&mut self, entry: &Path) -> Result<(), SemanticStringError> {
        if !self.is_empty() && !self.ends_with(b"/") {
            self.push_bytes(b"/")?;
        }
        self.push_bytes(entry)
    }
}

impl From<&FileName> for Path {
    fn from(name: &FileName) -> Self {
        unsafe { Path::new_unchecked(name) }
    }
}
