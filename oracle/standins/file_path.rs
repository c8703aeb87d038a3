//! A path that ends in the name of a file.

use crate::file_name::FileName;
use crate::path::Path;
use crate::semantic_string::{Rule, RuledString, SemanticString};

#[derive(Clone, Copy, PartialEq, Eq)]
pub struct FilePathRule;

impl Rule for FilePathRule {
    fn admits(bytes: &[u8]) -> bool {
        !bytes.is_empty() && !bytes.ends_with(b"/") && !bytes.contains(&0)
    }
}

pub type FilePath = RuledString<FilePathRule, 1024>;

impl FilePath {
    fn name_start(&self) -> usize {
        self.iter().rposition(|byte| *byte == b'/').map_or(0, |slash| slash + 1)
    }

    pub fn file_name(&self) -> FileName {
        unsafe { FileName::new_unchecked(&self[self.name_start()..]) }
    }

    pub fn path(&self) -> Path {
        unsafe { Path::new_unchecked(&self[..self.name_start().saturating_sub(1)]) }
    }
}
