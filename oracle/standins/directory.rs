use crate::path::Path;

#[derive(Clone, Copy, Debug, PartialEq, Eq)]
pub enum DirectoryRemoveError {
    InsufficientPermissions,
    DirectoryDoesNotExist,
    InternalError,
}

/// There are no directories.
pub struct Directory;

impl Directory {
    pub fn remove_empty(_path: &Path) -> Result<(), DirectoryRemoveError> {
        Err(DirectoryRemoveError::DirectoryDoesNotExist)
    }
}
