use crate::path::Path;

/// Where files would lie. No file is ever made, so the place has no name.
pub const TEMP_DIRECTORY: Path = Path::empty();
