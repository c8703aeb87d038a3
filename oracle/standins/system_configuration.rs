/// What the machine is like. The page size is fixed, so that answers do not depend on the machine.
#[derive(Clone, Copy, Debug, PartialEq, Eq)]
pub enum SystemInfo {
    PageSize,
}

impl SystemInfo {
    pub fn value(&self) -> usize {
        match self {
            SystemInfo::PageSize => 4096,
        }
    }
}
