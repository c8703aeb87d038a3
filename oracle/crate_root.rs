//! The root under which the crate's own modules are compiled. It is ours; every module it names is the crate's file.

extern crate alloc;

pub mod dynamic_storage;
pub mod named_concept;
pub mod resizable_shared_memory;
pub mod shared_memory;
pub mod shm_allocator;

/// The ported modules take the traits of named things by this path; the storage of files behind it is not needed.
pub mod static_storage {
    pub mod file {
        pub use crate::named_concept::*;
    }
}
