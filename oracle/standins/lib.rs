//! Stand-ins for the libraries that the crate rests on and that are not at hand.
//!
//! One library serves under each of their names, so its modules are those of all of them together.

mod enum_gen;
mod log;
mod tiny_fn;

// concurrency
pub mod atomic {
    pub use core::sync::atomic::{AtomicBool, AtomicU64, AtomicUsize, Ordering};
}
pub mod cell {
    pub use core::cell::UnsafeCell;
}

// containers
pub mod semantic_string;
pub mod slotmap;
pub mod string;

// elementary traits
pub mod allocator;
pub mod non_null;
pub mod testing {
    pub mod abandonable;
}

// memory
pub mod bump_allocator;
pub mod pool_allocator;

// the operating system
pub mod config;
pub mod directory;
pub mod file;
pub mod system_configuration;

// names
pub mod file_name;
pub mod file_path;
pub mod path;
