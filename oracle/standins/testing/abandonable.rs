use core::ptr::NonNull;

/// A value that can be left as a process that died would leave it. Nothing here does so.
pub trait Abandonable {
    /// # Safety
    ///
    /// The value is not used again.
    unsafe fn abandon_in_place(this: NonNull<Self>);
}
