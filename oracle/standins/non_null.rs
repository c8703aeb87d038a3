use core::ptr::NonNull;

pub trait NonNullCompat<T> {
    fn iox2_from_mut(value: &mut T) -> NonNull<T>;
}

impl<T> NonNullCompat<T> for NonNull<T> {
    fn iox2_from_mut(value: &mut T) -> NonNull<T> {
        NonNull::from(value)
    }
}
