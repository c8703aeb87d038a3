//! The crate's storage trait over the current store: a header at the start of a segment's mapping, then its payload.

use core::fmt::{self, Debug};
use core::marker::PhantomData;
use core::ptr::NonNull;
use core::sync::atomic::{AtomicBool, Ordering};
use core::time::Duration;

use iceoryx2_cal::dynamic_storage::{
    DynamicStorage, DynamicStorageBuilder, DynamicStorageCreateError, DynamicStorageOpenError,
    DynamicStorageOpenOrCreateError, Initializer,
};
use iceoryx2_cal::named_concept::{
    FileName, NamedConcept, NamedConceptBuilder, NamedConceptConfiguration, NamedConceptDoesExistError,
    NamedConceptListError, NamedConceptMgmt, NamedConceptPathHintRemoveError, NamedConceptRemoveError, Path,
};
use standins::bump_allocator::BumpAllocator;
use standins::file::AccessMode;
use standins::semantic_string::SemanticString;
use standins::testing::abandonable::Abandonable;

use crate::mapping::PAGE;
use crate::store::{MakeDenied, OpenDenied, with_current};

/// A header of a type, mapped from the current store. The segment's name alone says which one it is.
pub struct Storage<T> {
    name: FileName,
    handle: usize,
    header: NonNull<T>,
    owned: AtomicBool,
}

unsafe impl<T: Send> Send for Storage<T> {}
unsafe impl<T: Sync> Sync for Storage<T> {}

impl<T> Storage<T> {
    fn new(name: FileName, handle: usize, owned: bool) -> Self {
        const { assert!(size_of::<T>() <= PAGE && align_of::<T>() <= PAGE) };
        let header = with_current(|store| store.mapping(handle).header()).cast();
        Self { name, handle, header, owned: AtomicBool::new(owned) }
    }
}

impl<T> Drop for Storage<T> {
    fn drop(&mut self) {
        with_current(|store| match self.owned.load(Ordering::Relaxed) {
            true => store.withdraw(self.handle),
            false => store.close(self.handle),
        });
    }
}

impl<T> Debug for Storage<T> {
    fn fmt(&self, f: &mut fmt::Formatter<'_>) -> fmt::Result {
        write!(f, "Storage {{ name: {}, handle: {} }}", self.name, self.handle)
    }
}

impl<T> Abandonable for Storage<T> {
    unsafe fn abandon_in_place(this: NonNull<Self>) {
        unsafe { this.as_ref() }.owned.store(false, Ordering::Relaxed);
        unsafe { core::ptr::drop_in_place(this.as_ptr()) };
    }
}

/// Where files would lie, and how they would be called. The store has no files, so nothing is made of it.
#[derive(Clone, Debug)]
pub struct Configuration {
    prefix: FileName,
    suffix: FileName,
    path_hint: Path,
}

impl Default for Configuration {
    fn default() -> Self {
        Self { prefix: FileName::empty(), suffix: FileName::empty(), path_hint: Path::empty() }
    }
}

impl NamedConceptConfiguration for Configuration {
    fn prefix(mut self, value: &FileName) -> Self {
        self.prefix = *value;
        self
    }

    fn get_prefix(&self) -> &FileName {
        &self.prefix
    }

    fn suffix(mut self, value: &FileName) -> Self {
        self.suffix = *value;
        self
    }

    fn get_suffix(&self) -> &FileName {
        &self.suffix
    }

    fn path_hint(mut self, value: &Path) -> Self {
        self.path_hint = *value;
        self
    }

    fn get_path_hint(&self) -> &Path {
        &self.path_hint
    }
}

impl<T> NamedConcept for Storage<T> {
    fn name(&self) -> &FileName {
        &self.name
    }
}

impl<T> NamedConceptMgmt for Storage<T> {
    type Configuration = Configuration;

    unsafe fn remove_cfg(name: &FileName, _config: &Configuration) -> Result<bool, NamedConceptRemoveError> {
        Ok(with_current(|store| store.remove_name(name)))
    }

    fn does_exist_cfg(name: &FileName, _config: &Configuration) -> Result<bool, NamedConceptDoesExistError> {
        Ok(with_current(|store| store.is_named(name)))
    }

    fn list_cfg(_config: &Configuration) -> Result<Vec<FileName>, NamedConceptListError> {
        Ok(with_current(|store| store.names().filter_map(|name| FileName::new(name).ok()).collect()))
    }

    fn remove_path_hint(_value: &Path) -> Result<(), NamedConceptPathHintRemoveError> {
        Ok(())
    }
}

impl<T: Send + Sync + Debug + 'static> DynamicStorage<T> for Storage<T> {
    type Builder<'builder> = Builder<'builder, T>;

    fn does_support_persistency() -> bool {
        false
    }

    fn has_ownership(&self) -> bool {
        self.owned.load(Ordering::Relaxed)
    }

    fn release_ownership(&self) {
        self.owned.store(false, Ordering::Relaxed);
    }

    fn acquire_ownership(&self) {
        self.owned.store(true, Ordering::Relaxed);
    }

    fn get(&self) -> &T {
        unsafe { self.header.as_ref() }
    }

    unsafe fn __internal_set_type_name_in_config(_config: &mut Configuration, _type_name: &str) {}
}

#[derive(Debug)]
pub struct Builder<'builder, T> {
    name: FileName,
    payload_size: usize,
    owned: bool,
    initializer: Initializer<'builder, T>,
    header: PhantomData<T>,
}

impl<T: Send + Sync + 'static> NamedConceptBuilder<Storage<T>> for Builder<'_, T> {
    fn new(name: &FileName) -> Self {
        Self {
            name: *name,
            payload_size: 0,
            owned: true,
            initializer: Initializer::new(|_, _| true),
            header: PhantomData,
        }
    }

    fn config(self, _config: &Configuration) -> Self {
        self
    }
}

impl<T> Builder<'_, T> {
    /// A storage that could not be initialised is dropped, so the segment is withdrawn as if it had never been made.
    fn make(&mut self, header: T) -> Result<Storage<T>, DynamicStorageCreateError> {
        let handle =
            with_current(|store| store.make(&self.name, self.payload_size)).map_err(|denied| match denied {
                MakeDenied::NameStands => DynamicStorageCreateError::AlreadyExists,
                MakeDenied::NoRoom => DynamicStorageCreateError::InternalError,
            })?;
        let mut storage = Storage::new(self.name, handle, true);
        unsafe { storage.header.write(header) };
        let payload = with_current(|store| store.mapping(handle).payload());
        let mut payload_allocator = BumpAllocator::new(payload, self.payload_size);
        if !self.initializer.call(unsafe { storage.header.as_mut() }, &mut payload_allocator) {
            return Err(DynamicStorageCreateError::InitializationFailed);
        }
        storage.owned.store(self.owned, Ordering::Relaxed);
        with_current(|store| store.note_made(self.payload_size));
        Ok(storage)
    }

    fn map(&self) -> Result<Storage<T>, DynamicStorageOpenError> {
        let handle = with_current(|store| store.open(&self.name)).map_err(|denied| match denied {
            OpenDenied::Absent => DynamicStorageOpenError::DoesNotExist,
            OpenDenied::TooManyMaps => DynamicStorageOpenError::InternalError,
        })?;
        Ok(Storage::new(self.name, handle, false))
    }
}

impl<'builder, T: Send + Sync + Debug + 'static> DynamicStorageBuilder<'builder, T, Storage<T>>
    for Builder<'builder, T>
{
    fn call_drop_on_destruction(self, _value: bool) -> Self {
        self
    }

    fn has_ownership(mut self, value: bool) -> Self {
        self.owned = value;
        self
    }

    fn supplementary_size(mut self, value: usize) -> Self {
        self.payload_size = value;
        self
    }

    fn timeout(self, _value: Duration) -> Self {
        self
    }

    fn initializer<F: FnMut(&mut T, &mut BumpAllocator) -> bool + 'builder>(mut self, value: F) -> Self {
        self.initializer = Initializer::new(value);
        self
    }

    fn create(mut self, initial_value: T) -> Result<Storage<T>, DynamicStorageCreateError> {
        self.make(initial_value)
    }

    fn open(self, _access_mode: AccessMode) -> Result<Storage<T>, DynamicStorageOpenError> {
        self.map()
    }

    fn open_or_create(mut self, initial_value: T) -> Result<Storage<T>, DynamicStorageOpenOrCreateError> {
        match self.map() {
            Err(DynamicStorageOpenError::DoesNotExist) => Ok(self.make(initial_value)?),
            opened => Ok(opened?),
        }
    }
}
