//! Bytes of a fixed capacity that can be copied.

use core::fmt;
use core::ops::Deref;

pub trait String {
    fn as_bytes(&self) -> &[u8];

    /// Cuts `count` bytes out, from the place `start` on; says whether all of them were there.
    fn remove_range(&mut self, start: usize, count: usize) -> bool;
}

#[derive(Clone, Copy)]
pub struct StaticString<const CAPACITY: usize> {
    len: usize,
    bytes: [u8; CAPACITY],
}

impl<const CAPACITY: usize> StaticString<CAPACITY> {
    pub const fn empty() -> Self {
        Self { len: 0, bytes: [0; CAPACITY] }
    }

    /// Says whether there was room for all the bytes; if not, none is added.
    pub fn push_bytes(&mut self, bytes: &[u8]) -> bool {
        if CAPACITY - self.len < bytes.len() {
            return false;
        }
        self.bytes[self.len..self.len + bytes.len()].copy_from_slice(bytes);
        self.len += bytes.len();
        true
    }
}

impl<const CAPACITY: usize> String for StaticString<CAPACITY> {
    fn as_bytes(&self) -> &[u8] {
        &self.bytes[..self.len]
    }

    fn remove_range(&mut self, start: usize, count: usize) -> bool {
        let Some(end) = start.checked_add(count).filter(|end| *end <= self.len) else {
            return false;
        };
        self.bytes.copy_within(end..self.len, start);
        self.len -= count;
        true
    }
}

impl<const CAPACITY: usize> Deref for StaticString<CAPACITY> {
    type Target = [u8];

    fn deref(&self) -> &[u8] {
        self.as_bytes()
    }
}

impl<const CAPACITY: usize> PartialEq for StaticString<CAPACITY> {
    fn eq(&self, other: &Self) -> bool {
        self.as_bytes() == other.as_bytes()
    }
}

impl<const CAPACITY: usize> Eq for StaticString<CAPACITY> {}

impl<const CAPACITY: usize> fmt::Display for StaticString<CAPACITY> {
    fn fmt(&self, f: &mut fmt::Formatter<'_>) -> fmt::Result {
        f.write_str(&::std::string::String::from_utf8_lossy(self.as_bytes()))
    }
}

impl<const CAPACITY: usize> fmt::Debug for StaticString<CAPACITY> {
    fn fmt(&self, f: &mut fmt::Formatter<'_>) -> fmt::Result {
        write!(f, "\"{self}\"")
    }
}
