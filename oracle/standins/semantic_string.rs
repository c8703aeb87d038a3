//! Strings that keep a rule about their content.

use core::fmt;
use core::marker::PhantomData;
use core::ops::Deref;

use crate::string::{StaticString, String};

#[derive(Clone, Copy, Debug, PartialEq, Eq)]
pub enum SemanticStringError {
    InvalidContent,
    ExceedsMaximumLength,
}

/// What a string of a kind may hold.
pub trait Rule: Copy + Eq {
    fn admits(bytes: &[u8]) -> bool;
}

#[derive(Clone, Copy, PartialEq, Eq)]
pub struct RuledString<R: Rule, const CAPACITY: usize> {
    string: StaticString<CAPACITY>,
    rule: PhantomData<R>,
}

pub trait SemanticString<const CAPACITY: usize>: Sized {
    fn new(bytes: &[u8]) -> Result<Self, SemanticStringError>;

    /// # Safety
    ///
    /// The bytes keep the rule of the kind of string.
    unsafe fn new_unchecked(bytes: &[u8]) -> Self;

    fn max_len() -> usize {
        CAPACITY
    }

    fn as_string(&self) -> &StaticString<CAPACITY>;

    fn as_bytes(&self) -> &[u8] {
        self.as_string().as_bytes()
    }

    /// The last place where the bytes stand.
    fn rfind(&self, bytes: &[u8]) -> Option<usize>;

    fn push_bytes(&mut self, bytes: &[u8]) -> Result<(), SemanticStringError>;

    fn remove_range(&mut self, start: usize, count: usize) -> Result<(), SemanticStringError>;

    fn strip_prefix(&mut self, prefix: &[u8]) -> Result<bool, SemanticStringError>;

    fn strip_suffix(&mut self, suffix: &[u8]) -> Result<bool, SemanticStringError>;
}

impl<R: Rule, const CAPACITY: usize> RuledString<R, CAPACITY> {
    pub const fn empty() -> Self {
        Self { string: StaticString::empty(), rule: PhantomData }
    }

    /// Takes the changed string over if it keeps the rule.
    fn accept(&mut self, changed: StaticString<CAPACITY>) -> Result<(), SemanticStringError> {
        if !R::admits(changed.as_bytes()) {
            return Err(SemanticStringError::InvalidContent);
        }
        self.string = changed;
        Ok(())
    }
}

impl<R: Rule, const CAPACITY: usize> SemanticString<CAPACITY> for RuledString<R, CAPACITY> {
    fn new(bytes: &[u8]) -> Result<Self, SemanticStringError> {
        let mut new = Self::empty();
        new.push_bytes(bytes)?;
        Ok(new)
    }

    unsafe fn new_unchecked(bytes: &[u8]) -> Self {
        let mut new = Self::empty();
        assert!(new.string.push_bytes(bytes));
        new
    }

    fn as_string(&self) -> &StaticString<CAPACITY> {
        &self.string
    }

    fn rfind(&self, bytes: &[u8]) -> Option<usize> {
        self.string.windows(bytes.len()).rposition(|window| window == bytes)
    }

    fn push_bytes(&mut self, bytes: &[u8]) -> Result<(), SemanticStringError> {
        let mut changed = self.string;
        if !changed.push_bytes(bytes) {
            return Err(SemanticStringError::ExceedsMaximumLength);
        }
        self.accept(changed)
    }

    fn remove_range(&mut self, start: usize, count: usize) -> Result<(), SemanticStringError> {
        let mut changed = self.string;
        changed.remove_range(start, count);
        self.accept(changed)
    }

    fn strip_prefix(&mut self, prefix: &[u8]) -> Result<bool, SemanticStringError> {
        if !self.string.starts_with(prefix) {
            return Ok(false);
        }
        self.remove_range(0, prefix.len()).map(|()| true)
    }

    fn strip_suffix(&mut self, suffix: &[u8]) -> Result<bool, SemanticStringError> {
        if !self.string.ends_with(suffix) {
            return Ok(false);
        }
        self.remove_range(self.string.len() - suffix.len(), suffix.len()).map(|()| true)
    }
}

impl<R: Rule, const CAPACITY: usize> Deref for RuledString<R, CAPACITY> {
    type Target = [u8];

    fn deref(&self) -> &[u8] {
        self.string.as_bytes()
    }
}

impl<R: Rule, const CAPACITY: usize> fmt::Display for RuledString<R, CAPACITY> {
    fn fmt(&self, f: &mut fmt::Formatter<'_>) -> fmt::Result {
        fmt::Display::fmt(&self.string, f)
    }
}

impl<R: Rule, const CAPACITY: usize> fmt::Debug for RuledString<R, CAPACITY> {
    fn fmt(&self, f: &mut fmt::Formatter<'_>) -> fmt::Result {
        fmt::Debug::fmt(&self.string, f)
    }
}
