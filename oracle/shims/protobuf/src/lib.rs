//! Message fields without messages: the Whisker types are left out of the rewrite, so nothing is encoded.

use std::{
    fmt,
    ops::{Deref, DerefMut},
};

#[derive(Clone, Debug, PartialEq)]
pub struct MessageField<T>(Option<Box<T>>);

impl<T> Default for MessageField<T> {
    fn default() -> Self {
        MessageField(None)
    }
}

impl<T> MessageField<T> {
    pub fn some(value: T) -> MessageField<T> {
        MessageField(Some(Box::new(value)))
    }

    pub fn is_some(&self) -> bool {
        self.0.is_some()
    }

    pub fn mut_or_insert_default(&mut self) -> &mut T
    where
        T: Default,
    {
        self.0.get_or_insert_with(Box::default)
    }
}

impl<T> Deref for MessageField<T> {
    type Target = T;

    fn deref(&self) -> &T {
        self.0.as_deref().expect("a field that is set")
    }
}

impl<T> DerefMut for MessageField<T> {
    fn deref_mut(&mut self) -> &mut T {
        self.0.as_deref_mut().expect("a field that is set")
    }
}

#[derive(Debug)]
pub struct Error;

impl fmt::Display for Error {
    fn fmt(&self, f: &mut fmt::Formatter<'_>) -> fmt::Result {
        f.write_str("messages are not encoded here")
    }
}

impl std::error::Error for Error {}

pub trait Message: Sized {
    fn write_to_bytes(&self) -> Result<Vec<u8>, Error> {
        Err(Error)
    }

    fn parse_from_bytes(_: &[u8]) -> Result<Self, Error> {
        Err(Error)
    }
}
