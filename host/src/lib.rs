// An independent implementation of document 01 and of document 02's request 8, and what is needed to hold the proved archive against it.

#![deny(unsafe_code)]

pub mod gen;
pub mod lent;
pub mod reference;
pub mod sample;
pub mod sheet;

#[cfg(feature = "archive")]
pub mod compare;
#[cfg(feature = "archive")]
#[allow(unsafe_code)]
pub mod ffi;
