//! The reading core of NTFS: from a disk's bytes to the places on the disk where a file's bytes lie.
//!
//! This crate is a thin and safe layer in plain Rust over a library in which every function is proved: whatever comes in, it ends, stays
//! inside what it was lent, and answers what the rules say. What it won't read it refuses, with one of 22 numbered [`Refusal`]s.
//!
//! - [`Geometry::read`] reads a boot sector, and [`repair`] repairs a record in place.
//! - [`DataRuns`] are the runs of a list, and [`lookup`] says where one byte of a stream lies.
//! - [`Reader`] goes through a stream and says where its bytes lie, span by span.
//! - [`Stream`] reads them from a disk, as [`std::io::Read`] and [`std::io::Seek`].
#![deny(unsafe_code)]
#![warn(missing_docs)]

#[allow(unsafe_code)]
mod ffi;
mod geometry;
mod raw;
mod reader;
mod record;
mod refusal;
mod runs;
mod stream;

pub use geometry::Geometry;
pub use reader::{By, From, Reader, Span, Spans};
pub use record::repair;
pub use refusal::Refusal;
pub use runs::{lcn_plus, lcn_position, lookup, DataRuns, Place, Run, Where};
pub use stream::Stream;

/// The lines in the README must compile and be right.
#[cfg(doctest)]
#[doc = include_str!("../README.md")]
struct Readme;
