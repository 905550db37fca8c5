//! The KIBANPH2 point index and the Fuse8 filter of kiban, through the proved functions of `libkiban_c.a`.
//!
//! What each call does, its numbers and its lengths stand in `bindings/c/kiban.h`; names are kiban's where it has them.
//! This package adds memory: the builder's buffer grows, and workspace and output are allocated as the calls need them.
//! Nothing here decides anything that the proved code decides. Plain Rust, and not proved, are [`equal_hashes`] and the
//! trailer of an index file: [`trailer()`], [`with_trailer`], [`body_of`].
//!
//! ```
//! use wobarelind::{Answer, Kind, LegacyIndex, PointBuilder, Refusal};
//!
//! let data = b"812 litres";
//! let mut builder = PointBuilder::new();
//! let patch = builder.add(Kind::Put, b"tram 17", data.len() as u64, 9, true)?;
//! builder.set_value_offset(patch, 0)?;
//! builder.add(Kind::Tombstone, b"tram 23", 0, 7, true)?;
//! let body = builder.finish_legacy()?;
//!
//! let index = LegacyIndex::decode(&body, data)?;
//! let figure = |tram| match index.get(tram, None) {
//!     Answer::Put { value, .. } => str::from_utf8(value).unwrap(),
//!     Answer::Withdrawn { .. } => "withdrawn: it has no figure",
//!     Answer::Nothing => "no record within the limit",
//! };
//! assert_eq!(figure(b"tram 17"), "812 litres");
//! assert_eq!(figure(b"tram 23"), "withdrawn: it has no figure");
//! assert_eq!(figure(b"tram 99"), "no record within the limit");
//! # Ok::<(), Refusal>(())
//! ```
//!
//! # Which hash
//!
//! The index hashes its keys itself, by [`sys::hash`]. The store's filters do not take that hash: they take XXH3 of the
//! key, 64 bits, by the host's own code (the store's src/xxh3.rs, which is not carried over). [`SstFilter`] is built
//! and asked with such hashes.
//!
//! # Threads
//!
//! Calls share nothing: none keeps anything for the next. Any number of threads may call at once, each on its own
//! writable memory, and read one [`LegacyIndex`] or [`SstFilter`] together.
#![deny(unsafe_code)]

mod calls;
mod equal;
mod filter;
mod listing;
mod point;
mod refusal;
#[allow(unsafe_code)]
pub mod sys;
mod trailer;

pub use equal::{EqualHashes, Pair, equal_hashes};
pub use filter::{Sizes, SstFilter};
pub use listing::listing;
pub use point::{Answer, Kind, LegacyIndex, PointBuilder, finish, validate};
pub use refusal::Refusal;
pub use trailer::{BadTrailer, body_of, trailer, with_trailer};
