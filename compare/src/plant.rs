//! The tool for the plant's own files: one file for each command, and what they share.
mod files;
pub mod filter;
pub mod hashes;
pub mod index;
mod keys;
mod lookups;
mod report;
pub mod sample;
pub mod trial;
mod verdict;
