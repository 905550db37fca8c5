//! The trailer of an index file: the five bytes that the store writes behind a body. Plain Rust, and not proved.
//!
//! They are a zero, then the CRC-32 of the body and that zero, little-endian: IEEE, polynomial 0xEDB88320 reflected, as
//! zip and gzip have it. The store's filter blocks have a trailer of their own, with another first byte; it is neither
//! made nor read here.
use std::fmt;

/// The bytes of a trailer.
const LENGTH: usize = 5;
/// The first byte of an index's trailer.
const INDEX: u8 = 0;
/// The CRC of each byte.
const TABLE: [u32; 256] = table();

/// The CRC of one byte, bit by bit.
const fn entry(byte: u32) -> u32 {
    let (mut crc, mut bit) = (byte, 0);
    while bit < 8 {
        crc = if crc & 1 == 1 { (crc >> 1) ^ 0xedb8_8320 } else { crc >> 1 };
        bit += 1;
    }
    crc
}

/// The entry of every byte, made by the compiler.
const fn table() -> [u32; 256] {
    let (mut table, mut byte) = ([0; 256], 0);
    while byte < table.len() {
        table[byte] = entry(byte as u32);
        byte += 1;
    }
    table
}

/// The CRC-32 of bytes.
fn crc32(bytes: impl Iterator<Item = u8>) -> u32 {
    !bytes.fold(!0, |crc, byte| (crc >> 8) ^ TABLE[usize::from(crc as u8 ^ byte)])
}

/// The five bytes that the store writes behind a body: a zero, and the CRC-32 of the body and that zero, little-endian.
/// Plain Rust, and not proved.
pub fn trailer(body: &[u8]) -> [u8; LENGTH] {
    let [a, b, c, d] = crc32(body.iter().copied().chain([INDEX])).to_le_bytes();
    [INDEX, a, b, c, d]
}

/// The index file of a body, as the store writes it: the body, and its [`trailer()`].
pub fn with_trailer(body: &[u8]) -> Vec<u8> {
    [body, &trailer(body)].concat()
}

/// The body of an index file, if the file ends with that body's [`trailer()`]. Whether the body is an index,
/// [`LegacyIndex::decode`](crate::LegacyIndex::decode) says.
///
/// ```
/// use wobarelind::{BadTrailer, body_of, with_trailer};
///
/// let file = with_trailer(b"a body");
/// assert_eq!(body_of(&file), Ok(&b"a body"[..]));
/// assert_eq!(body_of(&file[1..]), Err(BadTrailer));
/// ```
pub fn body_of(file: &[u8]) -> Result<&[u8], BadTrailer> {
    match file.split_last_chunk() {
        Some((body, last)) if !body.is_empty() && *last == trailer(body) => Ok(body),
        _ => Err(BadTrailer),
    }
}

/// A file does not end with its body's trailer.
#[derive(Clone, Copy, PartialEq, Eq)]
pub struct BadTrailer;

/// What the file may be.
impl fmt::Display for BadTrailer {
    fn fmt(&self, f: &mut fmt::Formatter<'_>) -> fmt::Result {
        f.write_str("no right trailer: the file is cut, damaged or no index file of the store")
    }
}

/// As it is displayed: `main` and `unwrap` show an error by its `Debug`.
impl fmt::Debug for BadTrailer {
    fn fmt(&self, f: &mut fmt::Formatter<'_>) -> fmt::Result {
        fmt::Display::fmt(self, f)
    }
}

impl std::error::Error for BadTrailer {}

#[cfg(test)]
mod tests {
    use super::*;
    use crate::LegacyIndex;

    /// A small plant's files, written by the old Rust.
    const FILE: &[u8] = include_bytes!("../../../sample/wash.idx");
    const DATA: &[u8] = include_bytes!("../../../sample/wash.dat");

    #[test]
    fn the_published_check_value() {
        assert_eq!(crc32(b"123456789".iter().copied()), 0xcbf4_3926);
        assert_eq!(crc32([].into_iter()), 0);
    }

    #[test]
    fn the_old_rusts_file_is_read_and_written_again() {
        let body = body_of(FILE).unwrap();
        assert_eq!(body.len() + 5, FILE.len());
        assert!(LegacyIndex::decode(body, DATA).is_ok());
        assert_eq!(with_trailer(body), FILE);
    }

    /// Each byte of a small file is changed to each other value.
    #[test]
    fn a_damaged_byte_is_noticed() {
        let file = with_trailer(b"a body");
        for (at, change) in (0..file.len()).flat_map(|at| (1..=255).map(move |change| (at, change))) {
            let mut damaged = file.clone();
            damaged[at] ^= change;
            assert_eq!(body_of(&damaged), Err(BadTrailer), "byte {at}, {change}");
        }
    }

    #[test]
    fn every_cut_and_every_byte_more_is_noticed() {
        for cut in 1..=FILE.len() {
            assert_eq!(body_of(&FILE[..FILE.len() - cut]), Err(BadTrailer), "{cut} bytes cut from the end");
            assert_eq!(body_of(&FILE[cut..]), Err(BadTrailer), "{cut} bytes cut from the start");
        }
        assert!((0..=255).all(|more| body_of(&[FILE, &[more]].concat()).is_err()));
    }

    #[test]
    fn six_bytes_are_the_least() {
        assert_eq!(body_of(&with_trailer(b"x")), Ok(&b"x"[..]));
        assert_eq!(body_of(&with_trailer(b"")), Err(BadTrailer));
    }

    /// Check bytes that are right for another first byte don't make a trailer of an index.
    #[test]
    fn a_trailer_of_another_block_is_none() {
        let block = |first| {
            let crc = crc32(b"a block".iter().copied().chain([first])).to_le_bytes();
            [&b"a block"[..], &[first], &crc].concat()
        };
        assert_eq!(body_of(&block(0)), Ok(&b"a block"[..]));
        assert!((1..=255).all(|first| body_of(&block(first)).is_err()));
    }
}
