//! The listing's text.
use crate::{Refusal, calls};

/// The bytes that hold any listing.
const MOST: usize = 131_072;

/// The listing of a body for data of a length, as the program `listing` prints it.
///
/// The first line is `limit L keys N shown S`: the limit, the keys of the body, the lines that follow. Each of these is
/// a key in lower-case hex (`-` for the empty key), then sequence, `put` or `tomb`, offset and length of its record
/// within the limit; the keys rise. Left out are keys without such a record, and every key whose newest record is a
/// tombstone, though the limit be below it. `tomb` is a key that was withdrawn within the limit and put again past it:
/// it has no value, and its offset can be where the withdrawn one starts.
///
/// A body that validation refuses is refused with the same number; one over 65,520 bytes with [`Refusal::INPUT`].
///
/// ```
/// use wobarelind::{Kind, PointBuilder, Refusal, listing};
///
/// let mut builder = PointBuilder::new();
/// builder.add(Kind::Put, b"A", 8, 9, true)?;
/// builder.add(Kind::Tombstone, b"B", 0, 7, true)?;
/// let body = builder.finish_legacy()?;
/// assert_eq!(listing(u64::MAX, 8, &body)?, "limit 18446744073709551615 keys 2 shown 1\n41 9 put 0 8\n");
/// assert_eq!(listing(u64::MAX, 7, &body), Err(Refusal::VALUE));
/// # Ok::<(), Refusal>(())
/// ```
pub fn listing(limit: u64, data_length: u64, body: &[u8]) -> Result<String, Refusal> {
    let input = [&limit.to_le_bytes()[..], &data_length.to_le_bytes(), body].concat();
    let mut text = vec![0; MOST];
    let written = calls::listing(&input, &mut text).expect("proved: any listing has room");
    text.truncate(written as usize);
    let text = String::from_utf8(text).expect("a listing is ASCII");
    match text.strip_prefix("refused ") {
        Some(number) => Err(calls::refused(number.trim_end().parse().expect("proved: a number and no more"))),
        None => Ok(text),
    }
}
