//! The keys that finish cannot place together, named.
use wobarelind::sys::mix;
use wobarelind::{EqualHashes, Kind, PointBuilder, Refusal, equal_hashes};

/// Four keys of tram, date and hour of which two have equal hashes under each of the eight seeds.
const UNPLACED: [&str; 4] = ["T0410-2024110300", "T0413-2024110308", "T0415-2024110308", "T0416-2024110300"];
/// Four more that the eighth seed alone places.
const BY_THE_LAST: [&str; 4] = ["T0151-2019110300", "T0152-2019110308", "T0420-2019110300", "T0423-2019110308"];

/// A builder with a put of no bytes for each of the keys, which rise.
fn taken(keys: impl IntoIterator<Item = impl AsRef<[u8]>>) -> PointBuilder {
    let mut builder = PointBuilder::new();
    for key in keys {
        builder.add(Kind::Put, key.as_ref(), 0, 1, true).unwrap();
    }
    builder
}

/// The pairs of each attempt, as the keys' numbers.
fn numbered(equal: &EqualHashes<'_>, keys: &[&str]) -> [Vec<(usize, usize)>; 8] {
    let number = |key: &[u8]| keys.iter().position(|other| other.as_bytes() == key).unwrap();
    equal.attempts.each_ref().map(|pairs| pairs.iter().map(|pair| (number(pair.0), number(pair.1))).collect())
}

#[test]
fn four_keys_that_no_seed_places() {
    let builder = taken(UNPLACED);
    assert_eq!(builder.finish_legacy(), Err(Refusal::ATTEMPTS));
    let pairs = [(2, 3), (0, 1), (0, 1), (2, 3), (0, 2), (0, 2), (0, 1), (0, 2)];
    assert_eq!(numbered(&builder.equal_hashes(), &UNPLACED), pairs.map(|pair| vec![pair]));
}

#[test]
fn four_keys_that_the_eighth_seed_alone_places() {
    let builder = taken(BY_THE_LAST);
    let pairs =
        [Some((0, 1)), Some((2, 3)), Some((2, 3)), Some((0, 1)), Some((0, 1)), Some((0, 1)), Some((2, 3)), None];
    let equal = builder.equal_hashes();
    assert_eq!(numbered(&equal, &BY_THE_LAST), pairs.map(Vec::from_iter));
    assert_eq!(equal.fewest(), []);
    let seed = mix(0x9e37_79b9_7f4a_7c15u64.wrapping_mul(8));
    assert_eq!(builder.finish_legacy().unwrap()[8..16], seed.to_le_bytes());
}

#[test]
fn a_pair_under_every_seed() {
    let keys = [&b"AAAAAAAABBBBBBBB"[..], b"AAAAQAAABBBBBBB\xc2"];
    assert_eq!(taken(keys).finish_legacy(), Err(Refusal::ATTEMPTS));
    assert!(equal_hashes(&keys).attempts.iter().all(|pairs| *pairs == [(keys[0], keys[1])]));
}

#[test]
fn of_three_keys_with_one_hash_all_but_the_first_are_second_keys() {
    let keys = [&[b'A'; 24][..], b"AAAAAAAAAAAAQAAAAAAAAAA\xc1", b"AAAAQAAAAAAAAAA\xc1AAAAAAAA"];
    assert_eq!(taken(keys).finish_legacy(), Err(Refusal::ATTEMPTS));
    assert!(equal_hashes(&keys).attempts.iter().all(|pairs| *pairs == [(keys[0], keys[1]), (keys[1], keys[2])]));
}

#[test]
fn keys_without_a_pair() {
    let keys = ["W-20241103000410", "W-20241103080413", "W-20241103080415", "W-20241104000416"];
    assert!(taken(keys).finish_legacy().is_ok());
    assert_eq!(taken(keys).equal_hashes().attempts.concat(), []);
    assert_eq!(equal_hashes(&[]).attempts.concat(), []);
}

#[test]
fn keys_of_several_versions_are_read_from_the_arena() {
    let mut builder = PointBuilder::new();
    for (i, key) in UNPLACED.iter().enumerate() {
        for version in 0..=i as u64 {
            builder.add(Kind::Put, key.as_bytes(), 5, 9 - version, version == 0).unwrap();
        }
    }
    assert_eq!(builder.equal_hashes(), taken(UNPLACED).equal_hashes());
}

/// A month of some 3,000 washes of 100 trams, with keys of tram, date and hour, which rise.
fn month() -> Vec<String> {
    let drawn = (0..100 * 30 * 24).filter(|&i| mix(i).is_multiple_of(24));
    drawn.map(|i| format!("T{:04}-202411{:02}{:02}", i / 720 + 1, i / 24 % 30 + 1, i % 24)).collect()
}

#[test]
fn a_refused_month_is_placed_once_the_second_keys_are_moved() {
    let month = month();
    let whole = taken(&month);
    assert_eq!(whole.finish_legacy(), Err(Refusal::ATTEMPTS));
    let mut moved: Vec<&[u8]> = whole.equal_hashes().fewest().iter().map(|pair| pair.1).collect();
    moved.sort_unstable();
    let rest = month.iter().filter(|key| moved.binary_search(&key.as_bytes()).is_err());
    assert!(taken(rest).finish_legacy().is_ok());
    assert!(taken(moved).finish_legacy().is_ok());
}
