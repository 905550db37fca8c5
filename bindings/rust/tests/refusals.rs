//! Every refusal that this package's calls can give, by its cause; DAMAGE by `sys::get`, since only a validated body is
//! asked. Not met: STATE, BUFFER and WORKSPACE (they are the package's own, and fit), SELF_CHECK (proved never to be given).
mod example;

use std::collections::HashSet;
use wobarelind::{Kind, LegacyIndex, PointBuilder, Refusal, SstFilter, finish, listing, sys, validate};

/// A builder that holds key B with one put of sequence 5.
fn started() -> PointBuilder {
    let mut builder = PointBuilder::new();
    builder.add(Kind::Put, b"B", 8, 5, true).unwrap();
    builder
}

/// Bytes of hex.
fn hex(text: &str) -> Vec<u8> {
    (0..text.len()).step_by(2).map(|i| u8::from_str_radix(&text[i..i + 2], 16).unwrap()).collect()
}

#[test]
fn shown_with_number_and_cause() {
    let both = |refusal: Refusal| (refusal.to_string(), format!("{refusal:?}"));
    let same = |text: &str| (text.to_string(), text.to_string());
    assert_eq!(both(Refusal::HASHES), same("refused 12: more than 65,536 hashes"));
    let hint = "refused 10: all eight attempts failed; PointBuilder::equal_hashes names the keys";
    assert_eq!(both(Refusal::ATTEMPTS), same(hint));
}

#[test]
fn every_refusal_has_a_number_and_a_cause_of_its_own() {
    let numbers: Vec<u64> = Refusal::ALL.map(Refusal::number).into();
    assert_eq!(numbers, (1..=12).chain(14..=16).chain(20..=30).collect::<Vec<_>>());
    assert_eq!(HashSet::from(Refusal::ALL.map(Refusal::cause)).len(), numbers.len());
    let from: Vec<Refusal> = (0..100).filter_map(Refusal::from_number).collect();
    assert_eq!(from, Refusal::ALL);
    assert_eq!(Refusal::from_number(u64::MAX), None);
}

#[test]
fn too_long_is_a_key_or_a_value_over_the_limit() {
    let longest = vec![0; 1_048_576];
    assert!(PointBuilder::new().add(Kind::Put, &longest, 16_777_216, 1, true).is_ok());
    assert_eq!(PointBuilder::new().add(Kind::Put, &[&longest[..], b"x"].concat(), 0, 1, true), Err(Refusal::TOO_LONG));
    assert_eq!(PointBuilder::new().add(Kind::Put, b"A", 16_777_217, 1, true), Err(Refusal::TOO_LONG));
}

#[test]
fn tombstone_is_one_with_length() {
    assert_eq!(PointBuilder::new().add(Kind::Tombstone, b"A", 1, 1, true), Err(Refusal::TOMBSTONE));
}

#[test]
fn order_is_a_new_key_that_is_not_greater() {
    assert_eq!(started().add(Kind::Put, b"A", 8, 1, true), Err(Refusal::ORDER));
    assert_eq!(started().add(Kind::Put, b"B", 8, 1, true), Err(Refusal::ORDER));
}

#[test]
fn order_is_a_continued_key_that_is_absent_or_another() {
    assert_eq!(PointBuilder::new().add(Kind::Put, b"B", 8, 1, false), Err(Refusal::ORDER));
    assert_eq!(started().add(Kind::Put, b"C", 8, 1, false), Err(Refusal::ORDER));
}

#[test]
fn order_is_versions_oldest_first() {
    assert_eq!(started().add(Kind::Put, b"B", 8, 6, false), Err(Refusal::ORDER));
    assert_eq!(started().add(Kind::Put, b"B", 8, 5, false), Err(Refusal::ORDER));
    assert!(started().add(Kind::Put, b"B", 8, 4, false).is_ok());
}

#[test]
fn count_is_a_65_537th_key() {
    let mut builder = PointBuilder::new();
    for i in 0..65_536u32 {
        builder.add(Kind::Put, &i.to_be_bytes(), 0, 1, true).unwrap();
    }
    assert_eq!(builder.add(Kind::Put, &65_536u32.to_be_bytes(), 0, 1, true), Err(Refusal::COUNT));
    assert_eq!(builder.keys(), 65_536);
}

#[test]
fn count_is_finishing_no_key() {
    assert_eq!(PointBuilder::new().finish_legacy(), Err(Refusal::COUNT));
    assert_eq!(finish(&[]), Err(Refusal::COUNT));
}

#[test]
fn place_is_another_place_or_nothing_added() {
    let mut builder = PointBuilder::new();
    assert_eq!(builder.set_value_offset(0, 1), Err(Refusal::PLACE));
    let first = builder.add(Kind::Put, b"A", 8, 2, true).unwrap();
    builder.add(Kind::Put, b"A", 8, 1, false).unwrap();
    assert_eq!(builder.set_value_offset(first, 1), Err(Refusal::PLACE));
}

#[test]
fn arena_is_one_that_breaks_a_rule() {
    let builder = started();
    assert_eq!(finish(&builder.arena()[1..]), Err(Refusal::ARENA));
    assert_eq!(finish(&[builder.arena(), builder.arena()].concat()), Err(Refusal::ARENA));
}

#[test]
fn attempts_is_two_keys_of_equal_hashes_under_every_seed() {
    let mut builder = PointBuilder::new();
    for key in ["41414141414141414242424242424242", "414141415141414142424242424242c2"] {
        builder.add(Kind::Put, &hex(key), 0, 1, true).unwrap();
    }
    assert_eq!(builder.finish_legacy(), Err(Refusal::ATTEMPTS));
}

#[test]
fn hashes_is_too_many_and_they_stay_as_they_were() {
    let mut hashes: Vec<u64> = (0..65_537).rev().collect();
    assert_eq!(SstFilter::build(&mut hashes), Err(Refusal::HASHES));
    assert!(hashes.iter().rev().copied().eq(0..65_537));
}

#[test]
fn damage_is_a_lookup_that_meets_damage() {
    let (body, data) = (example::body(), example::data());
    let number = |body: &[u8], data: &[u8], key| sys::get(body, data, key, None, &mut [0; 4]);
    let damaged = example::patched(89, &[3]);
    let numbers = [number(&body[..31], &data, b"A"), number(&damaged, &data, b"A"), number(&body, &data[..115], b"C")];
    assert_eq!(numbers, [Refusal::DAMAGE.number(); 3]);
}

#[test]
fn filter_is_bytes_that_are_no_filter() {
    assert_eq!(SstFilter::decode(&[]), Err(Refusal::FILTER));
    let filter = SstFilter::build(&mut [1, 2, 3]).unwrap();
    assert_eq!(SstFilter::decode(&filter.encode()[1..]), Err(Refusal::FILTER));
}

#[test]
fn input_is_a_body_too_long_to_list() {
    assert_eq!(listing(0, 0, &vec![0; 65_521]), Err(Refusal::INPUT));
    assert_eq!(listing(0, 0, &vec![0; 65_520]), Err(Refusal::MAGIC));
}

#[test]
fn magic_dimensions_and_pilot() {
    let body = example::body();
    assert_eq!(validate(&body[..31], 116), Err(Refusal::MAGIC));
    assert_eq!(validate(&example::patched(0, b"k"), 116), Err(Refusal::MAGIC));
    assert_eq!(validate(&example::patched(16, &[0; 4]), 116), Err(Refusal::DIMENSIONS));
    assert_eq!(validate(&example::patched(32, &0x8000_0003u32.to_le_bytes()), 116), Err(Refusal::PILOT));
}

#[test]
fn head_key_key_order_and_slot() {
    assert_eq!(validate(&example::body()[..181], 116), Err(Refusal::HEAD));
    assert_eq!(validate(&example::patched(178, &[0; 4]), 116), Err(Refusal::KEY));
    assert_eq!(validate(&example::patched(131, b"A"), 116), Err(Refusal::KEY_ORDER));
    assert_eq!(validate(&example::patched(46, &[1]), 116), Err(Refusal::SLOT));
}

#[test]
fn version_kind_and_value() {
    assert_eq!(validate(&example::body()[..203], 116), Err(Refusal::VERSION));
    assert_eq!(validate(&example::patched(89, &[3]), 116), Err(Refusal::KIND));
    assert_eq!(validate(&example::patched(102, &[9]), 116), Err(Refusal::VALUE));
    assert_eq!(validate(&example::body(), 115), Err(Refusal::VALUE));
}

#[test]
fn left_over_is_a_byte_more() {
    let longer = [&example::body()[..], &[0]].concat();
    assert_eq!(LegacyIndex::decode(&longer, &example::data()).err(), Some(Refusal::LEFT_OVER));
}
