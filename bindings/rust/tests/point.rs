//! Building an index and reading it.
mod example;

use wobarelind::{Answer, Kind, LegacyIndex, PointBuilder, Refusal, finish, sys, validate};

/// A builder with `n` keys of eight bytes, one put of eight bytes each, at rising offsets.
fn numbered(n: u64) -> PointBuilder {
    let mut builder = PointBuilder::new();
    for i in 0..n {
        example::put(&mut builder, Kind::Put, &i.to_be_bytes(), 8, 8 * i, 1, true).unwrap();
    }
    builder
}

/// Their data: the number of each key.
fn numbers(n: u64) -> Vec<u8> {
    (0..n).flat_map(u64::to_le_bytes).collect()
}

/// Looks all of them up, and a key past them.
fn read_back(index: &LegacyIndex<'_, '_>, n: u64) {
    for i in 0..n {
        let put = Answer::Put { seq: 1, offset: 8 * i, value: &i.to_le_bytes() };
        assert_eq!(index.get(&i.to_be_bytes(), None), put);
    }
    assert_eq!(index.get(&n.to_be_bytes(), None), Answer::Nothing);
}

#[test]
fn mix_and_hash_of_zero_and_the_empty_key() {
    assert_eq!((sys::mix(0), sys::hash(b"", 0)), (0, 0));
    assert_eq!(sys::mix(0x9e37_79b9_7f4a_7c15), 0xe220_a839_7b1d_cdaf);
}

#[test]
fn the_example_has_204_bytes_and_is_validated() {
    let body = example::body();
    assert_eq!(body.len(), 204);
    assert_eq!(validate(&body, 116), Ok(()));
}

#[test]
fn a_finished_list_reads_back_whole() {
    let (body, data) = (numbered(2_000).finish_legacy().unwrap(), numbers(2_000));
    read_back(&LegacyIndex::decode(&body, &data).unwrap(), 2_000);
}

/// Eight threads read one index, each while it builds the same one anew.
#[test]
fn calls_of_several_threads_at_once() {
    let (body, data) = (numbered(500).finish_legacy().unwrap(), numbers(500));
    let index = LegacyIndex::decode(&body, &data).unwrap();
    let work = || {
        read_back(&index, 500);
        assert_eq!(numbered(500).finish_legacy().unwrap(), body);
        read_back(&index, 500);
    };
    std::thread::scope(|threads| (0..8).for_each(|_| drop(threads.spawn(work))));
}

#[test]
fn the_buffer_grows_and_keeps_what_was_added() {
    let mut builder = PointBuilder::new();
    let keys: Vec<Vec<u8>> = (0..40).map(|i| vec![i; 50 * i as usize + 1]).collect();
    let mut arena = Vec::new();
    for key in &keys {
        let place = builder.add(Kind::Put, key, 5, 7, true).unwrap();
        builder.set_value_offset(place, 3).unwrap();
        arena.extend_from_slice(&(key.len() as u32).to_le_bytes());
        arena.extend_from_slice(&1u32.to_le_bytes());
        arena.extend_from_slice(key);
        arena.extend_from_slice(&7u64.to_le_bytes());
        arena.push(1);
        arena.extend_from_slice(&5u32.to_le_bytes());
        assert_eq!(place, arena.len());
        arena.extend_from_slice(&3u64.to_le_bytes());
        assert_eq!(builder.arena(), arena);
    }
    assert_eq!(builder.keys(), keys.len());
}

#[test]
fn a_refused_record_leaves_the_builder_as_it_was() {
    let mut builder = numbered(3);
    let before = builder.arena().to_vec();
    assert_eq!(builder.add(Kind::Put, b"", 8, 1, true), Err(Refusal::ORDER));
    assert_eq!((builder.arena(), builder.keys()), (&before[..], 3));
    builder.add(Kind::Put, &9u64.to_be_bytes(), 8, 1, true).unwrap();
}

#[test]
fn an_arena_from_elsewhere_finishes_to_the_same_body() {
    let builder = numbered(100);
    assert_eq!(finish(builder.arena()), builder.finish_legacy());
}

#[test]
fn a_limit_at_a_sequence_holds_it_and_one_below_does_not() {
    let (body, data) = (example::body(), example::data());
    let index = LegacyIndex::decode(&body, &data).unwrap();
    let newest = Answer::Put { seq: 9, offset: 100, value: &data[100..108] };
    let older = Answer::Put { seq: 4, offset: 40, value: &data[40..48] };
    assert_eq!([9, 8, 4, 3].map(|limit| index.get(b"A", Some(limit))), [newest, older, older, Answer::Nothing]);
}

#[test]
fn no_limit_is_the_greatest_limit() {
    let (body, data) = (example::body(), example::data());
    let index = LegacyIndex::decode(&body, &data).unwrap();
    for key in [&b""[..], b"A", b"B", b"C", b"D"] {
        assert_eq!(index.get(key, None), index.get(key, Some(u64::MAX)));
    }
}

#[test]
fn a_value_is_that_part_of_the_data() {
    let (body, data) = (example::body(), example::data());
    let index = LegacyIndex::decode(&body, &data).unwrap();
    assert!(std::ptr::eq(index.get(b"A", None).value().unwrap(), &data[100..108]));
}

#[test]
fn a_withdrawn_key_has_its_value_before_the_withdrawal_only() {
    let (body, data) = (example::body(), example::data());
    let index = LegacyIndex::decode(&body, &data).unwrap();
    let (withdrawn, before) = (Answer::Withdrawn { seq: 7 }, Answer::Put { seq: 3, offset: 60, value: &data[60..68] });
    let answers = [None, Some(7), Some(6), Some(2)].map(|limit| index.get(b"B", limit));
    assert_eq!(answers, [withdrawn, withdrawn, before, Answer::Nothing]);
    assert_eq!(answers.map(Answer::value), [None, None, Some(&data[60..68]), None]);
}

/// A tombstone with a length (byte 141 is that of B's), and A's versions oldest first (those from byte 81 and 102 on): the
/// library tells what stands there, and the package has no lookup in such bytes.
#[test]
fn bytes_that_would_give_a_withdrawn_figure_are_no_index() {
    let data = example::data();
    let with_length = example::patched(141, &[8]);
    let oldest_first = example::patched(81, &[&example::body()[102..123], &example::body()[81..102]].concat());
    for (body, key, told) in [(with_length, b"B", [2, 7, 108, 8]), (oldest_first, b"A", [1, 4, 40, 8])] {
        let mut answer = [0; 4];
        assert_eq!((sys::get(&body, &data, key, None, &mut answer), answer), (0, told));
        assert_eq!(LegacyIndex::decode(&body, &data).err(), Some(Refusal::VALUE));
    }
}

#[test]
fn an_index_is_shown_without_its_data() {
    let (body, data) = (example::body(), example::data());
    let index = LegacyIndex::decode(&body, &data).unwrap();
    assert_eq!(format!("{index:?}"), "LegacyIndex(a body of 204 bytes, data of 116)");
}

#[test]
fn a_value_outlives_the_index_and_the_body() {
    let data = example::data();
    let value = {
        let body = example::body();
        LegacyIndex::decode(&body, &data).unwrap().get(b"C", None).value()
    };
    assert_eq!(value, Some(&data[108..116]));
}

#[test]
fn empty_keys_values_and_data_are_taken() {
    let mut builder = PointBuilder::new();
    builder.add(Kind::Put, b"", 0, 0, true).unwrap();
    let body = builder.finish_legacy().unwrap();
    let index = LegacyIndex::decode(&body, &[]).unwrap();
    assert_eq!(index.get(b"", Some(0)), Answer::Put { seq: 0, offset: 0, value: &[] });
}

#[test]
fn kinds_and_their_bytes() {
    assert_eq!(
        [Kind::Put, Kind::Tombstone].map(|kind| Kind::from_u8(kind.to_u8())),
        [Some(Kind::Put), Some(Kind::Tombstone)]
    );
    assert_eq!([Kind::from_u8(0), Kind::from_u8(3)], [None, None]);
}
