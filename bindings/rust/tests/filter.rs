//! Filters of hashes.
use wobarelind::SstFilter;
use wobarelind::sys::mix;

/// `n` hashes, no two equal: drawn numbers in place of the store's XXH3 of keys.
fn hashes(n: u64) -> Vec<u64> {
    (1..=n).map(mix).collect()
}

#[test]
fn members_are_never_absent() {
    for n in [1, 2, 3, 4, 5, 14, 100, 1_000, 65_536] {
        let filter = SstFilter::build(&mut hashes(n)).unwrap();
        assert_eq!(filter.sizes().map(|sizes| sizes.keys), Some(n));
        assert!(hashes(n).iter().all(|&hash| filter.may_contain_hash(hash)), "{n} hashes");
    }
}

#[test]
fn most_others_are_absent() {
    let filter = SstFilter::build(&mut hashes(1_000)).unwrap();
    let others = (1_001..=11_000).filter(|&i| filter.may_contain_hash(mix(i))).count();
    assert!(others < 100, "{others} of 10,000");
}

#[test]
fn asked_at_once_is_asked_one_by_one() {
    let filter = SstFilter::build(&mut hashes(50)).unwrap();
    let asked = hashes(2_000);
    let one_by_one: Vec<bool> = asked.iter().map(|&hash| filter.may_contain_hash(hash)).collect();
    assert_eq!(filter.may_contain_hashes(&asked), one_by_one);
    assert_eq!(filter.may_contain_hashes(&[]), []);
}

#[test]
fn bytes_read_again_are_the_same_filter() {
    let filter = SstFilter::build(&mut hashes(300)).unwrap();
    assert_eq!(SstFilter::decode(filter.encode()), Ok(filter));
}

#[test]
fn no_hashes_or_equal_hashes_give_the_positive_filter() {
    for mut few in [vec![], vec![7, 5, 7]] {
        let filter = SstFilter::build(&mut few).unwrap();
        assert_eq!((filter.sizes(), filter.encode().len()), (None, 48));
        assert!(filter.may_contain_hash(12345));
        assert_eq!(SstFilter::decode(filter.encode()), Ok(filter));
    }
}

#[test]
fn building_leaves_the_hashes_sorted() {
    let mut built = hashes(500);
    SstFilter::build(&mut built).unwrap();
    assert!(built.is_sorted());
}

#[test]
fn sizes_at_the_edges() {
    let sizes = |n| SstFilter::build(&mut hashes(n)).unwrap().sizes().map(|s| (s.segment, s.count + 3, s.cells));
    assert_eq!([sizes(1), sizes(3), sizes(4), sizes(5)], [(1, 14, 14), (1, 14, 14), (1, 15, 15), (2, 9, 18)].map(Some));
    assert_eq!(sizes(65_536), Some((512, 146, 74_752)));
}
