//! The listing's text.
mod example;

use wobarelind::{Kind, PointBuilder, Refusal, listing};

#[test]
fn the_example_at_limit_8() {
    let text = listing(8, example::data().len() as u64, &example::body());
    assert_eq!(text.unwrap(), "limit 8 keys 3 shown 1\n41 4 put 40 8\n");
}

/// Key A is put at 9, withdrawn at 4. The listing leaves out a key whose newest record is a tombstone, and A's is not.
#[test]
fn a_key_withdrawn_within_the_limit_and_put_past_it_is_shown_as_tomb() {
    let mut builder = PointBuilder::new();
    example::put(&mut builder, Kind::Put, b"A", 8, 0, 9, true).unwrap();
    example::put(&mut builder, Kind::Tombstone, b"A", 0, 8, 4, false).unwrap();
    let body = builder.finish_legacy().unwrap();
    assert_eq!(listing(8, 8, &body).unwrap(), "limit 8 keys 1 shown 1\n41 4 tomb 8 0\n");
    assert_eq!(listing(3, 8, &body).unwrap(), "limit 3 keys 1 shown 0\n");
}

#[test]
fn a_body_that_validation_refuses_is_not_listed() {
    assert_eq!(listing(8, 115, &example::body()), Err(Refusal::VALUE));
    assert_eq!(listing(8, 116, &example::patched(102, &[9])), Err(Refusal::VALUE));
    assert_eq!(listing(8, 116, &[]), Err(Refusal::MAGIC));
}
