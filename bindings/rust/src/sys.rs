//! The functions of `libkiban_c.a` on slices: each returns the number that `bindings/c/kiban.h` says, and writes into
//! `answer`. Only this module has `unsafe`: every pointer it passes is a slice's own, with that slice's length.
//!
//! Calls share nothing: none keeps anything for the next, or touches memory that was not lent to it. Any number of
//! threads may call at once; that what a call may write is lent to no other is the borrow checker's to see to.
mod c {
    unsafe extern "C" {
        pub safe fn kiban_mix(h: u64) -> u64;
        pub fn kiban_hash(key: *const u8, n: usize, seed: u64) -> u64;
        pub fn kiban_sort(hashes: *mut u64, n: usize) -> u64;
        pub fn kiban_add(
            buffer: *mut u8,
            buffer_n: usize,
            state: *mut u64,
            state_n: usize,
            key: *const u8,
            key_n: usize,
            kind: u8,
            length: u64,
            sequence: u64,
            new_key: u8,
            answer: *mut u64,
            answer_n: usize,
        ) -> u64;
        pub fn kiban_set_offset(
            buffer: *mut u8,
            buffer_n: usize,
            state: *const u64,
            state_n: usize,
            place: u64,
            offset: u64,
        ) -> u64;
        pub fn kiban_finish(
            arena: *const u8,
            arena_n: usize,
            out: *mut u8,
            out_n: usize,
            wide: *mut u64,
            wide_n: usize,
            narrow: *mut u32,
            narrow_n: usize,
            answer: *mut u64,
            answer_n: usize,
        ) -> u64;
        pub fn kiban_validate(body: *const u8, body_n: usize, data_length: u64) -> u64;
        pub fn kiban_get(
            body: *const u8,
            body_n: usize,
            data: *const u8,
            data_n: usize,
            key: *const u8,
            key_n: usize,
            limited: u8,
            limit: u64,
            answer: *mut u64,
            answer_n: usize,
        ) -> u64;
        pub fn kiban_filter_build(
            hashes: *mut u64,
            hashes_n: usize,
            wide: *mut u64,
            wide_n: usize,
            narrow: *mut u32,
            narrow_n: usize,
            out: *mut u8,
            out_n: usize,
            answer: *mut u64,
            answer_n: usize,
        ) -> u64;
        pub fn kiban_filter_read(bytes: *const u8, n: usize, answer: *mut u64, answer_n: usize) -> u64;
        pub fn kiban_filter_ask(bytes: *const u8, n: usize, hash: u64) -> u64;
        pub fn kiban_filter_ask_all(
            bytes: *const u8,
            n: usize,
            hashes: *const u64,
            hashes_n: usize,
            answers: *mut u8,
            answers_n: usize,
        ) -> u64;
        pub fn kiban_listing(
            input: *const u8,
            n: usize,
            out: *mut u8,
            out_n: usize,
            answer: *mut u64,
            answer_n: usize,
        ) -> u64;
    }
}

/// `h`, mixed: a step of the index's own hash.
pub fn mix(h: u64) -> u64 {
    c::kiban_mix(h)
}

/// The index's own hash of a key. The store's filters do not take it: they take XXH3 of the key, by the host's own code
/// (the store's src/xxh3.rs, not carried over).
pub fn hash(key: &[u8], seed: u64) -> u64 {
    unsafe { c::kiban_hash(key.as_ptr(), key.len(), seed) }
}

/// Sorts hashes where they lie.
pub fn sort(hashes: &mut [u64]) -> u64 {
    unsafe { c::kiban_sort(hashes.as_mut_ptr(), hashes.len()) }
}

/// Adds a record. `state`: used, keys, head; `answer`: the place of its offset.
#[allow(clippy::too_many_arguments)]
pub fn add(
    buffer: &mut [u8],
    state: &mut [u64],
    key: &[u8],
    kind: u8,
    length: u64,
    sequence: u64,
    new_key: u8,
    answer: &mut [u64],
) -> u64 {
    unsafe {
        c::kiban_add(
            buffer.as_mut_ptr(),
            buffer.len(),
            state.as_mut_ptr(),
            state.len(),
            key.as_ptr(),
            key.len(),
            kind,
            length,
            sequence,
            new_key,
            answer.as_mut_ptr(),
            answer.len(),
        )
    }
}

/// Sets the offset of the last record.
pub fn set_offset(buffer: &mut [u8], state: &[u64], place: u64, offset: u64) -> u64 {
    unsafe { c::kiban_set_offset(buffer.as_mut_ptr(), buffer.len(), state.as_ptr(), state.len(), place, offset) }
}

/// Finishes an arena. `answer`: the body's length.
pub fn finish(arena: &[u8], out: &mut [u8], wide: &mut [u64], narrow: &mut [u32], answer: &mut [u64]) -> u64 {
    unsafe {
        c::kiban_finish(
            arena.as_ptr(),
            arena.len(),
            out.as_mut_ptr(),
            out.len(),
            wide.as_mut_ptr(),
            wide.len(),
            narrow.as_mut_ptr(),
            narrow.len(),
            answer.as_mut_ptr(),
            answer.len(),
        )
    }
}

/// Validates a body for data of a length.
pub fn validate(body: &[u8], data_length: u64) -> u64 {
    unsafe { c::kiban_validate(body.as_ptr(), body.len(), data_length) }
}

/// The key's record within the limit: 0 found, 1 nothing, 14. `answer`: kind, sequence, offset, length; of kind 2, a
/// tombstone, there is no value. On a body that [`validate`] does not accept it may be any record of the key, a
/// withdrawn one too: for a figure call [`crate::LegacyIndex::get`].
pub fn get(body: &[u8], data: &[u8], key: &[u8], limit: Option<u64>, answer: &mut [u64]) -> u64 {
    let (limited, limit) = (limit.is_some() as u8, limit.unwrap_or(0));
    unsafe {
        c::kiban_get(
            body.as_ptr(),
            body.len(),
            data.as_ptr(),
            data.len(),
            key.as_ptr(),
            key.len(),
            limited,
            limit,
            answer.as_mut_ptr(),
            answer.len(),
        )
    }
}

/// Builds a filter of the host's hashes. `answer`: the bytes written.
pub fn filter_build(
    hashes: &mut [u64],
    wide: &mut [u64],
    narrow: &mut [u32],
    out: &mut [u8],
    answer: &mut [u64],
) -> u64 {
    unsafe {
        c::kiban_filter_build(
            hashes.as_mut_ptr(),
            hashes.len(),
            wide.as_mut_ptr(),
            wide.len(),
            narrow.as_mut_ptr(),
            narrow.len(),
            out.as_mut_ptr(),
            out.len(),
            answer.as_mut_ptr(),
            answer.len(),
        )
    }
}

/// Reads a filter. `answer`: form, keys, seed, segment, count, cells.
pub fn filter_read(bytes: &[u8], answer: &mut [u64]) -> u64 {
    unsafe { c::kiban_filter_read(bytes.as_ptr(), bytes.len(), answer.as_mut_ptr(), answer.len()) }
}

/// Asks a filter for a hash: 0 absent, 1 maybe, 15.
pub fn filter_ask(bytes: &[u8], hash: u64) -> u64 {
    unsafe { c::kiban_filter_ask(bytes.as_ptr(), bytes.len(), hash) }
}

/// Asks a filter for hashes. `answers`: a byte for each, 0 absent or 1 maybe.
pub fn filter_ask_all(bytes: &[u8], hashes: &[u64], answers: &mut [u8]) -> u64 {
    unsafe {
        c::kiban_filter_ask_all(
            bytes.as_ptr(),
            bytes.len(),
            hashes.as_ptr(),
            hashes.len(),
            answers.as_mut_ptr(),
            answers.len(),
        )
    }
}

/// Lists an input. `answer`: the text's length.
pub fn listing(input: &[u8], out: &mut [u8], answer: &mut [u64]) -> u64 {
    unsafe {
        c::kiban_listing(input.as_ptr(), input.len(), out.as_mut_ptr(), out.len(), answer.as_mut_ptr(), answer.len())
    }
}
