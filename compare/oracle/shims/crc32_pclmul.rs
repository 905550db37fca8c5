//! Shim for the vectorised checksum: the given scalar one, or nothing while timing (TRAILER off). Reached for 128 bytes and more, for
//! the trailer (written and read by the same function here) and the builder's value checksums (unused by finish_legacy).
//! The trailer is no part of a body, so no compared byte depends on it.
pub unsafe fn update(state: u32, data: &[u8]) -> u32 {
    if crate::TRAILER.load(std::sync::atomic::Ordering::Relaxed) { super::update_scalar(state, data) } else { state }
}
