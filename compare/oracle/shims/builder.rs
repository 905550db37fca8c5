//! Shim. Named only by point.rs's test fixture, which the oracle never calls.
pub const FOOTER_LEN: usize = 0;
pub const POINT_FOOTER_EXTRA: usize = 0;
pub struct TableBuilder;
impl TableBuilder {
    pub fn finish(self) -> Result<Vec<u8>, super::SstError> {
        unreachable!("builder shim reached")
    }
}
