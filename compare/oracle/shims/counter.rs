//! Shim. Used only by BlockCache's statistics, which nothing compared reads.
#[derive(Debug, Default)]
pub struct Counter(std::sync::atomic::AtomicU64);
impl Counter {
    pub fn increment(&self) {
        self.0.fetch_add(1, std::sync::atomic::Ordering::Relaxed);
    }
    pub fn load(&self) -> u64 {
        self.0.load(std::sync::atomic::Ordering::Relaxed)
    }
}
