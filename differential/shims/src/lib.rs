//! Stands in for croaring, blake3, metrics, tycho_types and tycho_util: the program names this crate by each of these names.
mod bitmap;

pub use bitmap::{Bitmap64, Portable};

/// The map of the large counts. Its hasher is ahash.
pub type FastHashMap<K, V> = std::collections::HashMap<K, V, ahash::RandomState>;

pub mod io {
    /// Little-endian numbers out of a reader.
    pub trait ByteOrderRead {
        fn read_le_u64(&mut self) -> std::io::Result<u64>;
    }

    impl<R: std::io::Read> ByteOrderRead for R {
        fn read_le_u64(&mut self) -> std::io::Result<u64> {
            let mut eight = [0; 8];
            self.read_exact(&mut eight).map(|()| u64::from_le_bytes(eight))
        }
    }
}

pub mod cell {
    #[derive(Clone, Copy, Debug, PartialEq, Eq, Hash)]
    pub struct HashBytes(pub [u8; 32]);

    impl HashBytes {
        pub fn as_array(&self) -> &[u8; 32] {
            &self.0
        }
    }
}

/// The official hash of Debian's version, with the newer version's `as_slice`.
pub struct Hash(blake3::Hash);

pub const OUT_LEN: usize = 32;

pub fn hash(bytes: &[u8]) -> Hash {
    Hash(blake3::hash(bytes))
}

pub fn keyed_hash(key: &[u8; 32], bytes: &[u8]) -> Hash {
    Hash(blake3::keyed_hash(key, bytes))
}

impl Hash {
    pub fn as_bytes(&self) -> &[u8; OUT_LEN] {
        self.0.as_bytes()
    }

    pub fn as_slice(&self) -> &[u8] {
        self.as_bytes()
    }
}

/// Metrics go nowhere.
pub struct Unmeasured;

impl Unmeasured {
    pub fn set(&self, _: f64) {}

    pub fn increment(&self, _: u64) {}
}

#[macro_export]
macro_rules! counter {
    ($($said:expr),*) => {{
        $(let _ = $said;)*
        $crate::Unmeasured
    }};
}

#[macro_export]
macro_rules! gauge {
    ($($said:expr),*) => {{
        $(let _ = $said;)*
        $crate::Unmeasured
    }};
}
