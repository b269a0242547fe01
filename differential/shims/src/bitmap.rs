//! A set of 64-bit numbers as a map from their high halves to sets of Debian's CRoaring, which have bulk calls. Written and read in the
//! portable format of 64-bit sets.
use std::collections::BTreeMap;
use std::ffi::c_char;

#[repr(C)]
struct Raw([u8; 0]);

#[link(name = "roaring")]
unsafe extern "C" {
    fn roaring_bitmap_create() -> *mut Raw;
    fn roaring_bitmap_copy(r: *const Raw) -> *mut Raw;
    fn roaring_bitmap_free(r: *const Raw);
    fn roaring_bitmap_is_empty(r: *const Raw) -> bool;
    fn roaring_bitmap_get_cardinality(r: *const Raw) -> u64;
    fn roaring_bitmap_contains(r: *const Raw, x: u32) -> bool;
    fn roaring_bitmap_add(r: *mut Raw, x: u32);
    fn roaring_bitmap_add_many(r: *mut Raw, n: usize, xs: *const u32);
    fn roaring_bitmap_remove_many(r: *mut Raw, n: usize, xs: *const u32);
    fn roaring_bitmap_or_inplace(r: *mut Raw, other: *const Raw);
    fn roaring_bitmap_shrink_to_fit(r: *mut Raw) -> usize;
    fn roaring_bitmap_portable_size_in_bytes(r: *const Raw) -> usize;
    fn roaring_bitmap_portable_serialize(r: *const Raw, out: *mut c_char) -> usize;
    fn roaring_bitmap_portable_deserialize_size(bytes: *const c_char, most: usize) -> usize;
    fn roaring_bitmap_portable_deserialize_safe(bytes: *const c_char, most: usize) -> *mut Raw;
}

struct Half(*mut Raw);

// SAFETY: a set has one owner, and looking at it changes nothing.
unsafe impl Send for Half {}
unsafe impl Sync for Half {}

impl Half {
    fn new() -> Self {
        Half(unsafe { roaring_bitmap_create() })
    }
}

impl Clone for Half {
    fn clone(&self) -> Self {
        Half(unsafe { roaring_bitmap_copy(self.0) })
    }
}

impl Drop for Half {
    fn drop(&mut self) {
        unsafe { roaring_bitmap_free(self.0) }
    }
}

impl std::fmt::Debug for Half {
    fn fmt(&self, f: &mut std::fmt::Formatter<'_>) -> std::fmt::Result {
        f.write_str("Half")
    }
}

/// The one format that is asked for.
pub struct Portable;

#[derive(Clone, Debug, Default)]
pub struct Bitmap64 {
    halves: BTreeMap<u32, Half>,
    /// What the next `shrink_to_fit` says instead of the library's figure.
    pub saved: Option<usize>,
}

fn high(x: u64) -> u32 {
    (x >> 32) as u32
}

impl Bitmap64 {
    pub fn new() -> Self {
        Self::default()
    }

    pub fn cardinality(&self) -> u64 {
        self.halves.values().map(|h| unsafe { roaring_bitmap_get_cardinality(h.0) }).sum()
    }

    pub fn contains(&self, x: u64) -> bool {
        self.halves.get(&high(x)).is_some_and(|h| unsafe { roaring_bitmap_contains(h.0, x as u32) })
    }

    pub fn add(&mut self, x: u64) {
        let h = self.halves.entry(high(x)).or_insert_with(Half::new);
        unsafe { roaring_bitmap_add(h.0, x as u32) }
    }

    pub fn add_many(&mut self, xs: &[u64]) {
        for part in xs.chunk_by(|a, b| high(*a) == high(*b)) {
            let h = self.halves.entry(high(part[0])).or_insert_with(Half::new);
            let low: Vec<u32> = part.iter().map(|x| *x as u32).collect();
            unsafe { roaring_bitmap_add_many(h.0, low.len(), low.as_ptr()) }
        }
    }

    pub fn remove_many(&mut self, xs: &[u64]) {
        for part in xs.chunk_by(|a, b| high(*a) == high(*b)) {
            if let Some(h) = self.halves.get(&high(part[0])) {
                let low: Vec<u32> = part.iter().map(|x| *x as u32).collect();
                unsafe { roaring_bitmap_remove_many(h.0, low.len(), low.as_ptr()) }
            }
        }
        self.drop_empty();
    }

    // The node's library keeps no empty bucket.
    fn drop_empty(&mut self) {
        self.halves.retain(|_, h| !unsafe { roaring_bitmap_is_empty(h.0) });
    }

    pub fn or_inplace(&mut self, other: &Self) {
        for (k, o) in &other.halves {
            match self.halves.get(k) {
                Some(h) => unsafe { roaring_bitmap_or_inplace(h.0, o.0) },
                None => {
                    self.halves.insert(*k, o.clone());
                }
            }
        }
    }

    pub fn shrink_to_fit(&mut self) -> usize {
        let freed = self.halves.values().map(|h| unsafe { roaring_bitmap_shrink_to_fit(h.0) }).sum();
        self.saved.take().unwrap_or(freed)
    }

    pub fn get_serialized_size_in_bytes<F>(&self) -> usize {
        let each = |h: &Half| 4 + unsafe { roaring_bitmap_portable_size_in_bytes(h.0) };
        8 + self.halves.values().map(each).sum::<usize>()
    }

    pub fn try_serialize_into<'a, F>(&self, out: &'a mut [u8]) -> Option<&'a mut [u8]> {
        let out = out.get_mut(..self.get_serialized_size_in_bytes::<F>())?;
        out[..8].copy_from_slice(&(self.halves.len() as u64).to_le_bytes());
        let mut at = 8;
        for (k, h) in &self.halves {
            out[at..at + 4].copy_from_slice(&k.to_le_bytes());
            at += 4;
            // SAFETY: the length was added up from the same sets.
            at += unsafe { roaring_bitmap_portable_serialize(h.0, out[at..].as_mut_ptr().cast()) };
        }
        Some(out)
    }

    pub fn try_deserialize<F>(bytes: &[u8]) -> Option<Self> {
        let (n, mut rest) = bytes.split_first_chunk::<8>()?;
        let mut set = Self::new();
        for _ in 0..u64::from_le_bytes(*n) {
            let (k, behind) = rest.split_first_chunk::<4>()?;
            let start = behind.as_ptr().cast();
            let len = unsafe { roaring_bitmap_portable_deserialize_size(start, behind.len()) };
            if len == 0 || behind.len() < len {
                return None;
            }
            let raw = unsafe { roaring_bitmap_portable_deserialize_safe(start, len) };
            if raw.is_null() {
                return None;
            }
            set.halves.insert(u32::from_le_bytes(*k), Half(raw));
            rest = &behind[len..];
        }
        set.drop_empty();
        Some(set)
    }
}
