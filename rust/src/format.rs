//! Records, and the hash.
use crate::{DeltaItems, Mode, NurseryDelta, Refusal, raw, size, sys};

/// Bytes in a hash.
pub const HASH_LEN: usize = 32;

// The hash and the length in front of a record's payload.
const PREFIX_LEN: usize = HASH_LEN + 8;

// The id and the two numbers of items in front of a payload's items.
const COUNTS_LEN: usize = 16;

/// BLAKE3 of bytes.
pub fn hash(bytes: &[u8]) -> [u8; HASH_LEN] {
    let mut hash = [0; HASH_LEN];
    // SAFETY: a slice, and an array to write.
    unsafe { sys::selvaigo_hash(bytes.as_ptr(), bytes.len(), &mut hash) };
    hash
}

/// BLAKE3 of bytes under a key.
pub fn keyed_hash(key: &[u8; 32], bytes: &[u8]) -> [u8; HASH_LEN] {
    raw::keyed_hash(key, bytes).expect("a key of 32 bytes")
}

/// The figures of a record.
#[derive(Debug, Clone, Copy, PartialEq, Eq, Default)]
pub struct RecordStats {
    /// Bytes of the payload.
    pub payload_bytes: u64,
    /// Those of them that aren't bytes of cells.
    pub metadata_bytes: u64,
    /// Bytes of cells.
    pub cell_bytes: u64,
    /// Inserts.
    pub insert_ops: u64,
    /// Removes.
    pub remove_ops: u64,
}

impl RecordStats {
    pub(crate) fn of(figures: [u64; 5]) -> Self {
        let [payload_bytes, metadata_bytes, cell_bytes, insert_ops, remove_ops] = figures;
        Self { payload_bytes, metadata_bytes, cell_bytes, insert_ops, remove_ops }
    }
}

/// A record that was written.
#[derive(Debug, Clone, PartialEq, Eq)]
pub struct EncodedRecord {
    id: u64,
    bytes: Vec<u8>,
    stats: RecordStats,
}

impl EncodedRecord {
    /// The id that it was given.
    pub fn id(&self) -> u64 {
        self.id
    }

    /// Its bytes.
    pub fn bytes(&self) -> &[u8] {
        &self.bytes
    }

    /// Its hash, which covers length and payload.
    pub fn hash(&self) -> &[u8; HASH_LEN] {
        self.bytes.first_chunk().expect("a record starts with its hash")
    }

    /// Its figures.
    pub fn stats(&self) -> &RecordStats {
        &self.stats
    }
}

/// The record of a delta, hashed in a mode. A cell or a list that is too long is refused.
pub fn encode_record(mode: &Mode, id: u64, delta: &NurseryDelta) -> Result<EncodedRecord, Refusal> {
    encoded(mode, id, &delta.to_items()?)
}

pub(crate) fn encoded(mode: &Mode, id: u64, items: &DeltaItems<'_>) -> Result<EncodedRecord, Refusal> {
    let mut bytes = vec![0; PREFIX_LEN + COUNTS_LEN + items.bytes.len()];
    let (len, stats) = encode_items(mode, id, items, &mut bytes)?;
    bytes.truncate(len);
    Ok(EncodedRecord { id, bytes, stats })
}

/// The record of a delta that is at hand as bytes, hashed in a mode, into the front of `out`: its length and figures. Bytes after the last item are
/// ignored, and not written.
pub fn encode_items(mode: &Mode, id: u64, items: &DeltaItems<'_>, out: &mut [u8]) -> Result<(usize, RecordStats), Refusal> {
    raw::encode_items(mode.key(), id, items, out)
}

/// A record that was read.
#[derive(Debug, Clone, PartialEq, Eq)]
pub struct DecodedRecord<'a> {
    /// Its id.
    pub id: u64,
    /// Its hash.
    pub hash: [u8; HASH_LEN],
    /// Its delta's items, in the bytes that were read, with nothing after them.
    pub items: DeltaItems<'a>,
    /// Its figures.
    pub stats: RecordStats,
}

impl DecodedRecord<'_> {
    /// How many bytes it takes: the next record of a journal starts there.
    pub fn record_len(&self) -> usize {
        PREFIX_LEN + size(self.stats.payload_bytes)
    }

    /// Its delta.
    pub fn delta(&self) -> NurseryDelta {
        self.items.to_delta().expect("items that fit were read")
    }
}

/// The record that bytes start with, whatever follows it, where its hash is the one in a mode. One whose payload goes on after its last item is refused with
/// [`Refusal::Leftover`]; what is taken is what [`encode_record`] writes in that mode, byte for byte.
pub fn decode_record<'a>(mode: &Mode, bytes: &'a [u8]) -> Result<DecodedRecord<'a>, Refusal> {
    raw::decode_record(mode.key(), bytes)
}
